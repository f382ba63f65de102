"""What is said of one patch that a device cut. Every verdict on triangles is the proved check's."""

from typing import Tuple

import yoktvarim
from yoktvarim import Accepted, Isolines, Mesh, Quads, Record
from yoktvarim.check import MissingPiece, OpenSide

from .edges import Moved, move_outline
from .finding import Finding, Outcome, faulty, units
from .isolines_and_dots import judge_isolines_or_dots
from .job import AnyRecord
from .text import Answer, Discarded, Drawn, Point, Refused
from .triangles import areas_of, fault_kind, fault_words


def judge(record: AnyRecord, answer: Answer) -> Finding:
    if not isinstance(record, Record):
        if answer == Refused(record.number):
            return Finding(Outcome.REFUSED, f"refused {record.number}")
        return faulty("not refused", f"should be refused {record.number}")
    if isinstance(answer, Refused):
        return faulty("refused", f"should not be refused {answer.number}")
    right = yoktvarim.mesh(record.patch, record.settings)
    if isinstance(right, yoktvarim.Discarded) and isinstance(answer, Discarded):
        return Finding(Outcome.DISCARDED, "discarded")
    if isinstance(right, yoktvarim.Discarded):
        return faulty("drawn, should be discarded", "drawn, and discarded by the rules")
    if isinstance(answer, Discarded):
        return faulty("discarded, should be drawn", f"discarded, and {len(right.points())} points by the rules")
    return _judge_drawn(record, answer, right)


def _judge_drawn(record: Record, mesh: Drawn, right: Mesh) -> Finding:
    found, wanted = (len(mesh.points), len(mesh.indices)), (len(right.points()), len(right.indices))
    other_counts = f"{found[0]} points and {found[1]} indices, {wanted[0]} and {wanted[1]} by the rules" if found != wanted else ""
    if record.kind is not Isolines and not record.settings.point_mode:
        return _judge_triangles(record, mesh, right, other_counts)
    if max(mesh.indices, default=-1) >= len(mesh.points):
        return faulty("an index is past the points", f"index {max(mesh.indices)} is past the points", counts=not other_counts)
    if other_counts:
        return faulty("isolines or dots of other counts", other_counts, counts=False)
    return judge_isolines_or_dots(record, mesh, right)


def _judge_triangles(record: Record, mesh: Drawn, right: Mesh, other_counts: str) -> Finding:
    patch, settings = record.patch, record.settings
    verdict = yoktvarim.check_mesh(patch, settings, mesh.vertices, mesh.indices)
    said = f"; {other_counts}" if other_counts else ""
    if max(mesh.indices, default=-1) >= len(mesh.points):
        return faulty("an index is past the points", f"{verdict}{said}", counts=not other_counts)
    rest = {
        "counts": not other_counts,
        "area": areas_of(record, mesh).whole,
        "inner_along": _inner_along(record, mesh, right),
    }
    if isinstance(verdict, Accepted):
        return Finding(Outcome.ACCEPTED, f"accepted{said}", **rest)
    words = f"{fault_words(verdict, record, mesh)}; "
    moved = move_outline(mesh, record.kind, right.points())
    if not isinstance(moved, Moved):
        # Of all faults only an open side and a missing piece can come of another outline; the others are the device's own.
        kind = "other segments on an outer edge" if _is_of_outline(verdict) else fault_kind(verdict, record, mesh)
        return faulty(kind, f"{words}{moved}{said}", **rest)
    again = yoktvarim.check_mesh(patch, settings, moved.mesh.vertices, moved.mesh.indices)
    result = "accepted" if isinstance(again, Accepted) else "the same fault" if again == verdict else str(again)
    words += f"with the outline moved by up to {units(moved.farthest)}: {result}{said}"
    if not _is_of_outline(verdict) or again == verdict:
        return faulty(fault_kind(verdict, record, mesh), words, **rest)
    if not isinstance(again, Accepted):
        return faulty(f"with the outline moved: {fault_kind(again, record, moved.mesh)}", words, **rest)
    return Finding(Outcome.MOVED, words, farthest=moved.farthest, **rest)


def _is_of_outline(fault: yoktvarim.Fault) -> bool:
    return isinstance(fault, (OpenSide, MissingPiece))


def _inner_along(record: Record, mesh: Drawn, right: Mesh) -> str:
    """Which coordinate the first inner level of quads divides; by the rules it places rows, so it divides v."""
    if record.kind is not Quads:
        return ""
    found, wanted = _inner_counts(mesh.points), _inner_counts(right.points())
    if wanted[0] == wanted[1]:
        return ""
    return "v" if found == wanted else "u" if found == wanted[::-1] else ""


def _inner_counts(points: "list[Point]") -> Tuple[int, int]:
    """How many different u and v the points inside a quad patch have."""
    inside = [point for point in points if all(0 < word < yoktvarim.ONE_IN_QUADS for word in point[:2])]
    return len({point[0] for point in inside}), len({point[1] for point in inside})
