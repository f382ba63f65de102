"""Isolines and dots, which have no triangles to check: they are compared with what the proved calls draw."""

from collections import Counter
from fractions import Fraction
from typing import List

from yoktvarim import ONE_IN_QUADS, ONE_IN_TRIANGLES, Isolines, Mesh, Record, Triangles

from .edges import OtherSegments, move_outline
from .finding import Finding, Outcome, faulty, units
from .text import Drawn, Point


def is_inside(kind: type, point: Point) -> bool:
    if kind is Triangles:
        return sum(point) == ONE_IN_TRIANGLES
    return max(point) <= ONE_IN_QUADS and point[2] == 0


def judge_isolines_or_dots(record: Record, mesh: Drawn, right: Mesh) -> Finding:
    """Of a mesh that has the rules' counts."""
    outside = [number for number, point in enumerate(mesh.points) if not is_inside(record.kind, point)]
    if outside:
        return faulty("a point is outside", f"point {outside[0]} lies outside the patch", counts=True)
    used = Counter(mesh.indices)
    if record.settings.point_mode and len(used) != len(mesh.points):
        return faulty("a dot is drawn twice", f"dot {used.most_common(1)[0][0]} is drawn twice", counts=True)
    return _isolines(record, mesh, right) if record.kind is Isolines else _dots(record, mesh, right)


_SAME = Finding(Outcome.SAME, "as by the rules", counts=True)


def _ranks(points: List[Point]) -> List[int]:
    """The rank of each point, line by line and along u."""
    order = sorted(range(len(points)), key=lambda number: (points[number][1], points[number][0]))
    return [rank for _, rank in sorted((number, rank) for rank, number in enumerate(order))]


def _joined(indices: List[int], ranks: List[int]) -> Counter:
    """Each line by the ranks of its ends, from either end the same."""
    return Counter(tuple(sorted((ranks[one], ranks[other]))) for one, other in zip(indices[::2], indices[1::2]))


def _isolines(record: Record, mesh: Drawn, right: Mesh) -> Finding:
    """By the ranks of the points: where the points of each rank lie, and which ranks the lines join."""
    wanted = right.points()
    ranks, right_ranks = _ranks(mesh.points), _ranks(wanted)
    if not record.settings.point_mode:
        others = _joined(list(mesh.indices), ranks) - _joined(list(right.indices), right_ranks)
        if others:
            one, other = (mesh.points[ranks.index(rank)] for rank in next(iter(others)))
            words = f"{sum(others.values())} lines join other points than by the rules, as {one[:2]} and {other[:2]}"
            return faulty("lines join other points", words, counts=True)
    pairs = zip(sorted(zip(ranks, mesh.points)), sorted(zip(right_ranks, wanted)))
    farthest = max(abs(a - b) for (_, one), (_, other) in pairs for a, b in zip(one, other))
    if farthest == 0:
        return _SAME
    words = f"the farthest point is {farthest} units from the rules' place"
    return Finding(Outcome.ELSEWHERE, words, farthest=Fraction(farthest), counts=True)


def _dots(record: Record, mesh: Drawn, right: Mesh) -> Finding:
    """Along the outline by rank; inside, dots may lie anywhere, and it is said how many are not the rules'."""
    wanted = right.points()
    moved = move_outline(mesh, record.kind, wanted)
    if isinstance(moved, OtherSegments):
        return faulty("other segments on an outer edge", str(moved), counts=True)
    others = len(set(mesh.points) - set(wanted))
    if others == 0:
        return _SAME
    words = f"{others} of {len(wanted)} dots are not at the rules' places; on the outline up to {units(moved.farthest)} from them"
    return Finding(Outcome.ELSEWHERE, words, farthest=moved.farthest, counts=True)
