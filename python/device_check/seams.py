"""Whether the places along an outer edge depend on its spacing, level and top alone, and read the same from either end."""

from bisect import bisect
from collections import Counter, defaultdict
from dataclasses import dataclass, field
from fractions import Fraction
from typing import Dict, Iterable, List, NamedTuple, Tuple

from yoktvarim import Record, Spacing

from .edges import LENGTH, Edge, edges_of, places
from .job import AnyRecord
from .text import Answer, Drawn, Point


class EdgeFound(NamedTuple):
    name: str  # the patch and the edge
    outline: Tuple[int, ...]  # the places of the outline's points
    points: Tuple[int, ...]  # the places of all points that lie on it


@dataclass
class Seams:
    """What was seen of the edges of one spacing."""

    levels: int = 0  # that two edges or more have
    edges: int = 0  # that have one of these levels
    gaps: List[str] = field(default_factory=list)  # edges with other places than most of their level, or than from their other end
    widest: Fraction = Fraction(0)  # gap, in units
    beside: List[str] = field(default_factory=list)  # edges on which points lie that are not of the outline


def find_seams(cut: Iterable[Tuple[int, AnyRecord, Answer]]) -> Dict[Spacing, Seams]:
    """Over all outer edges of all patches that are drawn as triangles, each with its number."""
    alike: Dict[Tuple, List[EdgeFound]] = defaultdict(list)
    for number, record, answer in cut:
        if isinstance(record, Record) and isinstance(answer, Drawn) and not record.settings.point_mode:
            ends = _outline_points(answer)
            for edge, level in zip(edges_of(record.kind), record.patch.outer):
                key = record.settings.spacing, level, record.settings.top
                alike[key].append(_edge_found(f"patch {number}, edge {edge.name}, level {level:.9g}", edge, answer, ends))
    found = {spacing: Seams() for spacing in Spacing}
    for (spacing, *_), edges in alike.items():
        if len(edges) > 1:
            _look_at(found[spacing], edges)
    return found


def _outline_points(mesh: Drawn) -> List[Point]:
    """The ends of the sides that do not meet their reverse; no points where an index is past them."""
    if max(mesh.indices, default=-1) >= len(mesh.points):
        return []
    sides = Counter(side for a, b, c in mesh.triangles for side in ((a, b), (b, c), (c, a)))
    open_sides = (side for side, count in sides.items() if count > sides[side[::-1]])
    return [mesh.points[number] for number in {number for side in open_sides for number in side}]


def _edge_found(name: str, edge: Edge, mesh: Drawn, ends: List[Point]) -> EdgeFound:
    return EdgeFound(name, tuple(places(edge, ends)), tuple(places(edge, mesh.points)))


def _look_at(seams: Seams, edges: List[EdgeFound]) -> None:
    seams.levels += 1
    seams.edges += len(edges)
    usual = Counter(edge.outline for edge in edges).most_common(1)[0][0]
    for edge in edges:
        mirrored = tuple(LENGTH - place for place in reversed(edge.outline))
        gap = max(_gap(edge.outline, usual), _gap(edge.outline, mirrored))
        if gap > 0:
            seams.gaps.append(f"{edge.name}: up to {float(gap):.1f} units beside most edges of this level, or beside its own mirror image")
            seams.widest = max(seams.widest, gap)
        if edge.points != edge.outline:
            seams.beside.append(f"{edge.name}: {len(edge.points)} points, {len(edge.outline)} of the outline")


def _gap(one: Tuple[int, ...], other: Tuple[int, ...]) -> Fraction:
    """How many units the farthest place of either is from the nearest place of the other; the whole edge where one has none."""
    if one == other:
        return Fraction(0)
    if not one or not other:
        return Fraction(LENGTH, 3)
    return Fraction(max(_farthest(one, other), _farthest(other, one)), 3)


def _farthest(some: Tuple[int, ...], others: Tuple[int, ...]) -> int:
    nearest = (others[max(0, at - 1) : at + 1] for at in (bisect(others, place) for place in some))
    return max(min(abs(place - near) for near in nears) for place, nears in zip(some, nearest))
