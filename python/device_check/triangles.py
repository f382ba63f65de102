"""The triangles of a mesh: their areas and turns, for words only. Whether a mesh is accepted is for the proved check alone."""

from typing import List, NamedTuple

import yoktvarim
from yoktvarim import DomainOrigin, Quads, Record, VertexOrder
from yoktvarim.check import EqualPoints, MissingPiece, OpenSide, Outside, SideTwice, Turned

from .text import Drawn, Point


def area(corners: List[Point]) -> int:
    """Twice the signed area of a triangle."""
    (a, b, _), (c, d, _), (e, f, _) = corners
    return (c - a) * (f - b) - (e - a) * (d - b)


class Areas(NamedTuple):
    """Counted with the sign that the settings ask for."""

    empty: int  # triangles without area
    turned: int  # triangles that turn the wrong way
    whole: bool  # whether all add up to the patch's area


def areas_of(record: Record, mesh: Drawn) -> Areas:
    settings = record.settings
    is_positive = (settings.vertex_order is VertexOrder.COUNTER_CLOCKWISE) == (settings.domain_origin is DomainOrigin.LOWER_LEFT)
    found = [area([mesh.points[number] for number in corners]) * (1 if is_positive else -1) for corners in mesh.triangles]
    whole = 2 * yoktvarim.ONE_IN_QUADS**2 if record.kind is Quads else yoktvarim.ONE_IN_TRIANGLES**2
    return Areas(found.count(0), sum(one < 0 for one in found), sum(found) == whole)


_KINDS = {
    Outside: "a point is outside",
    EqualPoints: "two points are equal",
    SideTwice: "a side is used twice",
    OpenSide: "a side is open",
    MissingPiece: "a piece of the outline is missing",
}


def fault_kind(fault: yoktvarim.Fault, record: Record, mesh: Drawn) -> str:
    """The check has one name for triangles without area and turned ones; devices have them for different reasons."""
    if isinstance(fault, Turned):
        return "triangles turn the wrong way" if areas_of(record, mesh).turned else "triangles have no area"
    return _KINDS.get(type(fault), str(fault))


def fault_words(fault: yoktvarim.Fault, record: Record, mesh: Drawn) -> str:
    if not isinstance(fault, Turned):
        return str(fault)
    areas = areas_of(record, mesh)
    corners = ", ".join(" ".join(map(str, mesh.points[number])) for number in mesh.triangles[fault.triangle])
    return f"{fault} ({corners}); {areas.empty} of {len(mesh.triangles)} have no area, {areas.turned} turn the wrong way"
