"""The outer edges of a patch: which points lie on one, and where along it, in walk order."""

from dataclasses import dataclass, replace
from fractions import Fraction
from typing import Callable, Dict, List, Tuple, Union

from yoktvarim import ONE_IN_QUADS as SQUARE
from yoktvarim import Quads, Triangles

from .text import Drawn, Point

# An edge is 65,536 units long in patches of either kind; places are counted in thirds of a unit, so that they are whole in both.
LENGTH = 3 * SQUARE


@dataclass(frozen=True)
class Edge:
    name: str
    holds: Callable[[Point], bool]
    place: Callable[[Point], int]


_TRIANGLE_EDGES = (
    Edge("u = 0", lambda point: point[0] == 0, lambda point: point[2]),
    Edge("v = 0", lambda point: point[1] == 0, lambda point: point[0]),
    Edge("w = 0", lambda point: point[2] == 0, lambda point: point[1]),
)
_QUAD_EDGES = (
    Edge("u = 0", lambda point: point[0] == 0, lambda point: 3 * (SQUARE - point[1])),
    Edge("v = 0", lambda point: point[1] == 0, lambda point: 3 * point[0]),
    Edge("u = 1", lambda point: point[0] == SQUARE, lambda point: 3 * point[1]),
    Edge("v = 1", lambda point: point[1] == SQUARE, lambda point: 3 * (SQUARE - point[0])),
)
_EDGES = {Triangles: _TRIANGLE_EDGES, Quads: _QUAD_EDGES}


def edges_of(kind: type) -> Tuple[Edge, ...]:
    """The outer edges, in the order of their levels; isolines have none."""
    return _EDGES.get(kind, ())


def places(edge: Edge, points: List[Point]) -> List[int]:
    return sorted({edge.place(point) for point in points if edge.holds(point)})


@dataclass(frozen=True)
class Moved:
    """A mesh whose points on outer edges lie at the rules' places, and how many units the farthest was moved."""

    mesh: Drawn
    farthest: Fraction


@dataclass(frozen=True)
class OtherSegments:
    """An outer edge with another number of points than by the rules, so that they cannot be moved."""

    edge: Edge
    segments: int
    right: int

    def __str__(self) -> str:
        return f"the edge {self.edge.name} has {self.segments} segments, and {self.right} by the rules"


def move_outline(mesh: Drawn, kind: type, right: List[Point]) -> Union[Moved, OtherSegments]:
    """Moves each point on an outer edge to the place that the rules' points have at the same rank along it."""
    targets: Dict[int, Point] = {}
    farthest = 0
    for edge in edges_of(kind):
        numbers = [number for number, point in enumerate(mesh.points) if edge.holds(point)]
        numbers.sort(key=lambda number: edge.place(mesh.points[number]))
        goals = sorted(filter(edge.holds, right), key=edge.place)
        if len(numbers) != len(goals):
            return OtherSegments(edge, len(numbers) - 1, len(goals) - 1)
        for number, goal in zip(numbers, goals):
            farthest = max(farthest, abs(edge.place(mesh.points[number]) - edge.place(goal)))
            targets[number] = goal
    points = [targets.get(number, point) for number, point in enumerate(mesh.points)]
    return Moved(replace(mesh, points=points), Fraction(farthest, 3))
