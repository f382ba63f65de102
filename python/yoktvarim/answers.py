"""What the calls answer. Each answer is a class of its own, with the values that belong to it.

    answer = yoktvarim.draw_points(patch, settings, vertices)
    if isinstance(answer, yoktvarim.PointsDrawn):
        print(answer.points)

`number` is the answer's number in the rules.
"""

from array import array
from dataclasses import dataclass, field
from enum import Enum
from typing import ClassVar, List, Tuple


@dataclass(frozen=True)
class Answer:
    """An answer is neither true nor false, so that no refusal passes for success: ask which class it has."""

    number: ClassVar[int]

    def __bool__(self) -> bool:
        raise TypeError(f"{self!r} is neither true nor false; use isinstance or match")


@dataclass(frozen=True)
class Discarded(Answer):
    """An outer level that counts is NaN or not above 0."""

    number = 1


@dataclass(frozen=True)
class NoRoomForVertices(Answer):
    """The vertex list has under 3 words a point; it has not changed."""

    number = 3


@dataclass(frozen=True)
class NoRoomForIndices(Answer):
    """The index list is too short; it has not changed."""

    number = 4


@dataclass(frozen=True)
class BadTop(Answer):
    """The top is not an even number from 2 to 64. Reported before everything else."""

    number = 11


class Clamp(Enum):
    """Where a level lies against the range it is clamped to: 1 to the top for equal spacing, 2 to the top for fractional even, 1 to
    one less than the top for fractional odd; that of the number of isolines is always that of equal spacing. Either end is inside.
    """

    BELOW = 1  # the low end was taken instead, for an inner NaN too
    INSIDE = 2
    ABOVE = 3  # the high end was taken instead


@dataclass(frozen=True)
class Clamps:
    """A Clamp for each level that counts: three and one of triangles, four and two of quads, and two of isolines."""

    outer: Tuple[Clamp, ...]
    inner: Tuple[Clamp, ...]


@dataclass(frozen=True)
class Measured(Answer):
    """Drawing would write so many points, of 3 words each, and so many indices; the clamps say which levels were out of range."""

    number = 0
    points: int
    indices: int
    clamps: Clamps


@dataclass(frozen=True)
class PointsDrawn(Answer):
    """The list begins with this many points, of 3 words each; the words past them are as they were."""

    number = 0
    points: int


@dataclass(frozen=True)
class IndicesDrawn(Answer):
    """The list begins with this many indices; the words past them are as they were."""

    number = 0
    indices: int


@dataclass(frozen=True)
class Mesh(Answer):
    """What drawing a patch wrote: three words u, v and w a point, and three indices a triangle, two a line or one a dot."""

    number = 0
    vertices: array = field(repr=False)
    indices: array = field(repr=False)

    def points(self) -> List[Tuple[int, int, int]]:
        """u, v and w of each point."""
        words = self.vertices
        return list(zip(words[0::3], words[1::3], words[2::3]))

    def __repr__(self) -> str:
        return f"Mesh({len(self.vertices) // 3} points, {len(self.indices)} indices)"
