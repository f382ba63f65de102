"""Checking a mesh that anybody made for a patch."""

from ctypes import POINTER, c_size_t, c_uint16, c_uint32, c_uint64
from dataclasses import dataclass, fields
from typing import Any, ClassVar, Union

from .answers import Answer, BadTop
from .calls import LEVELS, SETTINGS, numbers
from .library import Function, LibraryMismatch
from .lists import U16, U32, shown
from .patch import Patch, Settings

_check_mesh = Function(
    "yoktvarim_check_mesh",
    SETTINGS,
    LEVELS,
    *(POINTER(c_uint32), c_size_t),
    *(POINTER(c_uint16), c_size_t),
    POINTER(c_uint64),
)


@dataclass(frozen=True)
class Accepted(Answer):
    """No hole, no overlap and no turned triangle; or a discarded patch and two empty lists."""

    number = 0


@dataclass(frozen=True)
class Fault(Answer):
    """What is wrong with a mesh, with the places that belong to it; str() says it in words. Places count from 0: those of the index
    list, points, triangles, a triangle's corners, and the outline's pieces along the walk."""

    words: ClassVar[str]

    def __str__(self) -> str:
        return self.words.format(**vars(self))


@dataclass(frozen=True)
class IsolinesNotChecked(Fault):
    number = 20
    words = "isolines have no triangles to check"


@dataclass(frozen=True)
class DotsNotChecked(Fault):
    number = 21
    words = "dots have no triangles to check"


@dataclass(frozen=True)
class ShouldBeDiscarded(Fault):
    number = 22
    words = "the patch is discarded, so that both lists should be empty"


@dataclass(frozen=True)
class NotThrees(Fault):
    number = 23
    words = "the words of the points or the indices are no multiple of three"


@dataclass(frozen=True)
class UnknownIndex(Fault):
    number = 24
    words = "the index at place {place} is past the points"
    place: int


@dataclass(frozen=True)
class Outside(Fault):
    number = 25
    words = "point {point} lies outside the patch"
    point: int


@dataclass(frozen=True)
class EqualPoints(Fault):
    number = 26
    words = "points {first} and {second} are equal"
    first: int
    second: int


@dataclass(frozen=True)
class Turned(Fault):
    number = 27
    words = "triangle {triangle} has no area or turns the wrong way"
    triangle: int


@dataclass(frozen=True)
class SideTwice(Fault):
    number = 28
    words = "triangles {first} and {second} have a directed side in common"
    first: int
    second: int


@dataclass(frozen=True)
class OpenSide(Fault):
    """The side that starts at this corner, 0 to 2, of this triangle."""

    number = 29
    words = "the side of triangle {triangle} from corner {corner} has no reverse and is no piece of the outline"
    triangle: int
    corner: int


@dataclass(frozen=True)
class MissingPiece(Fault):
    number = 30
    words = "piece {piece} of the outline is no side of a triangle"
    piece: int


_ANSWERS = {kind.number: kind for kind in (Accepted, BadTop, *Fault.__subclasses__())}


def check_mesh(patch: Patch, settings: Settings, vertices: Any, indices: Any) -> Union[Accepted, BadTop, Fault]:
    """Whether points, three words each, and triangle indices are a right mesh of the patch, whoever made them: accepted, or the first
    kind of fault in the order of the numbers, at its first place. Lists of any length and content may be given; they are only read.

    >>> from array import array
    >>> from yoktvarim import Triangles
    >>> patch, corners = Triangles((1, 1, 1), 1), array("I", (0, 196608, 0, 0, 0, 196608, 196608, 0, 0))
    >>> check_mesh(patch, Settings(), corners, array("H", (1, 2, 0)))
    Accepted()
    >>> print(check_mesh(patch, Settings(), corners, array("H", (0, 2, 1))))
    triangle 0 has no area or turns the wrong way
    """
    lists = shown("vertices", vertices, U32), shown("indices", indices, U16)
    places = (c_uint64 * 2)()
    words = [value for one in lists for value in (one.pointer, one.count)]
    number = _check_mesh(*numbers(patch, settings), *words, places)
    if number not in _ANSWERS:
        raise LibraryMismatch(f"the library answered {number}, which this call cannot get")
    kind = _ANSWERS[number]
    return kind(*places[: len(fields(kind))])
