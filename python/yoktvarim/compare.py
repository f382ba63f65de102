"""Comparing two triangle meshes: the points and triangles that one has and the other has not."""

from ctypes import POINTER, c_size_t, c_uint16, c_uint32, c_uint64
from dataclasses import dataclass
from enum import Enum
from typing import Any, Tuple, Union

from .answers import Answer
from .library import Function, LibraryMismatch
from .lists import U16, U32, Words, shown

_compare_meshes = Function(
    "yoktvarim_compare_meshes",
    *(POINTER(c_uint32), c_size_t, POINTER(c_uint16), c_size_t),
    *(POINTER(c_uint32), c_size_t, POINTER(c_uint16), c_size_t),
    *(POINTER(c_uint64), c_size_t),
    POINTER(c_uint64),
)


class What(Enum):
    POINT = 0
    TRIANGLE = 1


class Side(Enum):
    """The mesh that has it; the other has not."""

    LEFT = 0
    RIGHT = 1


@dataclass(frozen=True)
class Difference:
    """A point or a triangle that only one side has, by its number there; the lowest one, if a triangle is repeated."""

    what: What
    side: Side
    number: int


@dataclass(frozen=True)
class Compared(Answer):
    """All differences: the left side's points, the right side's, the left side's triangles, the right side's, each in the order of its
    own list. None: both hold the same points and the same triangles."""

    number = 0
    differences: Tuple[Difference, ...]


class MeshFault(Enum):
    """Why a mesh cannot be compared, by its first reason."""

    NOT_THREES = 0  # the point words or the indices are no multiple of three
    UNKNOWN_INDEX = 1  # an index is past the points
    EQUAL_POINTS = 2  # two points are equal


@dataclass(frozen=True)
class LeftRefused(Answer):
    """The left mesh cannot be compared. It is looked at first."""

    number = 41
    fault: MeshFault


@dataclass(frozen=True)
class RightRefused(Answer):
    """The right mesh cannot be compared."""

    number = 44
    fault: MeshFault


def _mesh(side: str, mesh: Tuple[Any, Any]) -> Tuple[Words, Words]:
    vertices, indices = mesh
    return shown(f"{side} vertices", vertices, U32), shown(f"{side} indices", indices, U16)


def compare_meshes(left: Tuple[Any, Any], right: Tuple[Any, Any]) -> Union[Compared, LeftRefused, RightRefused]:
    """What only one of two meshes has, each a pair of vertices, three words a point, and indices, three a triangle. Points are the same
    where their three coordinates agree, whatever their numbers; triangles where their corners agree by coordinates up to rotation, and
    not by a flip. Meshes may come from anywhere: any lengths and any numbers are answered.

    >>> from array import array
    >>> square = array("I", (0, 1, 0, 0, 0, 0, 1, 0, 0, 1, 1, 0))
    >>> one, other = array("H", (0, 1, 2, 0, 2, 3)), array("H", (1, 2, 0, 1, 2, 3))
    >>> for difference in compare_meshes((square, one), (square, other)).differences:
    ...     print(difference.what.name, difference.side.name, difference.number)
    TRIANGLE LEFT 1
    TRIANGLE RIGHT 1
    >>> compare_meshes((square, one), (square, one))
    Compared(differences=())
    """
    lists = (*_mesh("left", left), *_mesh("right", right))
    # Nothing is different more than once, so this is room for everything.
    room = sum(one.count // 3 for one in lists)
    differences, count = (c_uint64 * (3 * room or 1))(), (c_uint64 * 1)()
    words = [value for one in lists for value in (one.pointer, one.count)]
    number = _compare_meshes(*words, differences, 3 * room, count)
    if number == Compared.number:
        found = differences[: 3 * count[0]]
        return Compared(tuple(Difference(What(a), Side(b), c) for a, b, c in zip(found[0::3], found[1::3], found[2::3])))
    for kind in (LeftRefused, RightRefused):
        if kind.number <= number < kind.number + len(MeshFault):
            return kind(MeshFault(number - kind.number))
    raise LibraryMismatch(f"the library answered {number}, which this call cannot get")
