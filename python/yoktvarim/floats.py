"""Drawing with floats: points, indices and coordinates as 32-bit floats by one call, into all three lists or none of them."""

from ctypes import POINTER, c_float, c_size_t, c_uint16, c_uint32
from dataclasses import dataclass
from typing import Any, Union

from .answers import Answer, BadTop, Discarded, NoRoomForIndices, NoRoomForVertices
from .calls import LEVELS, SETTINGS, numbers, refused
from .library import Function
from .lists import F32, U16, U32, keep_apart, lent
from .patch import Patch, Settings

_draw_with_floats = Function(
    "yoktvarim_draw_with_floats",
    SETTINGS,
    LEVELS,
    *(POINTER(c_uint32), c_size_t),
    *(POINTER(c_uint16), c_size_t),
    *(POINTER(c_float), c_size_t),
    POINTER(c_uint32),
)


@dataclass(frozen=True)
class FloatsDrawn(Answer):
    """The lists begin with this many points of three words, this many indices, and three floats for each point."""

    number = 0
    points: int
    indices: int


@dataclass(frozen=True)
class NoRoomForFloats(Answer):
    """The float list has under 3 words a point; no list has changed."""

    number = 9


FloatsAnswer = Union[FloatsDrawn, Discarded, NoRoomForVertices, NoRoomForIndices, NoRoomForFloats, BadTop]


def draw_with_floats(patch: Patch, settings: Settings, vertices: Any, indices: Any, floats: Any) -> FloatsAnswer:
    """Writes what draw_points and draw_indices write, and each coordinate of a point once more as a float from 0 to 1: the whole
    number divided once by the number that means 1. All room is tested first: every answer but FloatsDrawn leaves all lists as they were.

    For quads and isolines a float is exactly that quotient, for triangles it is within 2^-25 of it, and 0 and 1 are exact. A greater
    coordinate is a greater float. The three floats of a triangle's point need not add up to 1.

    >>> from array import array
    >>> from yoktvarim import Quads
    >>> lists = array("I", bytes(60)), array("H", bytes(24)), array("f", bytes(60))
    >>> draw_with_floats(Quads((1, 1, 1, 1), (2, 2)), Settings(), *lists)
    FloatsDrawn(points=5, indices=12)
    >>> list(lists[2][12:])
    [0.5, 0.5, 0.0]
    """
    lists = lent("vertices", vertices, U32), lent("indices", indices, U16), lent("floats", floats, F32)
    keep_apart(lists)
    counts = (c_uint32 * 2)()
    words = [value for one in lists for value in (one.pointer, one.count)]
    number = _draw_with_floats(*numbers(patch, settings), *words, counts)
    if number == FloatsDrawn.number:
        return FloatsDrawn(counts[0], counts[1])
    return refused(number, Discarded, NoRoomForVertices, NoRoomForIndices, NoRoomForFloats, BadTop)
