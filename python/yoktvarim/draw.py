"""Measuring a patch, and drawing its points and its indices."""

from array import array
from ctypes import POINTER, c_size_t, c_uint8, c_uint16, c_uint32
from typing import Any, Tuple, Union

from .answers import (
    BadTop,
    Clamp,
    Clamps,
    Discarded,
    IndicesDrawn,
    Measured,
    Mesh,
    NoRoomForIndices,
    NoRoomForVertices,
    PointsDrawn,
)
from .calls import LEVELS, SETTINGS, numbers, refused
from .library import Function, LibraryMismatch
from .lists import U16, U32, lent
from .patch import Isolines, Patch, Quads, Settings, Triangles, patch_kind

# Lists of these sizes have room for every patch at every top: 4,225 points of 3 words each, and 8,192 triangles.
VERTEX_WORDS = 12675
INDEX_WORDS = 24576

Size = Union[Measured, Discarded, BadTop]
PointsAnswer = Union[PointsDrawn, Discarded, NoRoomForVertices, BadTop]
IndicesAnswer = Union[IndicesDrawn, Discarded, NoRoomForIndices, BadTop]


_measure = Function("yoktvarim_measure", SETTINGS, LEVELS, POINTER(c_uint32), POINTER(c_uint8))
_draw_points = Function("yoktvarim_draw_points", SETTINGS, LEVELS, POINTER(c_uint32), c_size_t, POINTER(c_uint32))
_draw_indices = Function("yoktvarim_draw_indices", SETTINGS, LEVELS, POINTER(c_uint16), c_size_t, POINTER(c_uint32))


# How many outer and how many inner levels count.
_LEVELS = {Triangles: (3, 1), Quads: (4, 2), Isolines: (2, 0)}


def _clamps(patch: Patch, told: Tuple[int, ...]) -> Clamps:
    """The six bytes of a call that measured this patch; those of levels that do not count are not looked at."""
    outer, inner = _LEVELS[patch_kind(patch)]
    return Clamps(tuple(map(Clamp, told[:outer])), tuple(map(Clamp, told[4 : 4 + inner])))


def measure(patch: Patch, settings: Settings = Settings()) -> Size:
    """How many points and indices drawing would write, and which levels are clamped; it asks for no room.

    >>> measure(Isolines(outer=(64, 100))).clamps.outer
    (<Clamp.INSIDE: 2>, <Clamp.ABOVE: 3>)
    """
    counts, clamps = (c_uint32 * 2)(), (c_uint8 * 6)()
    number = _measure(*numbers(patch, settings), counts, clamps)
    if number == Measured.number:
        return Measured(counts[0], counts[1], _clamps(patch, tuple(clamps)))
    return refused(number, Discarded, BadTop)


def draw_points(patch: Patch, settings: Settings, vertices: Any) -> PointsAnswer:
    """Writes the points to the front of a list of unsigned 32-bit words, three words u, v, w each; or refuses
    by name, and then the list is unchanged.

    >>> vertices = array("I", bytes(4 * VERTEX_WORDS))
    >>> draw_points(Triangles(outer=(1, 1, 1), inner=2), Settings(), vertices)
    PointsDrawn(points=4)
    """
    words, count = lent("vertices", vertices, U32), (c_uint32 * 1)()
    number = _draw_points(*numbers(patch, settings), words.pointer, words.count, count)
    if number == PointsDrawn.number:
        return PointsDrawn(count[0])
    return refused(number, Discarded, NoRoomForVertices, BadTop)


def draw_indices(patch: Patch, settings: Settings, indices: Any) -> IndicesAnswer:
    """Writes the indices, which number the points from 0, to the front of a list of unsigned 16-bit words; or refuses by
    name, and then the list is unchanged.

    Indices may be kept while points are drawn again: two patches of the same kind, point mode, vertex order and origin,
    neither discarded, have equal indices if both are the plain patch, which nothing divides, or if neither is and each of
    their levels gives as many segments (an inner level's 1 raised as the rules say).

    >>> indices = array("H", bytes(2 * INDEX_WORDS))
    >>> draw_indices(Triangles(outer=(1, 1, 1), inner=2), Settings(), indices)
    IndicesDrawn(indices=9)
    """
    words, count = lent("indices", indices, U16), (c_uint32 * 1)()
    number = _draw_indices(*numbers(patch, settings), words.pointer, words.count, count)
    if number == IndicesDrawn.number:
        return IndicesDrawn(count[0])
    return refused(number, Discarded, NoRoomForIndices, BadTop)


def mesh(patch: Patch, settings: Settings = Settings()) -> Union[Mesh, Discarded, BadTop]:
    """The points and the indices of a patch, in lists of the right size."""
    size = measure(patch, settings)
    if not isinstance(size, Measured):
        return size
    vertices, indices = array("I", bytes(12 * size.points)), array("H", bytes(2 * size.indices))
    if draw_points(patch, settings, vertices) != PointsDrawn(size.points):
        raise LibraryMismatch("a measured patch was not drawn")
    if draw_indices(patch, settings, indices) != IndicesDrawn(size.indices):
        raise LibraryMismatch("a measured patch was not drawn")
    return Mesh(vertices, indices)
