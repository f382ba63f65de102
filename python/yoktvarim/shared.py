"""Two designers on one vertex list and one index list, each with a quota of words in both: neither can disturb the other.

    >>> from array import array
    >>> from yoktvarim import Settings, Triangles
    >>> vertices, indices = array("I", bytes(4 * 60)), array("H", bytes(2 * 60))
    >>> shared = Shared.start(vertices, indices, first=Quota(30, 30), second=Quota(30, 30))
    >>> for designer in (Designer.FIRST, Designer.SECOND, Designer.SECOND):
    ...     shared.draw(designer, Triangles((1, 1, 1), 2), Settings())
    PartDrawn(points=4, indices=9)
    PartDrawn(points=4, indices=9)
    PartDrawn(points=4, indices=9)
    >>> list(indices[30:48])
    [0, 1, 3, 1, 2, 3, 2, 0, 3, 4, 5, 7, 5, 6, 7, 6, 4, 7]
    >>> shared.used(Designer.FIRST)
    Quota(vertices=12, indices=9)

Take any calls since a start, with nobody else writing the two lists. What one designer gets (every answer, every count and every word of
the own part) is then the same as if the other had made no call. Nothing is promised about time, and calls must not run at the same time.
"""

import operator
from ctypes import POINTER, c_size_t, c_uint16, c_uint32, c_uint64
from dataclasses import dataclass
from enum import Enum
from typing import Any, Tuple, Union

from .answers import Answer, BadTop, Discarded, NoRoomForIndices, NoRoomForVertices
from .calls import LEVELS, SETTINGS, numbers, refused
from .library import Function
from .lists import U16, U32, Words, keep_apart, lent
from .patch import Patch, Settings, must_be

_LISTS = (POINTER(c_uint32), c_size_t, POINTER(c_uint16), c_size_t)
_STATE = POINTER(c_uint64)
_start = Function("yoktvarim_share_start", *_LISTS, POINTER(c_uint64), _STATE)
_draw = Function("yoktvarim_share_draw", _STATE, c_uint32, SETTINGS, LEVELS, *_LISTS, POINTER(c_uint32))
_clear = Function("yoktvarim_share_clear", _STATE, c_uint32, *_LISTS)


class Designer(Enum):
    """Whose part of the lists a call is about: the one from word 0 on, or the one right after it."""

    FIRST = 0
    SECOND = 1


@dataclass(frozen=True)
class Quota:
    """Words of both lists: whole numbers from 0 on, of any size."""

    vertices: int
    indices: int


@dataclass(frozen=True)
class QuotasTooLarge(Answer):
    """The quotas of both designers add up past a list."""

    number = 12


@dataclass(frozen=True)
class PartDrawn(Answer):
    """So many points of three words and so many indices were appended to the designer's part."""

    number = 0
    points: int
    indices: int


@dataclass(frozen=True)
class TooManyPoints(Answer):
    """The designer's part would have more than 65,535 points."""

    number = 13


@dataclass(frozen=True)
class BadState(Answer):
    """A list has another length than at the start."""

    number = 14


@dataclass(frozen=True)
class Cleared(Answer):
    """The room of the part is free again; its words stay until they are written over."""

    number = 0


DrawAnswer = Union[PartDrawn, BadTop, BadState, Discarded, TooManyPoints, NoRoomForVertices, NoRoomForIndices]


class Shared:
    """How two lists are shared. It is made by Shared.start, and keeps the lists."""

    def __init__(self, vertices: Any, indices: Any) -> None:
        self._vertices, self._indices = vertices, indices
        # Of the vertex list and then of the index list: its length, and quota and used words of the first and of the second designer.
        self._state = (c_uint64 * 10)()

    def _lists(self) -> Tuple[Words, Words]:
        lists = lent("vertices", self._vertices, U32), lent("indices", self._indices, U16)
        keep_apart(lists)
        return lists

    @classmethod
    def start(cls, vertices: Any, indices: Any, first: Quota, second: Quota) -> Union["Shared", QuotasTooLarge]:
        """Gives both designers their quotas of two lists; nothing is used of either part. Whoever shared these lists before has ended."""
        shared = cls(vertices, indices)
        quotas = (*_asked("first", first), *_asked("second", second))
        number = _start(*_both(shared._lists()), (c_uint64 * 4)(*quotas), shared._state)
        return shared if number == 0 else refused(number, QuotasTooLarge)

    def draw(self, designer: Designer, patch: Patch, settings: Settings) -> DrawAnswer:
        """Appends the points and the indices of the patch to the designer's part of each list, or neither; the indices count from the
        part's beginning. NoRoomForVertices and NoRoomForIndices mean that too little is left of the designer's quota. Every answer but
        PartDrawn leaves everything as it was."""
        must_be("designer", designer, Designer)
        counts = (c_uint32 * 2)()
        number = _draw(self._state, designer.value, *numbers(patch, settings), *_both(self._lists()), counts)
        if number == PartDrawn.number:
            return PartDrawn(counts[0], counts[1])
        return refused(number, BadTop, BadState, Discarded, TooManyPoints, NoRoomForVertices, NoRoomForIndices)

    def clear(self, designer: Designer) -> Union[Cleared, BadState]:
        """Gives the room of the designer's part back."""
        must_be("designer", designer, Designer)
        return refused(_clear(self._state, designer.value, *_both(self._lists())), Cleared, BadState)

    def used(self, designer: Designer) -> Quota:
        """How many words of both lists the designer has used, from the part's first word on."""
        must_be("designer", designer, Designer)
        return Quota(self._state[2 + 2 * designer.value], self._state[7 + 2 * designer.value])


def _asked(name: str, quota: Quota) -> Tuple[int, int]:
    """A quota as the library takes it."""
    must_be(name, quota, Quota)
    return _word_count(f"{name}.vertices", quota.vertices), _word_count(f"{name}.indices", quota.indices)


def _word_count(name: str, count: Any) -> int:
    """A number of words. The largest number replaces every larger one: no list has so many words, so the answer is the same."""
    try:
        words = operator.index(count)
    except TypeError:
        raise TypeError(f"{name} has to be a whole number of words, not {count!r}") from None
    if words < 0:
        raise ValueError(f"{name} has to be a number of words from 0 on, not {words}")
    return min(words, 2**64 - 1)


def _both(lists: Tuple[Words, Words]) -> Tuple[Any, ...]:
    vertices, indices = lists
    return vertices.pointer, vertices.count, indices.pointer, indices.count
