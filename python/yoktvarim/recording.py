"""Replaying a recorded session: whether the answers that were recorded are still given."""

from ctypes import POINTER, c_size_t, c_uint8, c_uint64
from dataclasses import dataclass
from typing import Any, Union

from .answers import Answer
from .calls import refused
from .job import UnknownVersion
from .library import Function
from .lists import U8, shown

_replay = Function("yoktvarim_replay", POINTER(c_uint8), c_size_t, POINTER(c_uint64))


@dataclass(frozen=True)
class AllAgree(Answer):
    """Every entry agrees; so many there are."""

    number = 0
    entries: int


@dataclass(frozen=True)
class Outcome:
    """One side of an entry: the number of an answer in the rules, and the counts of points and indices. What was recorded can be any
    number of one byte, so it need not be an answer's."""

    answer: int
    points: int
    indices: int


@dataclass(frozen=True)
class Differs(Answer):
    """The first entry that differs, counted from 0, with both sides."""

    number = 60
    entry: int
    recorded: Outcome
    replayed: Outcome


@dataclass(frozen=True)
class NotARecording(Answer):
    """Under 5 bytes, or another mark than TSR."""

    number = 5


@dataclass(frozen=True)
class CutEntry(Answer):
    """Every whole entry agrees, and 1 to 33 bytes are left after them."""

    number = 7


def replay(recording: Any) -> Union[AllAgree, Differs, NotARecording, UnknownVersion, CutEntry]:
    """Draws every record of a recording again, in lists of full size, and compares answers and counts. The recording is bytes or any
    other buffer of bytes, of any length and content.

    >>> replay(b"TSR\\x01\\x00")
    AllAgree(entries=0)
    """
    lent, told = shown("recording", recording, U8), (c_uint64 * 7)()
    number = _replay(lent.pointer, lent.count, told)
    if number == AllAgree.number:
        return AllAgree(told[0])
    if number == Differs.number:
        return Differs(told[0], Outcome(*told[1:4]), Outcome(*told[4:7]))
    return refused(number, NotARecording, UnknownVersion, CutEntry)
