"""Lists of the caller's that are lent to a call, in place: array.array, a ctypes array, a numpy array or any other buffer."""

import ctypes
from typing import Any, NamedTuple, Sequence


class Words(NamedTuple):
    """The words of a list, in the caller's own memory, and how many they are."""

    name: str
    pointer: Any
    count: int

    def begins(self) -> int:
        return ctypes.addressof(self.pointer)

    def ends(self) -> int:
        return self.begins() + self.count * ctypes.sizeof(self.pointer._type_)


class WordType(NamedTuple):
    """A type of words, the letters that buffers have for it, and how to say it."""

    c: Any
    formats: str
    name: str


U8 = WordType(ctypes.c_uint8, "B", "bytes")
U16 = WordType(ctypes.c_uint16, "H", "unsigned 16-bit words, as array('H') or numpy.uint16 has them")
U32 = WordType(ctypes.c_uint32, "IL", "unsigned 32-bit words, as array('I') or numpy.uint32 has them")
F32 = WordType(ctypes.c_float, "f", "32-bit floats, as array('f') or numpy.float32 has them")


def _view(name: str, words: Any, kind: WordType) -> memoryview:
    """The memory of a buffer of such words. It may have several dimensions, but no gaps."""
    try:
        view = memoryview(words)
    except TypeError:
        raise TypeError(f"{name} has to be a buffer of {kind.name}, not {type(words).__name__}") from None
    if view.itemsize != ctypes.sizeof(kind.c) or view.format.lstrip("@=<") not in tuple(kind.formats):
        raise TypeError(f"{name} has to be a buffer of {kind.name}, not of format {view.format!r}")
    if not view.c_contiguous:
        raise ValueError(f"{name} has gaps between its words")
    return view


def _words(name: str, view: memoryview, kind: WordType, copied: bool) -> Words:
    size = ctypes.sizeof(kind.c)
    count = view.nbytes // size
    if count == 0:
        # A list of 0 words may have no address, and the library asks for one.
        return Words(name, (kind.c * 1)(), 0)
    array = kind.c * count
    pointer = array.from_buffer_copy(view) if copied else array.from_buffer(view)
    if ctypes.addressof(pointer) % size != 0:
        raise ValueError(f"{name} does not begin at a multiple of {size} bytes")
    return Words(name, pointer, count)


def lent(name: str, words: Any, kind: WordType) -> Words:
    """The words of a list that a call may write."""
    view = _view(name, words, kind)
    if view.readonly:
        raise TypeError(f"{name} cannot be written to")
    return _words(name, view, kind, copied=False)


def shown(name: str, words: Any, kind: WordType) -> Words:
    """The words of a list that a call only reads; one that Python lets nobody write to is copied."""
    view = _view(name, words, kind)
    return _words(name, view, kind, copied=view.readonly)


def keep_apart(written: Sequence[Words], read: Sequence[Words] = ()) -> None:
    """Refuses a list that is written and shares memory with another one."""
    for at, one in enumerate(written):
        for other in (*written[at + 1 :], *read):
            if one.begins() < other.ends() and other.begins() < one.ends():
                raise ValueError(f"{one.name} and {other.name} share memory")
