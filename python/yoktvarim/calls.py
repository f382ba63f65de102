"""What all calls share: how settings and levels are handed over, and how a number becomes an answer."""

from ctypes import POINTER, c_float, c_uint8
from typing import Any, Tuple, Type

from .answers import Answer
from .library import LibraryMismatch
from .patch import Patch, Settings, setting_bytes, six_levels

# The types of the first two arguments of a call about a patch.
SETTINGS, LEVELS = POINTER(c_uint8), POINTER(c_float)


def numbers(patch: Patch, settings: Settings) -> Tuple[Any, Any]:
    """The settings and the levels of a call, as the library takes them."""
    levels = (c_float * 6)(*six_levels(patch))
    return (c_uint8 * 6)(*setting_bytes(patch, settings)), levels


def refused(number: int, *kinds: Type[Answer]) -> Any:
    """The answer without values that has this number, of those that a call can give."""
    for kind in kinds:
        if kind.number == number:
            return kind()
    raise LibraryMismatch(f"the library answered {number}, which this call cannot get")
