"""Patches, each with the tessellation levels that count for it, and how they are to be drawn."""

import operator
from dataclasses import dataclass
from enum import Enum
from typing import Any, Sequence, Tuple, Union

# The numbers that mean 1: in a triangle patch u, v and w of a point add up to the first; quads and isolines have the second, and w is 0.
ONE_IN_TRIANGLES = 196608
ONE_IN_QUADS = 65536

# The greatest value of Settings.top.
GREATEST_TOP = 64


class Spacing(Enum):
    EQUAL = 0
    FRACTIONAL_EVEN = 1
    FRACTIONAL_ODD = 2


class VertexOrder(Enum):
    """The way triangles turn."""

    CLOCKWISE = 0
    COUNTER_CLOCKWISE = 1


class DomainOrigin(Enum):
    """Where (0, 0) is when that turn is judged."""

    UPPER_LEFT = 0
    LOWER_LEFT = 1


def _level(name: str, level: Any) -> float:
    """A number as a level. Text is not a level, even if it spells a number."""
    if isinstance(level, (str, bytes, bytearray)):
        raise TypeError(f"{name} takes numbers, not {level!r}")
    return float(level)


def _levels(name: str, levels: Sequence[float], count: int) -> Tuple[float, ...]:
    if isinstance(levels, (str, bytes, bytearray)):
        raise TypeError(f"{name} takes numbers, not {levels!r}")
    found = tuple(_level(name, level) for level in levels)
    if len(found) != count:
        raise ValueError(f"{name} has {count} levels here, not {len(found)}")
    return found


# Any level is allowed, NaN and the infinities too: what is not above 0 in `outer` discards the patch. The library takes levels
# as 32-bit floats, the nearest to what is given.


@dataclass(frozen=True)
class Triangles:
    """Outer levels of the edges u = 0, v = 0 and w = 0, and the inner level."""

    outer: Sequence[float]
    inner: float

    def __post_init__(self) -> None:
        object.__setattr__(self, "outer", _levels("outer", self.outer, 3))
        object.__setattr__(self, "inner", _level("inner", self.inner))


@dataclass(frozen=True)
class Quads:
    """Outer levels of the edges u = 0, v = 0, u = 1 and v = 1; inner levels of the rows and of the columns."""

    outer: Sequence[float]
    inner: Sequence[float]

    def __post_init__(self) -> None:
        object.__setattr__(self, "outer", _levels("outer", self.outer, 4))
        object.__setattr__(self, "inner", _levels("inner", self.inner, 2))


@dataclass(frozen=True)
class Isolines:
    """How many lines, and how many segments along each."""

    outer: Sequence[float]

    def __post_init__(self) -> None:
        object.__setattr__(self, "outer", _levels("outer", self.outer, 2))


Patch = Union[Triangles, Quads, Isolines]

# The kinds of patches, at their numbers in a job file.
KINDS = (Triangles, Quads, Isolines)


def kind_of(name: str, kind: Any) -> type:
    """The kind that a class is or is derived from."""
    for known in KINDS:
        if isinstance(kind, type) and issubclass(kind, known):
            return known
    raise TypeError(f"{name} has to be the class Triangles, Quads or Isolines, or one derived from these, not {kind!r}")


def patch_kind(patch: Patch) -> type:
    """The kind of a patch."""
    return kind_of("the type of a patch", type(patch))


def must_be(name: str, value: object, of: type) -> None:
    """Refuses a value of another type."""
    if not isinstance(value, of):
        raise TypeError(f"{name} has to be of type {of.__name__}, not {value!r}")


@dataclass(frozen=True)
class Settings:
    """Equal spacing, triangles counter-clockwise seen from a lower-left origin, no point mode and the top 64, unless named.

    point_mode asks for each point once instead of triangles or lines: the indices 0, 1, 2 and on.
    top is the most segments that a level gives, one less with odd spacing: an even number from 2 to 64. Any other number is
    answered with BadTop.
    """

    spacing: Spacing = Spacing.EQUAL
    vertex_order: VertexOrder = VertexOrder.COUNTER_CLOCKWISE
    domain_origin: DomainOrigin = DomainOrigin.LOWER_LEFT
    point_mode: bool = False
    top: int = GREATEST_TOP

    def __post_init__(self) -> None:
        must_be("spacing", self.spacing, Spacing)
        must_be("vertex_order", self.vertex_order, VertexOrder)
        must_be("domain_origin", self.domain_origin, DomainOrigin)
        must_be("point_mode", self.point_mode, bool)
        object.__setattr__(self, "top", operator.index(self.top))


def six_levels(patch: Patch) -> Tuple[float, ...]:
    """The six levels of a call: outer one to four, inner one and two; 0 for a level that does not count."""
    kind = patch_kind(patch)
    # A class derived from a kind may have skipped the tests of its base, so the levels are counted here too.
    if kind is Triangles:
        return (*_levels("outer", patch.outer, 3), 0.0, _level("inner", patch.inner), 0.0)
    if kind is Quads:
        return (*_levels("outer", patch.outer, 4), *_levels("inner", patch.inner, 2))
    return (*_levels("outer", patch.outer, 2), 0.0, 0.0, 0.0, 0.0)


def setting_bytes(patch: Patch, settings: Settings) -> Tuple[int, ...]:
    """The six setting bytes of a call, numbered as in a job file of version 2."""
    must_be("settings", settings, Settings)
    # A number that does not fit a byte is not a top; neither is 0.
    top = settings.top if 0 <= settings.top <= 255 else 0
    return (
        KINDS.index(patch_kind(patch)),
        settings.spacing.value,
        settings.vertex_order.value,
        settings.domain_origin.value,
        int(settings.point_mode),
        top,
    )
