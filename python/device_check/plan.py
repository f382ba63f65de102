"""The job that a device is checked with: every kind, spacing, order, origin and mode, many levels, and edges that meet."""

import random
import struct
from dataclasses import replace
from itertools import product
from typing import Iterator, List, Tuple

from yoktvarim import DomainOrigin, Isolines, Quads, Record, Settings, Spacing, Triangles, VertexOrder

KINDS = (Triangles, Quads, Isolines)
LEVELS = {Triangles: (0, 1, 2, 4), Quads: (0, 1, 2, 3, 4, 5), Isolines: (0, 1)}
OUTER = {Triangles: 3, Quads: 4, Isolines: 2}


def _bits(level: float) -> int:
    return struct.unpack("=I", struct.pack("=f", level))[0]


def _just_above(level: float, steps: int = 1) -> float:
    return struct.unpack("=f", struct.pack("=I", _bits(level) + steps))[0]


# Levels at which a tessellator decides something: discards, clamps, steps.
SPECIAL = (
    *(float("nan"), float("inf"), -float("inf"), 0.0, -0.0, -1.0),
    *(1e-45, 1e-30, 0.5, 1.0, _just_above(1.0), 1.00001, 1.0001, 1.5, 2.0, _just_above(2.0), 3.0, _just_above(3.0)),
    *(62.0, 62.5, 63.0, 63.5, 64.0, 65.0, 1000.0),
)
# A little above a step, where segments are a few units long.
NEAR_STEPS = (_just_above(1.0, 65), _just_above(1.0, 192), _just_above(2.0, 33), _just_above(2.0, 65), _just_above(4.0, 17))
# Levels of outer edges that many patches share.
SHARED = (1, 1.25, 1.5, 2, 2.3, 2.75, 3, 3.5, 4, 4.1, 5, 5.9, 6, 7, 7.77, 8, 9.5, 11, 12.3, 16, 21, 31.4, 47, 63.2)


def _record(kind: type, settings: Settings, levels: List[float]) -> Record:
    return Record(kind, settings, tuple(map(_bits, levels)))


def _level(chance: random.Random) -> float:
    sort = chance.random()
    if sort < 0.15:
        return 1.0
    if sort < 0.55:
        return float(chance.randint(1, 12))
    if sort < 0.9:
        return chance.uniform(0.5, 12)
    return chance.uniform(12, 66)


def _all_settings(top: int = 64) -> Iterator[Tuple[type, Settings]]:
    for kind, spacing, order, origin, dots in product(KINDS, Spacing, VertexOrder, DomainOrigin, (False, True)):
        yield kind, Settings(spacing, order, origin, dots, top)


def _any_levels(chance: random.Random, each: int) -> Iterator[Record]:
    for kind, settings in _all_settings():
        # Isolines and dots have no triangles to check, so they get fewer.
        for _ in range(each if kind is not Isolines and not settings.point_mode else (each + 3) // 4):
            yield _record(kind, settings, [_level(chance) for _ in range(6)])


def _special_levels(chance: random.Random) -> Iterator[Record]:
    for kind, spacing, level in product(KINDS, Spacing, SPECIAL):
        settings = Settings(spacing, chance.choice(list(VertexOrder)), chance.choice(list(DomainOrigin)))
        for place in {chance.choice(LEVELS[kind][: OUTER[kind]]), chance.choice(LEVELS[kind])}:
            levels = [chance.choice((1.0, 3.0, 4.0, 5.0))] * 6
            levels[place] = level
            yield _record(kind, settings, levels)


def _near_steps(chance: random.Random) -> Iterator[Record]:
    for kind, spacing, level in product((Triangles, Quads), Spacing, NEAR_STEPS):
        settings = Settings(spacing, chance.choice(list(VertexOrder)), chance.choice(list(DomainOrigin)))
        for inner, others in ((True, 1.0), (True, 3.0), (False, 4.0)):
            places = LEVELS[kind][OUTER[kind] :] if inner else (0,)
            yield _record(kind, settings, [level if place in places else others for place in range(6)])


def _tops(chance: random.Random) -> Iterator[Record]:
    for top in (2, 16, 62):
        for kind, settings in _all_settings(top):
            if not settings.point_mode:
                yield _record(kind, settings, [chance.choice((1.0, 2.5, 15.5, 16.0, 40.0, 64.0)) for _ in range(6)])


def _shared_edges(chance: random.Random, each: int) -> Iterator[Record]:
    for spacing, level in product(Spacing, SHARED):
        for number in range(each):
            kind = KINDS[number % 2]
            settings = Settings(spacing, chance.choice(list(VertexOrder)), chance.choice(list(DomainOrigin)))
            levels = [_level(chance) for _ in range(6)]
            levels[number // 2 % OUTER[kind]] = level
            yield _record(kind, settings, levels)


def make_plan(size: int = 1, top: int = 64) -> List[Record]:
    """Always the same records for a size, with tops up to the one given. A greater size has more of those with random levels."""
    chance = random.Random(2026)
    records = (
        *_any_levels(chance, 12 * size),
        *_special_levels(chance),
        *_near_steps(chance),
        *_tops(chance),
        *_shared_edges(chance, 8 * size),
    )
    return [replace(record, settings=replace(record.settings, top=min(top, record.settings.top))) for record in records]
