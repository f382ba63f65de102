"""The module and the program tsj say the same of random patches: every kind, setting and top, and levels on both sides of limits.

TSJ names the program; without it the script at the repository's root runs the current one.
"""

import math
import os
import random
import struct
import subprocess
import unittest
from pathlib import Path

import yoktvarim
from yoktvarim import BadTop, Discarded, DomainOrigin, Isolines, Mesh, Quads, Settings, Spacing, Triangles, VertexOrder

TSJ = os.environ.get("TSJ", str(Path(__file__).resolve().parents[2] / "tsj"))
LEVELS = (math.nan, math.inf, -math.inf, 0.0, -0.0, -1.0, 1e-45, 0.5, 1.0, 1.0000001, 2.0, 2.0000002, 3.0, 5.5, 63.0, 64.0, 1e30)
PATCHES = 600


def level(chance):
    return chance.choice(LEVELS) if chance.random() < 0.15 else struct.unpack("<f", struct.pack("<f", chance.uniform(0.1, 9)))[0]


def patch_of(kind, levels):
    if kind == 0:
        return Triangles(levels[:3], levels[4])
    return Quads(levels[:4], levels[4:]) if kind == 1 else Isolines(levels[:2])


def random_patch(chance):
    """A patch, its settings, and its record in a job of version 2."""
    kind, levels = chance.randrange(3), [level(chance) for _ in range(6)]
    top = chance.choice((64, 64, 16, 2 * chance.randint(1, 32), chance.randrange(256)))
    settings = Settings(
        chance.choice(list(Spacing)), chance.choice(list(VertexOrder)), chance.choice(list(DomainOrigin)), chance.random() < 0.2, top
    )
    numbers = (kind, settings.spacing.value, settings.vertex_order.value, settings.domain_origin.value, settings.point_mode, top)
    return patch_of(kind, levels), settings, struct.pack("<6B6f", *numbers, *levels)


def text(patch, settings):
    """What tsj says of a patch; it calls a bad top an unknown setting."""
    answer = yoktvarim.mesh(patch, settings)
    if answer == Discarded():
        return ["discarded"]
    if answer == BadTop():
        return ["refused 8"]
    assert isinstance(answer, Mesh)
    width = 1 if settings.point_mode else 2 if isinstance(patch, Isolines) else 3
    points = answer.points()
    primitives = [answer.indices[at : at + width] for at in range(0, len(answer.indices), width)]
    lines = [" ".join(map(str, numbers)) for numbers in [*points, *primitives]]
    return [f"drawn {len(points)} {len(answer.indices)}", *lines]


class Program(unittest.TestCase):
    def test_random_patches(self):
        chance = random.Random(25)
        cases = [random_patch(chance) for _ in range(PATCHES)]
        job = b"TSJ\x02\x00" + b"".join(record for _, _, record in cases)
        told = subprocess.run([TSJ], input=job, stdout=subprocess.PIPE, check=True).stdout.decode()
        lines = ["TSJ 2"]
        for patch, settings, _ in cases:
            lines += text(patch, settings)
        self.assertEqual(told.splitlines(), lines)
        for word in ("drawn", "discarded", "refused 8"):
            self.assertTrue(any(line.startswith(word) for line in lines), word)


if __name__ == "__main__":
    unittest.main()
