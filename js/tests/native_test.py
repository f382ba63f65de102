"""Every call of the JavaScript module against the Python module over the library for x86-64, on random and damaged input.

    tools/library x86_64 wasm32 && python3 js/tests/native_test.py
"""

import array
import json
import os
import random
import re
import struct
import subprocess
import sys
import unittest
from pathlib import Path

HERE = Path(__file__).resolve().parent
ROOT = HERE.parent.parent
os.environ.setdefault("YOKTVARIM_LIBRARY", str(ROOT / "target/staticlib/libyoktvarim.so"))
sys.path.insert(0, str(ROOT / "python"))
sys.dont_write_bytecode = True

# Found by the path that was set just now, so not among the imports above (E402).
import yoktvarim  # noqa: E402
from yoktvarim import Designer, DomainOrigin, Isolines, Mesh, Quads, Quota, Settings, Shared, Spacing  # noqa: E402
from yoktvarim import Triangles, VertexOrder  # noqa: E402

CASES = 1500
LEVELS = (float("nan"), float("inf"), 0.0, -1.0, 0.5, 1.0, 1.0000001, 2.0, 3.0, 63.0, 64.0)
WORDS = {
    "isolines not checked": "isolines",
    "dots not checked": "dots",
    "part drawn": "drawn",
    "floats drawn": "drawn",
    "shared": "started",
}


def name(answer):
    words = re.sub(r"(?<=.)([A-Z])", r" \1", type(answer).__name__).lower()
    return WORDS.get(words, words)


def words(value):
    return value.name.lower().replace("_", " ")


def bits(levels):
    return list(struct.unpack(f"<{len(levels)}I", struct.pack(f"<{len(levels)}f", *levels)))


class Chance(random.Random):
    def level(self):
        return self.choice(LEVELS) if self.random() < 0.1 else self.uniform(0.6, 6)

    def patch(self, kinds=3):
        kind = self.randrange(kinds)
        if kind == 2:
            return Isolines([self.level() for _ in range(2)])
        if kind == 1:
            return Quads([self.level() for _ in range(4)], [self.level() for _ in range(2)])
        return Triangles([self.level() for _ in range(3)], self.level())

    def settings(self, dots=0.1):
        top = self.choice((64, 64, 16, self.randrange(-2, 70)))
        order, origin = self.choice(list(VertexOrder)), self.choice(list(DomainOrigin))
        return Settings(self.choice(list(Spacing)), order, origin, self.random() < dots, top)

    def damaged(self, mesh):
        """Lists with up to two damages of any sort."""
        vertices, indices = list(mesh.vertices), list(mesh.indices)
        for _ in range(self.randrange(3)):
            sort, at = self.randrange(7), self.randrange(max(1, len(indices) // 3))
            if sort == 0 and indices:
                del indices[3 * at : 3 * at + 3]
            elif sort == 1:
                indices += indices[3 * at : 3 * at + 3]
            elif sort == 2 and indices:
                indices[-1], indices[-2:-1] = indices[-2] if len(indices) > 1 else 0, indices[-1:]
            elif sort == 3 and vertices:
                vertices[self.randrange(len(vertices))] = self.choice((0, 65536, 65537, 196608, 2**32 - 1, self.randrange(65536)))
            elif sort == 4 and len(vertices) > 5:
                vertices[0:3] = vertices[3:6]
            elif sort == 5 and indices:
                indices[self.randrange(len(indices))] = self.randrange(len(vertices) // 3 + 3)
            elif sort == 6:
                (vertices if self.random() < 0.5 else indices).append(0)
        return vertices, indices


def told_patch(patch):
    inner = [] if isinstance(patch, Isolines) else [patch.inner] if isinstance(patch, Triangles) else patch.inner
    return {"kind": type(patch).__name__.lower(), "outer": bits(patch.outer), "inner": bits(inner)}


def told_settings(settings):
    return {
        "spacing": words(settings.spacing),
        "vertexOrder": words(settings.vertex_order).replace(" ", "-"),
        "domainOrigin": words(settings.domain_origin).replace(" ", "-"),
        "pointMode": settings.point_mode,
        "top": settings.top,
    }


def listed(vertices, indices):
    return array.array("I", vertices), array.array("H", indices)


class Calls(unittest.TestCase):
    def agree(self, cases):
        """Cases are calls as node takes them, each with the answer that is expected."""
        lines = "".join(json.dumps(call) + "\n" for call, _ in cases)
        said = subprocess.run(["node", str(HERE / "answers.mjs")], input=lines.encode(), stdout=subprocess.PIPE, check=True).stdout
        answers = [json.loads(line) for line in said.splitlines()]
        self.assertEqual(len(answers), len(cases))
        for answer, (call, expected) in zip(answers, cases):
            self.assertEqual(answer, expected, call["call"])
        return {answer["is"] for answer in answers}

    def test_measure(self):
        chance, cases = Chance(1), []
        for _ in range(CASES):
            patch, settings = chance.patch(), chance.settings()
            answer = yoktvarim.measure(patch, settings)
            expected = {"is": name(answer)}
            if expected["is"] == "measured":
                clamps = {"outer": [words(each) for each in answer.clamps.outer], "inner": [words(each) for each in answer.clamps.inner]}
                expected.update(points=answer.points, indices=answer.indices, clamps=clamps)
            cases.append(({"call": "measure", "patch": told_patch(patch), "settings": told_settings(settings)}, expected))
        self.assertEqual(self.agree(cases), {"measured", "discarded", "bad top"})

    def test_check(self):
        chance, cases = Chance(2), []
        for _ in range(CASES):
            patch, settings = chance.patch(), chance.settings()
            mesh = yoktvarim.mesh(patch, settings)
            lists = chance.damaged(mesh) if isinstance(mesh, Mesh) else ([], []) if chance.random() < 0.5 else ([1, 2, 3], [])
            answer = yoktvarim.check_mesh(patch, settings, *listed(*lists))
            call = {"call": "check", "patch": told_patch(patch), "settings": told_settings(settings), "mesh": lists}
            cases.append((call, {"is": name(answer), **vars(answer)}))
        faults = (
            "accepted, bad top, isolines, dots, should be discarded, not threes, unknown index, outside, "
            "equal points, turned, side twice, open side"
        )
        self.assertLessEqual(set(faults.split(", ")), self.agree(cases))

    def test_compare(self):
        chance, cases = Chance(3), []
        while len(cases) < CASES // 2:
            patch, settings = chance.patch(2), chance.settings(dots=0)
            mesh, other = yoktvarim.mesh(patch, settings), yoktvarim.mesh(chance.patch(2), settings)
            if not (isinstance(mesh, Mesh) and isinstance(other, Mesh)):
                continue
            left, right = chance.damaged(mesh), chance.damaged(chance.choice((mesh, mesh, other)))
            answer = yoktvarim.compare_meshes(listed(*left), listed(*right))
            expected = {"is": name(answer)}
            if expected["is"] == "compared":
                told = [{"what": words(each.what), "side": words(each.side), "number": each.number} for each in answer.differences]
                expected["differences"] = told
            else:
                expected["fault"] = words(answer.fault)
            cases.append(({"call": "compare", "left": left, "right": right}, expected))
        self.assertEqual(self.agree(cases), {"compared", "left refused", "right refused"})

    def test_replay(self):
        chance, cases = Chance(4), []
        sample = (ROOT / "samples/session.tsr").read_bytes()
        for _ in range(CASES // 3):
            recording = bytearray(sample)
            for _ in range(chance.randrange(3)):
                recording[chance.randrange(len(recording))] = chance.randrange(256)
            recording = recording[: chance.choice((len(recording), chance.randrange(len(recording) + 1)))]
            answer = yoktvarim.replay(recording)
            expected = {"is": name(answer), **vars(answer)}
            for side in ("recorded", "replayed"):
                if side in expected:
                    expected[side] = vars(expected[side])
            cases.append(({"call": "replay", "bytes": list(recording)}, expected))
        self.assertEqual(self.agree(cases), {"all agree", "differs", "not a recording", "unknown version", "cut entry"})

    def test_floats(self):
        chance, cases = Chance(5), []
        for _ in range(CASES // 3):
            patch, settings = chance.patch(), chance.settings()
            size = yoktvarim.measure(patch, settings)
            exact = (3 * size.points, size.indices, 3 * size.points) if name(size) == "measured" else (9, 9, 9)
            lengths = [max(0, length + chance.choice((0, 0, 0, 5, -1))) for length in exact]
            lists = [array.array(letter, bytes(size * length)) for letter, size, length in zip("IHf", (4, 2, 4), lengths)]
            answer = yoktvarim.draw_with_floats(patch, settings, *lists)
            told = [list(lists[0]), list(lists[1]), list(struct.unpack(f"<{lengths[2]}I", lists[2].tobytes()))]
            call = {"call": "floats", "patch": told_patch(patch), "settings": told_settings(settings), "lengths": lengths}
            cases.append((call, {"is": name(answer), **vars(answer), "lists": told}))
        names = {"drawn", "discarded", "bad top", "no room for vertices", "no room for indices", "no room for floats"}
        self.assertEqual(self.agree(cases), names)

    def test_shared(self):
        chance, cases = Chance(6), []
        for _ in range(CASES // 60):
            lengths = [chance.randrange(200, 900), chance.randrange(200, 900)]
            quotas = [Quota(chance.randrange(lengths[0] * 2 // 3), chance.randrange(lengths[1] * 2 // 3)) for _ in range(2)]
            vertices, indices = array.array("I", bytes(4 * lengths[0])), array.array("H", bytes(2 * lengths[1]))
            shared = Shared.start(vertices, indices, *quotas)
            cases.append(({"call": "start", "lengths": lengths, "first": vars(quotas[0]), "second": vars(quotas[1])}, {"is": name(shared)}))
            if not isinstance(shared, Shared):
                continue
            for _ in range(12):
                designer = chance.choice(list(Designer))
                if chance.random() < 0.15:
                    expected = {"is": name(shared.clear(designer)), "used": vars(shared.used(designer))}
                    cases.append(({"call": "clear", "designer": words(designer)}, expected))
                    continue
                patch, settings = chance.patch(), chance.settings()
                answer = shared.draw(designer, patch, settings)
                call = {"call": "draw", "designer": words(designer), "patch": told_patch(patch), "settings": told_settings(settings)}
                cases.append((call, {"is": name(answer), **vars(answer), "lists": [list(vertices), list(indices)]}))
        names = {"started", "quotas too large", "drawn", "cleared", "discarded", "bad top", "no room for vertices", "no room for indices"}
        self.assertEqual(self.agree(cases), names)


if __name__ == "__main__":
    unittest.main(verbosity=2)
