"""Meshes as OBJ files, with coordinates from 0 to 1.

An object is a patch: `o patch_3` is the record of number 3. An object of another name is the record after the last one, and points
before the first object are of record 0. `f` has a triangle's corners, `l` a line's and `p` a dot's. Comments keep what OBJ has no word
for: `# TSJ 2`, the version, and `# patch_4: discarded` or `# patch_4: refused 8`, a record without a mesh.
"""

import re
from math import isfinite
from typing import Dict, List, Optional, Sequence, Tuple

from yoktvarim import ONE_IN_QUADS, ONE_IN_TRIANGLES, Quads, Triangles

from .failure import Failure
from .text import Answer, Discarded, Drawn, Point, Refused

_CORNERS = {"f": 3, "l": 2, "p": 1}
_MOST_POINTS = 2**16
_MOST_RECORDS = 2**20  # a number in a file may not ask for more


def one_of(kind: type) -> int:
    """The whole number that means 1."""
    return ONE_IN_TRIANGLES if kind is Triangles else ONE_IN_QUADS


def kind_of_points(points: Sequence[Point]) -> Optional[type]:
    """Triangles or Quads, which isolines share, by the sums of the coordinates and by w; None where both fit, or neither."""
    in_triangle = all(sum(point) % 2**32 == ONE_IN_TRIANGLES for point in points)
    in_square = all(point[2] == 0 for point in points)
    return None if in_triangle == in_square else Triangles if in_triangle else Quads


def write_obj(version: int, answers: Sequence[Answer], kinds: Sequence[Optional[type]]) -> str:
    """The answers of a job, with the kind of each patch that is drawn."""
    lines, before = [f"# TSJ {version}"], 1
    for number, (answer, kind) in enumerate(zip(answers, kinds)):
        if not isinstance(answer, Drawn):
            lines.append(f"# patch_{number}: " + (f"refused {answer.number}" if isinstance(answer, Refused) else "discarded"))
            continue
        one = one_of(kind)
        lines.append(f"o patch_{number}")
        lines += ("v " + " ".join(repr(word / one) for word in point) for point in answer.points)
        for primitive in answer.primitives:
            lines.append("plf"[len(primitive) - 1] + "".join(f" {before + corner}" for corner in primitive))
        before += len(answer.points)
    return "".join(line + "\n" for line in lines)


class _Object:
    """A patch while it is read: its corners are still numbered through the file."""

    def __init__(self, before: int) -> None:
        self.before = before
        self.points: List[Tuple[float, ...]] = []
        self.primitives: List[Tuple[int, Tuple[int, ...]]] = []  # each with the number of its line


class Obj:
    """What an OBJ file holds: a version, where it names one, and for each record's number its mesh or an answer without one."""

    def __init__(self, text: str) -> None:
        self.version: Optional[int] = None
        self.answers: Dict[int, Answer] = {}
        self._objects: Dict[int, _Object] = {}
        self._last, self._count = -1, 0
        for number, line in enumerate(text.splitlines(), 1):
            self._read_line(number, line)

    def _read_line(self, number: int, line: str) -> None:
        self._read_comment(line)
        word, *rest = line.split("#")[0].split() or [""]
        if word == "o" or word in ("v", *_CORNERS) and not self._objects:
            self._start(number, rest[0] if word == "o" and rest else "")
        if word == "v":
            self._objects[self._last].points.append(_coordinates(rest, number))
            self._count += 1
        elif word in _CORNERS:
            corners = _corners(rest, _CORNERS[word], self._count, number)
            self._objects[self._last].primitives.append((number, corners))

    def _read_comment(self, line: str) -> None:
        title = re.fullmatch(r"# TSJ ([12])", line)
        word = re.fullmatch(r"# patch_(\d{1,7}): (?:discarded|refused (\d{1,2}))", line)
        if title:
            self.version = int(title[1])
        elif word:
            self.answers[int(word[1])] = Refused(int(word[2])) if word[2] else Discarded()

    def _start(self, number: int, name: str) -> None:
        named = re.fullmatch(r"patch_(\d{1,7})", name)
        record = int(named[1]) if named else self._last + 1
        if record in self._objects or record >= _MOST_RECORDS:
            raise Failure(f"line {number}: patch {record} is there twice, or past the last record that can be read")
        self._objects[record] = _Object(self._count)
        self._last = record

    def records(self) -> int:
        """How many records there are, up to the last that the file names."""
        return max((*self._objects, *self.answers), default=-1) + 1

    def has_mesh(self, number: int) -> bool:
        return number in self._objects

    def mesh(self, number: int, kind: Optional[type]) -> Optional[Drawn]:
        """The mesh of a record, by its kind or else by its points; None where there is no object for it."""
        found = self._objects.get(number)
        if found is None:
            return None
        kind = kind or _kind_of_floats(found.points)
        if kind is None:
            raise Failure(f"patch {number}: its points do not show whether it is a triangle patch or another; --job JOB says so")
        if len(found.points) > _MOST_POINTS:
            raise Failure(f"patch {number}: {len(found.points)} points, and an index reaches {_MOST_POINTS} at most")
        points = [_point(coordinates, kind) for coordinates in found.points]
        return Drawn(points, [_inner_corners(found, *primitive) for primitive in found.primitives])


def _kind_of_floats(points: List[Tuple[float, ...]]) -> Optional[type]:
    """As kind_of_points. The coordinates of a triangle patch add up to 1, give or take what a 32-bit float rounds off."""
    in_triangle = all(abs(sum(point) - 1) < 1e-6 for point in points)
    in_square = all(point[2] == 0 for point in points)
    return None if in_triangle == in_square else Triangles if in_triangle else Quads


def _coordinates(words: Sequence[str], number: int) -> Tuple[float, ...]:
    try:
        found = tuple(map(float, words[:3]))
    except ValueError:
        found = ()
    if len(found) != 3 or not all(map(isfinite, found)):
        raise Failure(f"line {number}: three coordinates expected")
    return found


def _corners(words: Sequence[str], size: int, count: int, number: int) -> Tuple[int, ...]:
    """Points' numbers through the file, from 0. Negative ones count back from the last point."""
    if len(words) != size or not all(re.fullmatch(r"-?[1-9][0-9]*(/.*)?", word) for word in words):
        raise Failure(f"line {number}: {size} points' numbers expected")
    found = [int(word.split("/")[0]) for word in words]
    return tuple(corner - 1 if corner > 0 else count + corner for corner in found)


def _inner_corners(found: _Object, number: int, corners: Tuple[int, ...]) -> Tuple[int, ...]:
    """The corners of a primitive, numbered within its object."""
    if not all(found.before <= corner < found.before + len(found.points) for corner in corners):
        raise Failure(f"line {number}: a corner is no point of this object")
    return tuple(corner - found.before for corner in corners)


def _point(coordinates: Tuple[float, ...], kind: type) -> Point:
    """In whole units, as `capture` rounds. A number below 0 is written modulo 2^32, where no patch has a point."""
    one = one_of(kind)
    u, v, w = (_rounded(coordinate * one) for coordinate in coordinates)
    if kind is Triangles:
        # Two numbers that both lie half way would leave the edge w = 0 by rounding.
        if coordinates[2] == 0 and abs(u + v - one) == 1:
            v = one - u
        w = one - u - v
    return u % 2**32, v % 2**32, w % 2**32


def _rounded(units: float) -> int:
    """To the nearest whole number, at most far outside of every patch."""
    return int((max(-(2.0**30), min(2.0**30, units)) + 0.5) // 1)


def weld(mesh: Drawn) -> Drawn:
    """The same primitives with equal points as one, numbered as they first appear."""
    numbers: Dict[Point, int] = {}
    for point in mesh.points:
        numbers.setdefault(point, len(numbers))
    return Drawn(list(numbers), [tuple(numbers[mesh.points[corner]] for corner in corners) for corners in mesh.primitives])
