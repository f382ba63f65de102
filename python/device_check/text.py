"""The text that tsj writes of a job, read and written."""

import re
from array import array
from dataclasses import dataclass
from typing import Iterable, List, Sequence, Tuple, Union

from .failure import Failure

Point = Tuple[int, int, int]


@dataclass(frozen=True)
class Drawn:
    """Points of three whole numbers, and primitives of three, two or one point's numbers."""

    points: List[Point]
    primitives: List[Tuple[int, ...]]

    @property
    def vertices(self) -> array:
        """The points' words, as the proved calls take them."""
        return array("I", (word for point in self.points for word in point))

    @property
    def indices(self) -> array:
        return array("H", (number for primitive in self.primitives for number in primitive))

    @property
    def triangles(self) -> List[Tuple[int, ...]]:
        """The indices in threes, as the proved check takes them, whatever the lines were."""
        return list(zip(*[iter(self.indices)] * 3))

    @property
    def lines(self) -> List[Tuple[int, ...]]:
        """The indices in twos."""
        return list(zip(*[iter(self.indices)] * 2))


@dataclass(frozen=True)
class Discarded:
    pass


@dataclass(frozen=True)
class Refused:
    number: int


Answer = Union[Drawn, Discarded, Refused]

_NUMBER = re.compile("0|[1-9][0-9]*")


class _Lines:
    def __init__(self, text: str) -> None:
        self._lines = text.split("\n")
        if self._lines.pop():
            raise Failure(f"line {len(self._lines) + 1}: no newline at its end")
        self.next = 0

    def left(self) -> bool:
        return self.next < len(self._lines)

    def take(self, what: str) -> str:
        if not self.left():
            raise Failure(f"line {self.next + 1}: the text ends, {what} expected")
        self.next += 1
        return self._lines[self.next - 1]

    def wrong(self, what: str) -> Failure:
        return Failure(f"line {self.next}: {what} expected, found '{self._lines[self.next - 1]}'")

    def numbers(self, what: str, counts: Sequence[int], most: int) -> Tuple[int, ...]:
        """A line of so many whole numbers."""
        words = self.take(what).split(" ")
        if len(words) not in counts or not all(map(_NUMBER.fullmatch, words)):
            raise self.wrong(what)
        found = tuple(map(int, words))
        if max(found) > most:
            raise self.wrong(what)
        return found


def read_text(text: str) -> Tuple[int, List[Answer]]:
    """The version in the title, and the answers, record by record."""
    lines = _Lines(text)
    title = lines.take("'TSJ 1' or 'TSJ 2'")
    if title not in ("TSJ 1", "TSJ 2"):
        raise lines.wrong("'TSJ 1' or 'TSJ 2'")
    answers: List[Answer] = []
    while lines.left():
        answers.append(_answer(lines, f"the answer of record {len(answers)}"))
    return int(title[-1]), answers


def _answer(lines: _Lines, what: str) -> Answer:
    word, *numbers = lines.take(what).split(" ")
    if not all(map(_NUMBER.fullmatch, numbers)):
        raise lines.wrong(what)
    if (word, len(numbers)) == ("discarded", 0):
        return Discarded()
    if (word, len(numbers)) == ("refused", 1):
        return Refused(int(numbers[0]))
    if (word, len(numbers)) != ("drawn", 2):
        raise lines.wrong(what)
    points, left = map(int, numbers)
    drawn = Drawn([], [])
    for _ in range(points):
        drawn.points.append(lines.numbers("a point's three numbers", (3,), 2**32 - 1))
    while left > 0:
        primitive = lines.numbers("one, two or three indices", range(1, min(left, 3) + 1), 65535)
        drawn.primitives.append(primitive)
        left -= len(primitive)
    return drawn


def write_text(version: int, answers: Iterable[Answer]) -> str:
    lines = [f"TSJ {version}"]
    for answer in answers:
        if isinstance(answer, Drawn):
            lines.append(f"drawn {len(answer.points)} {sum(map(len, answer.primitives))}")
            lines += (" ".join(map(str, numbers)) for numbers in (*answer.points, *answer.primitives))
        else:
            lines.append("discarded" if isinstance(answer, Discarded) else f"refused {answer.number}")
    return "".join(line + "\n" for line in lines)
