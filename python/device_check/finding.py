"""What is found of one patch."""

from dataclasses import dataclass
from enum import Enum
from fractions import Fraction
from typing import Optional


class Outcome(Enum):
    """The best that can be said of a patch; the value is its line in the table."""

    REFUSED = "refused, as by the rules"
    DISCARDED = "discarded, as by the rules"
    ACCEPTED = "accepted as they are"
    SAME = "isolines and dots as by the rules"
    MOVED = "accepted with the outline moved"
    ELSEWHERE = "isolines and dots at other places"
    FAULTY = "faulty"


# What a device has to reach with every patch.
RIGHT = frozenset((Outcome.REFUSED, Outcome.DISCARDED, Outcome.ACCEPTED, Outcome.SAME))


@dataclass(frozen=True)
class Finding:
    outcome: Outcome
    words: str
    fault: str = ""  # its kind, where the patch is faulty
    farthest: Fraction = Fraction(0)  # in units: how far a point is from the rules' place, where the outcome is MOVED or ELSEWHERE
    counts: Optional[bool] = None  # whether they are the rules'; None where nothing was drawn
    area: Optional[bool] = None  # whether the areas of all triangles add up to the patch's; None where there are none
    inner_along: str = ""  # of quads: which coordinate the first inner level divides, where that can be seen


def faulty(fault: str, words: str, **rest) -> Finding:
    return Finding(Outcome.FAULTY, words, fault, **rest)


def units(number: Fraction) -> str:
    return f"{float(number):.1f} units"
