"""The lines of a report: one a patch, and the table at its end."""

from collections import defaultdict
from typing import Callable, Dict, Iterable, Iterator, List, Sequence, Tuple

from yoktvarim import Record, Spacing

from .finding import Finding, Outcome
from .job import AnyRecord
from .seams import Seams

NAMED = 4  # faulty patches that are named, of each kind
_SPACINGS = {Spacing.EQUAL: "equal", Spacing.FRACTIONAL_EVEN: "even", Spacing.FRACTIONAL_ODD: "odd"}

Judged = Tuple[int, AnyRecord, Finding]  # a patch by its number


def name(number: int, record: AnyRecord) -> str:
    """A patch in words."""
    if not isinstance(record, Record):
        return f"patch {number}"
    settings, patch = record.settings, record.patch
    inner = getattr(patch, "inner", ())
    levels = ["outer", *patch.outer, *(("inner",) if inner != () else ()), *(inner if isinstance(inner, tuple) else (inner,))]
    words = [
        record.kind.__name__.lower(),
        _SPACINGS[settings.spacing],
        "cw" if settings.vertex_order.name == "CLOCKWISE" else "ccw",
        settings.domain_origin.name.lower().replace("_", "-"),
        *(("points",) if settings.point_mode else ()),
        *((f"top {settings.top}",) if settings.top != 64 else ()),
        *(level if isinstance(level, str) else f"{level:.9g}" for level in levels),
    ]
    return f"patch {number} ({' '.join(words)})"


def _row(words: str, numbers: Iterable[object]) -> str:
    return f"{words:<50}" + "".join(f"{number:>9}" for number in numbers)


def faults(judged: Sequence[Judged]) -> List[Tuple[str, List[Judged]]]:
    """The faulty patches by their kind of fault, the most frequent kind first."""
    kinds: Dict[str, List[Judged]] = defaultdict(list)
    for one in judged:
        if one[2].outcome is Outcome.FAULTY:
            kinds[one[2].fault].append(one)
    return sorted(kinds.items(), key=lambda kind: -len(kind[1]))


def table(judged: Sequence[Judged]) -> Iterator[str]:
    """How many patches have each outcome, in all and by spacing."""
    columns = [[finding for _, _, finding in judged]]
    for spacing in Spacing:
        columns.append([said for _, record, said in judged if isinstance(record, Record) and record.settings.spacing is spacing])

    def counted(words: str, holds: Callable[[Finding], bool]) -> str:
        return _row(words, (sum(map(holds, column)) for column in columns))

    def farthest(words: str, outcome: Outcome) -> str:
        most = (max((said.farthest for said in column if said.outcome is outcome), default=0) for column in columns)
        return _row(words, (f"{float(units):.1f}" for units in most))

    yield _row("", ("all", *_SPACINGS.values()))
    yield counted("patches", lambda finding: True)
    for outcome in Outcome:
        yield counted(f"  {outcome.value}", lambda finding: finding.outcome is outcome)
        if outcome in (Outcome.MOVED, Outcome.ELSEWHERE):
            yield farthest("    the farthest, in units", outcome)
    for fault, _ in faults(judged):
        yield counted(f"    {fault}", lambda finding: finding.fault == fault)
    yield "of the patches that were drawn"
    yield counted("  counts as by the rules", lambda finding: finding.counts is True)
    yield counted("  other counts", lambda finding: finding.counts is False)
    yield counted("  the triangles' areas add up to the patch's", lambda finding: finding.area is True)
    yield counted("  another total area", lambda finding: finding.area is False)
    yield counted("  quads: first inner level divides v, by the rules", lambda finding: finding.inner_along == "v")
    yield counted("  quads: first inner level divides u", lambda finding: finding.inner_along == "u")


def first_faults(judged: Sequence[Judged]) -> Iterator[str]:
    """The first patches of each kind of fault, by name."""
    for fault, of_kind in faults(judged):
        yield f"first of '{fault}'"
        yield from (f"  {name(number, record)}: {finding.words}" for number, record, finding in of_kind[:NAMED])


def seam_lines(found: Dict[Spacing, Seams]) -> Iterator[str]:
    """The outer edges of the same spacing, level and top, in different patches and from either end."""
    yield f"{'outer edges that share a level':<37}" + "".join(f"{words:>12}" for words in ("levels", "edges", "with a gap", "widest gap"))
    for spacing, seams in found.items():
        numbers = seams.levels, seams.edges, len(seams.gaps), f"{float(seams.widest):.1f}"
        yield f"  {_SPACINGS[spacing]:<35}" + "".join(f"{number:>12}" for number in numbers)
        yield from (f"    a gap: {words}" for words in seams.gaps[:NAMED])
        if seams.beside:
            yield f"    on {len(seams.beside)} edges lie points that are not of the outline, first {seams.beside[0]}"
