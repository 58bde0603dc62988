"""What is read off a row's counts: misses of levels, rates, figures per 1,000 instructions, changes against a row."""

import enum
import math
from collections.abc import Callable, Iterable, Iterator
from dataclasses import dataclass, field

from xlab import formrows
from xlab.explained.said import nearest
from xlab.messages import Fault, Status
from xlab.rowfiles import Row

Value = int | float | str | None


class FirstTouches(enum.StrEnum):
    """How a page's first touch counts where it is mapped on demand: the access misses unmapped, and again once mapped."""

    COUNTED = "counted"  # as xlate counts: two accesses, two misses
    ONCE = "once"  # as other simulators count: one access, one miss
    OUT = "out"  # no miss: those that no TLB could avoid are left out


@dataclass(frozen=True)
class Sample:
    """A row on one trace, with what its figures are reckoned by."""

    trace: str
    row: Row
    levels: tuple[int, ...]  # of each TLB array
    instructions: int | None = None
    first: FirstTouches = FirstTouches.COUNTED

    def count(self, name: str) -> int:
        """A count of the row."""
        return int(self.row[name])

    @property
    def first_touches(self) -> int:
        """Accesses that found their page unmapped and had it mapped on demand."""
        return min(self.count("unmapped"), self.count("accepted"))

    def accesses(self) -> int:
        """Accesses, without those that first touches count twice."""
        return self.count("accesses") - (0 if self.first is FirstTouches.COUNTED else self.first_touches)

    def misses(self, level: int) -> int:
        """Accesses that no array up to this level answered."""
        hits = sum(int(pair[0]) for pair, at in zip(self.row["tlb"], self.levels) if at <= level)
        taken = {FirstTouches.COUNTED: 0, FirstTouches.ONCE: 1, FirstTouches.OUT: 2}[self.first]
        missed = self.count("accesses") - self.count("notcanonical") - hits
        return max(0, missed - taken * self.first_touches)

    def walks(self) -> int:
        """Accesses that no level answered."""
        return self.misses(max(self.levels, default=0))

    def has(self, level: int) -> bool:
        """Whether the row has a TLB of this level."""
        return level in self.levels


def guessed_levels(row: Row) -> tuple[int, ...]:
    """The level of each array of a row, read off its counts: an access looks at the arrays of a level that serve it, and
    at those of the next one where they all missed. A level that had no hit can't be told from the next one."""
    looked = row["accesses"] - row["notcanonical"]
    found = next((it for split in (False, True) for it in _levels(row["tlb"], looked, split)), None)
    if found is None:
        raise Fault(f"row {row['name']}: the counts of its tlb don't fit together; name its --config")
    return found


def _levels(counts: list[list[int]], looked: int, split: bool, level: int = 1) -> Iterator[tuple[int, ...]]:
    """The levels that arrays with these counts may have, where so many accesses look at the first of them."""
    if not counts:
        yield ()
    for size in range(len(counts), 0, -1):
        if _is_level(counts[:size], looked, split):
            left = looked - sum(hit for hit, _ in counts[:size])
            yield from ((level,) * size + rest for rest in _levels(counts[size:], left, split, level + 1))


def _is_level(counts: list[list[int]], looked: int, split: bool) -> bool:
    """Whether arrays with these counts may be a level that so many accesses look at: each sees all of them, or, where the
    level is split, the fetches or the rest."""
    lookups = {hit + miss for hit, miss in counts}
    parts = lookups - {looked}
    return not parts or split and len(parts) <= 2 and all(looked - part in lookups for part in parts)


@dataclass(frozen=True)
class Measure:
    """A column: its name, its heading with the unit, its value, and whether a lesser value is better."""

    name: str
    heading: str
    value: Callable[[Sample], Value]
    note: str = ""


def _ratio(above: int | float, below: int | float) -> float | None:
    return above / below if below else None


def _per_thousand(count: Callable[[Sample], int]) -> Callable[[Sample], Value]:
    return lambda it: None if it.instructions is None else _ratio(1000 * count(it), it.instructions)


def _per_accesses(count: Callable[[Sample], int]) -> Callable[[Sample], Value]:
    return lambda it: _ratio(1000 * count(it), it.accesses())


def _level(level: int) -> list[Measure]:
    def missed(it: Sample) -> int | None:
        return it.misses(level) if it.has(level) else None

    def mpki(it: Sample) -> Value:
        return _per_thousand(lambda it: it.misses(level))(it) if it.has(level) else None

    def mpka(it: Sample) -> Value:
        return _per_accesses(lambda it: it.misses(level))(it) if it.has(level) else None

    def rate(it: Sample) -> Value:
        above = it.accesses() if level == 1 else it.misses(level - 1)
        return _ratio(100 * it.misses(level), above) if it.has(level) else None

    return [
        Measure(f"l{level}", f"L{level} misses", missed, "accesses that no array up to this level answered"),
        Measure(f"l{level}-mpki", f"L{level} MPKI", mpki, "those for each 1,000 instructions"),
        Measure(f"l{level}-mpka", f"L{level} misses PKA", mpka, "those for each 1,000 accesses"),
        Measure(
            f"l{level}-rate", f"L{level} miss rate %", rate, "those for each 100 accesses that looked at the level"
        ),
    ]


MEASURES = {
    it.name: it
    for it in [
        *(measure for level in (1, 2, 3) for measure in _level(level)),
        Measure("walks", "walks", Sample.walks, "accesses that no level answered"),
        Measure("mpki", "walks PKI", _per_thousand(Sample.walks), "walks for each 1,000 instructions"),
        Measure("mpka", "walks PKA", _per_accesses(Sample.walks), "walks for each 1,000 accesses"),
        Measure(
            "walk-rate",
            "walk rate %",
            lambda it: _ratio(100 * it.walks(), it.accesses()),
            "walks for each 100 accesses",
        ),
        Measure(
            "reads", "reads", lambda it: it.count("reads"), "memory reads of all walks, also those of first touches"
        ),
        Measure("rpki", "reads PKI", _per_thousand(lambda it: it.count("reads")), "reads for each 1,000 instructions"),
        Measure(
            "reads-walk",
            "reads/walk",
            lambda it: _ratio(it.row["reads"], it.row["walks"]),
            "reads for each walk, of all walks",
        ),
        Measure(
            "reads-access",
            "reads/access",
            lambda it: _ratio(it.row["reads"], it.row["accesses"]),
            "reads for each access",
        ),
        Measure("accesses", "accesses", Sample.accesses, "accesses"),
        Measure("first", "first touches", lambda it: it.first_touches, "accesses that had their page mapped on demand"),
        Measure("refused", "refused", lambda it: sum(it.row["refused"]), "commands refused, for any cause"),
        Measure("instructions", "instructions", lambda it: it.instructions, "the I records of the trace"),
    ]
}
UNITS = {"mpki": "per 1,000 instructions", "rpki": "per 1,000 instructions", "mpka": "per 1,000 accesses", "rate": "per cent",
         "walk": "reads per walk", "access": "reads per access"}  # fmt: skip
OWN = {"trace", "config", "instructions", "template", "name", "tlb", "refused", "pasum", "accepted", "accesses", "denied",
       "fences", "fills", "growths", "invalidated", "kicks", "migrated", "notcanonical", "ok", "reads", "undone", "unmapped",
       "walks", "wchits", "pagefaults", "guestfaults", "hits", "misses", "taken", "waiting", "held",
       *formrows.WIDTHS}  # fmt: skip
AGAINST = "%"  # behind a column's name: its change in per cent against the base row


@dataclass
class Columns:
    """The columns of a table, and the row against which changes are reckoned."""

    names: list[str]
    base: str | None = None
    bases: dict[str, Sample] = field(default_factory=dict)

    def cells(self, it: Sample) -> dict[str, Value]:
        """The values of a row by their headings."""
        return {heading(name, self.base): self.cell(name, it) for name in self.names}

    def cell(self, name: str, it: Sample) -> Value:
        """One value."""
        if not name.endswith(AGAINST):
            return value(name, it)
        base = self.bases.get(it.trace)
        own, other = value(name[:-1], it), value(name[:-1], base) if base else None
        if not isinstance(own, int | float) or not isinstance(other, int | float) or not other:
            return None
        return 100 * (own / other - 1)


def value(name: str, it: Sample) -> Value:
    """A measure of a row, or what it holds under this name."""
    if name in MEASURES:
        return MEASURES[name].value(it)
    found = it.row.get(name)
    return found if isinstance(found, int | float | str | None) else str(found)


def set_keys(samples: list[Sample]) -> list[str]:
    """The keys that a sweep set: what rows hold beside their counts and their origin."""
    return list(dict.fromkeys(key for it in samples for key in it.row if key not in OWN))


def unit(name: str) -> str:
    """The unit of a column: an axis has one."""
    return UNITS.get(name.rsplit("-", 1)[-1], "count") if name in MEASURES else "count"


def spoken(name: str) -> str:
    """A column in words, with its unit."""
    note = MEASURES[name].note if name in MEASURES else name
    return note.replace("for each", "per").replace("those", f"L{name[1]} misses")


def heading(name: str, base: str | None) -> str:
    """The heading of a column."""
    if name.endswith(AGAINST):
        return f"{heading(name[:-1], None)} vs {base} %"
    return MEASURES[name].heading if name in MEASURES else name


def is_change(head: str) -> bool:
    """Whether a column with this heading has changes against a row."""
    return " vs " in head and head.endswith(" %")


def checked(names: Iterable[str], samples: list[Sample], base: str | None) -> list[str]:
    """The names of columns, where each is a measure or a name of the rows. Raises a fault else."""
    known = {*MEASURES, *(key for it in samples for key in it.row)}
    wanted = list(names)
    for name in wanted:
        if name.endswith(AGAINST) and base is None:
            raise Fault(f"column {name} wants --base ROW", Status.USAGE)
        if name.removesuffix(AGAINST) not in known:
            raise Fault(f"{name} is no column{nearest(name, known)}; `--help` lists them", Status.USAGE)
        if _is_per_instruction(name.removesuffix(AGAINST)) and all(it.instructions is None for it in samples):
            raise Fault(
                f"column {name} is by the trace's instructions: --trace FILE counts them, or --instructions N says them",
                Status.USAGE,
            )
        if of_curves(samples) and name.removesuffix(AGAINST) not in {"accesses", *formrows.WIDTHS}:
            raise Fault(f"curves have no {name}: their columns are accesses, and misses by width, w1 to w64", Status.USAGE)
    return wanted


def _is_per_instruction(name: str) -> bool:
    """Whether a column has no value without the number of instructions."""
    return name in MEASURES and (name == "instructions" or name.split("-")[-1] in ("mpki", "rpki"))


def of_curves(samples: list[Sample]) -> bool:
    """Whether a row is of a curve, which counts misses by width alone."""
    return any(formrows.WIDTHS <= it.row.keys() for it in samples)


def usual(samples: list[Sample], base: str | None) -> list[str]:
    """The columns that are shown where none are named."""
    if all("guestfaults" in it.row for it in samples):
        return ["accesses", "reads", "reads-access", "hits", "pagefaults", "guestfaults"]
    if of_curves(samples):
        return ["accesses", *(f"w{width}" for width in (1, 2, 4, 8, 16, 32, 64))]
    most = max((level for it in samples for level in it.levels), default=0)
    counted = any(it.instructions is not None for it in samples)
    of_levels = [f"l{level}{'-mpki' if counted else ''}" for level in range(1, most)]
    rest = ["mpki", "rpki", "reads-walk"] if counted else ["walks", "walk-rate", "reads", "reads-walk"]
    return of_levels + rest + ([f"{'rpki' if counted else 'reads'}%"] if base else [])


def shown_change(value: Value) -> str:
    """A change in per cent, with its sign."""
    return f"{value:+.1f}" if isinstance(value, int | float) and not math.isnan(value) else ""


def shown(value: Value) -> str:
    """A value as a reader wants it: thousands parted, four digits of what is no count."""
    if value is None or isinstance(value, float) and math.isnan(value):
        return ""
    if isinstance(value, int):
        return f"{value:,}"
    if isinstance(value, str):
        return value
    if value == 0:
        return "0"
    return f"{value:,.0f}" if abs(value) >= 1000 else f"{value:#.4g}".rstrip(".")
