"""Reports of the forms `nested`, `harts` and `curve`, which have no JSON: their counts as rows."""

import re
from dataclasses import dataclass
from typing import Any

NESTED = re.compile(r"^nested (accesses=.*)$", re.M)
HART = re.compile(r"^hart \d+ (accesses=.*)$", re.M)
HARTS = re.compile(r"^harts (accepted=.*)$", re.M)
CURVE = re.compile(r"^(\S+) curve sets=(\d+) lookups=(\d+) hits=(\d+(?:,\d+){63})$", re.M)
WIDTHS = {f"w{width}" for width in range(1, 65)}  # columns of a curve's row: the misses of each width
# what tables and pictures ask of each row, and these forms don't count
ABSENT = {"unmapped": 0, "notcanonical": 0, "tlb": []}
Row = dict[str, Any]


@dataclass(frozen=True)
class Curve:
    """The lookups and the hits of a row's array, by width from 1 to 64."""

    row: str
    sets: int
    lookups: int
    hits: tuple[int, ...]

    @property
    def array(self) -> str:
        """Its sets, in words."""
        return "1 set" if self.sets == 1 else f"{self.sets} sets"

    @property
    def misses(self) -> list[int]:
        """Its misses, by width."""
        return [self.lookups - hits for hits in self.hits]


def curves(text: str) -> list[Curve]:
    """The curves of a report."""
    found = CURVE.findall(text)
    return [Curve(row, int(sets), int(lookups), tuple(map(int, hits.split(",")))) for row, sets, lookups, hits in found]


def of_curves(text: str) -> list[Row]:
    """The curves of a report as rows, whose columns w1 to w64 are the misses of each width."""
    return [{"name": f"{it.row}, {it.array}", "accesses": it.lookups, "accepted": 0} | ABSENT
            | {f"w{width}": misses for width, misses in enumerate(it.misses, 1)} for it in curves(text)]  # fmt: skip


def is_count(line: str) -> bool:
    """Whether a line has counts of these forms."""
    return any(form.fullmatch(line) for form in (NESTED, HART, HARTS, CURVE))


def read(text: str) -> Row | None:
    """The row of a report of stages; of harts their counts together. None where it is no such report."""
    nested = NESTED.search(text)
    if nested:
        counts = _counts(nested[1])
        return {"name": "nested", "trace": "nested"} | ABSENT | counts | {"walks": counts["accesses"]}
    all_harts = HARTS.search(text)
    return _together([_counts(line) for line in HART.findall(text)], _counts(all_harts[1])) if all_harts else None


def _counts(line: str) -> Row:
    """The counts of a line by their names."""
    parts = (part.split("=") for part in line.split())
    return {name: _value(name, value) for name, value in parts}


def _value(name: str, value: str) -> Any:
    if name == "refused":
        return [int(part) for part in value.split(",")]
    return value if name == "pasum" else int(value)


def _together(harts: list[Row], rest: Row) -> Row:
    """One row of all harts, whose arrays are its TLB."""
    counts = {name: sum(hart[name] for hart in harts) for name in harts[0] if name != "pasum"}
    pasum = sum(int(hart["pasum"], 16) for hart in harts) % 2**64
    own = {"name": "harts", "trace": "harts", "pasum": f"{pasum:016x}", "walks": counts["misses"]}
    return ABSENT | counts | rest | own | {"tlb": [[counts["hits"], counts["misses"]]]}
