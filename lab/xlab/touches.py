"""What the records of a trace touch: each block of 4 KiB, 2 MiB or 1 GiB at its first use of
each kind."""

import enum
from dataclasses import dataclass
from typing import NamedTuple

import numpy as np

from xlab.lackey import FETCH, MODIFY, STORE, Block, Places, Words


class Order(enum.Enum):
    """A size of pages, as a script names it."""

    SMALL = "4k"
    LARGE = "2m"
    HUGE = "1g"

    @property
    def shift(self) -> int:
        """Of an address, to a block's number."""
        return {"4k": 12, "2m": 21, "1g": 30}[self.value]

    @property
    def pages(self) -> int:
        """Pages of 4 KiB in a block."""
        return 1 << self.shift - 12


class Use(enum.IntFlag):
    """How a block is used: reading needs no flag."""

    READ = 0
    STORED = 1
    FETCHED = 2

    def permission(self) -> str:
        """The permission that allows such a use, as a script says it."""
        return f"r{'w' if Use.STORED in self else '-'}{'x' if Use.FETCHED in self else '-'}u"


class Touch(NamedTuple):
    """A record's use of a block, and the record's number in the trace; records count from 0."""

    record: int
    block: int
    use: Use


USES = np.zeros(256, np.uint64)  # of a record's letter
USES[FETCH] = Use.FETCHED
USES[[STORE, MODIFY]] = Use.STORED
SLOTS = 1 << 16
NOTHING = np.uint64(2**64 - 1)  # no key: blocks have at most 52 bits


@dataclass
class Touches:
    """Reads a trace, and says what is touched for the first time.

    A use that was told is remembered in the slot of its key, until another key takes the slot:
    so a use may be told again, and what was told of it must be known to who asks. What the slots
    hold is passed over many records at once."""

    order: Order = Order.SMALL
    records: int = 0  # read so far

    def __post_init__(self) -> None:
        self._told = np.full(SLOTS, NOTHING, np.uint64)

    def of(self, found: Block) -> list[Touch]:
        """What a block of records touches that was not told lately, by record and then by block."""
        keys, records = self._keys(found)
        unknown = np.flatnonzero(self._told[keys & np.uint64(SLOTS - 1)] != keys)
        keys, records = keys[unknown], records[unknown] + self.records
        self.records += len(found)
        in_order = np.lexsort((records, keys))
        keys, records = keys[in_order], records[in_order]
        first = np.diff(keys, prepend=NOTHING) != 0
        keys, records = keys[first], records[first]
        self._told[keys & np.uint64(SLOTS - 1)] = keys
        by_record = np.lexsort((keys, records))
        told = zip(records[by_record].tolist(), keys[by_record].tolist(), strict=True)
        return [Touch(record, key >> 2, Use(key & 3)) for record, key in told]

    def forget(self, first: int, end: int) -> None:
        """What is touched in the blocks from `first` on and before `end` is told anew."""
        blocks = self._told >> np.uint64(2)
        self._told[(blocks >= np.uint64(first)) & (blocks < np.uint64(end))] = NOTHING

    def _keys(self, found: Block) -> tuple[Words, Places]:
        """Block and use of each touch as one number, and the place of its record."""
        shift = np.uint64(self.order.shift)
        address = found.addresses()
        first = address >> shift
        last = (address + np.maximum(found.size, 1).astype(np.uint64) - np.uint64(1)) >> shift
        use = USES[found.letter]
        keys, records = [first << np.uint64(2) | use], [np.arange(len(found))]
        for record in np.flatnonzero(last != first).tolist():  # those over the end of a block
            more = np.arange(int(first[record]) + 1, int(last[record]) + 1, dtype=np.uint64)
            keys.append(more << np.uint64(2) | use[record])
            records.append(np.full(len(more), record))
        return np.concatenate(keys), np.concatenate(records)
