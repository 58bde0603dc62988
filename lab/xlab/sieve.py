"""A sieve for traces: whole records alone, of a window, with a count of what was dropped."""

import enum
from collections import Counter
from collections.abc import Iterable, Iterator
from dataclasses import dataclass, field

import numpy as np

from xlab.counting import counted
from xlab.lackey import FETCH, Block, Other, Places, block

MOST_BYTES = 2**34  # of a trace that xlate reads


class Unit(enum.StrEnum):
    """What a window is counted by."""

    RECORDS = "records"
    INSTRUCTIONS = "instructions"


class Only(enum.StrEnum):
    """Which records are kept."""

    ALL = "all"
    FETCHES = "fetches"
    DATA = "data"


@dataclass
class Sieve:
    """What to keep, and, when it has run, what it kept and dropped."""

    skip: int = 0  # so many of `unit` are passed over first
    keep: int | None = None  # and at most so many are kept
    unit: Unit = Unit.RECORDS
    only: Only = Only.ALL
    syscalls: bool = False  # lines of system calls are kept, as comments
    most: int = MOST_BYTES
    records: int = 0
    instructions: int = 0
    length: int = 0  # bytes of what was kept
    full: bool = False  # it stopped before `most` bytes
    others: Counter[Other] = field(default_factory=Counter)
    _passed: int = 0  # units seen so far

    def events(self, pieces: Iterable[bytes]) -> Iterator[Block | bytes]:
        """The records kept, in order, in blocks that have records alone; and between them, where
        `syscalls` says so, the lines of system calls, those before the window too."""
        for piece in pieces:
            found = block(piece)
            self.others += found.counts()
            for event in parted(found) if self.syscalls else (found.records(),):
                if isinstance(event, Block):
                    event = self._kept(event)
                else:
                    self.length += len(as_comment(event))
                yield event
                if self._done():
                    return

    def blocks(self, pieces: Iterable[bytes]) -> Iterator[Block]:
        """The records kept alone, in blocks."""
        return (event for event in self.events(pieces) if isinstance(event, Block))

    def texts(self, pieces: Iterable[bytes]) -> Iterator[bytes | memoryview]:
        """The same as text: system calls are comments, which xlate skips."""
        for event in self.events(pieces):
            yield event.text() if isinstance(event, Block) else as_comment(event)

    def said(self) -> list[str]:
        """What was kept, what was dropped, and why it ended."""
        kept = (
            f"{counted(self.records, 'record')} kept, {counted(self.instructions, 'instruction')}"
        )
        dropped = [
            f"dropped {counted(count, 'line')} {what}"
            for what, count in sorted(self.others.items())
            if not (self.syscalls and what is Other.SYSCALL)
        ]
        full = (
            [f"stopped before {self.most} bytes, of which xlate reads no more"] if self.full else []
        )
        return [kept, *dropped, *full]

    def _done(self) -> bool:
        if self.keep is None:
            return self.full
        # the data of a window's last instruction end where the next one begins
        past = (
            self._passed > self.skip + self.keep
            if self.unit is Unit.INSTRUCTIONS
            else self._passed >= self.skip + self.keep
        )
        return self.full or past

    def _kept(self, found: Block) -> Block:
        """Those of a block of records that are kept; counts them."""
        found = self._in_window(found)
        if self.only is not Only.ALL:
            found = found.records((found.letter == FETCH) == (self.only is Only.FETCHES))
        if len(found):
            room = self.most - self.length + int(found.starts[0])
            fitting = int(np.searchsorted(found.ends, room, "right"))
            self.full = fitting < len(found)
            found = found.part(0, fitting)
        self.records += len(found)
        self.instructions += int(np.count_nonzero(found.letter == FETCH))
        self.length += len(found.text())
        return found

    def _in_window(self, found: Block) -> Block:
        """The part of a block of records that lies in the window."""
        if not self.skip and self.keep is None:
            return found
        units = (
            np.flatnonzero(found.letter == FETCH)
            if self.unit is Unit.INSTRUCTIONS
            else np.arange(len(found))
        )
        first = _place(units, self.skip - self._passed, len(found)) if self.skip else 0
        last = (
            len(found)
            if self.keep is None
            else _place(units, self.skip + self.keep - self._passed, len(found))
        )
        self._passed += len(units)
        return found.part(first, last)


def _place(units: Places, number: int, end: int) -> int:
    """Where the unit of this number begins, among those of a block; 0 where it has begun, its
    end where it comes later."""
    return 0 if number < 0 else int(units[number]) if number < len(units) else end


def parted(found: Block) -> Iterator[Block | bytes]:
    """The records of a block, and between them, in place, its lines of system calls."""
    done = 0
    for number, what in found.others:
        if what is Other.SYSCALL:
            if done < number:
                yield found.part(done, number).records()
            yield found.line(number)
            done = number + 1
    if done < len(found):
        yield found.part(done, len(found)).records()


def as_comment(line: bytes) -> bytes:
    """The line of a system call as a comment of a trace."""
    return (line if line.startswith(b"#") else b"# " + line) + b"\n"
