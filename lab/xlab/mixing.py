"""Several traces by turns, each in a space of its own: the records one after another, and the
script that goes along."""

from collections.abc import Iterable, Iterator, Sequence
from dataclasses import dataclass, field

from xlab.lackey import Block
from xlab.messages import Fault
from xlab.scripts import MOST_AREAS, everything
from xlab.sieve import MOST_BYTES
from xlab.touches import Order

MOST_SPACES = 64
REST = 2**63  # of a `run rest`: more records than any trace has
SPACE_AT = {
    "map": 1,
    "unmap": 1,
    "protect": 1,
    "move": 1,
    "demand": 1,
}  # which word of a line is its space


@dataclass
class Records:
    """The records of a trace, to be taken from its front."""

    blocks: Iterator[Block]
    _left: Block | None = None

    def take(self, most: int) -> Iterator[Block]:
        """The next records, at most so many, as blocks that have some; nothing at the end."""
        while most:
            found, self._left = self._left, None
            if found is None:
                found = next(self.blocks, None)
            if found is None:
                return
            taken = min(most, len(found))
            self._left = found.part(taken, len(found)) if taken < len(found) else None
            if taken:
                yield found.part(0, taken)
            most -= taken


@dataclass
class Script:
    """A script of space 0, to be cut where turns end; its lines are given for another space."""

    lines: Iterator[str]
    space: int
    _run: int = 0  # records left of the run that it is at

    def run(self, records: int) -> Iterator[str]:
        """The lines that go along with the next records: commands that stand before them, and
        runs."""
        while records:
            while not self._run:
                words = next(self.lines, "run rest").split("#")[0].split()
                if words[:1] == ["run"]:
                    self._run = REST if words[1] == "rest" else int(words[1])
                elif words:
                    yield self._in_space(words)
            ran = min(records, self._run)
            yield f"run {ran}"
            self._run -= ran
            records -= ran

    def _in_space(self, words: list[str]) -> str:
        """A command, of the other space. Raises a fault where the script is not of space 0
        alone."""
        at = (
            2 if words[:2] in (["fence", "space"], ["fence", "page"]) else SPACE_AT.get(words[0], 0)
        )
        if words[0] == "space" or at and words[at : at + 1] != ["0"]:
            raise Fault(
                f"a script to be mixed has space 0 alone, and this one has the line `{' '.join(words)}`"
            )
        return " ".join([*words[:at], str(self.space), *words[at + 1 :]] if at else words)


@dataclass
class Mix:
    """Traces by turns of so many records; a trace that has ended has no more turns."""

    traces: list[Records]
    scripts: Sequence[Iterable[str]]
    turn: int
    fences: bool = False
    lines: list[str] = field(default_factory=list)  # of the script, once all texts are taken
    records: list[int] = field(default_factory=list)  # of each trace
    length: int = 0  # bytes of the texts
    _at: int | None = None  # the space of the last turn

    def texts(self) -> Iterator[memoryview]:
        """The records of all, turn by turn."""
        self.records = [0] * len(self.traces)
        scripts = [Script(iter(lines), space) for space, lines in enumerate(self.scripts)]
        running = list(range(len(self.traces)))
        while running:
            for space in list(running):
                taken = 0
                for found in self.traces[space].take(self.turn):
                    taken += len(found)
                    self.length += len(found.text())
                    yield found.text()
                if self.length > MOST_BYTES:
                    raise Fault(
                        f"the mix would have more than {MOST_BYTES} bytes, of which xlate reads no more"
                    )
                self._turn(space, taken, scripts[space])
                if taken < self.turn:
                    running.remove(space)
        if sum(line.startswith("demand") for line in self.lines) > MOST_AREAS:
            raise Fault(f"the script would have more than {MOST_AREAS} areas")

    def _turn(self, space: int, taken: int, script: Script) -> None:
        """The lines of a turn; none where its trace had ended."""
        if taken:
            self.records[space] += taken
            if space != self._at:
                self._at = space
                self.lines += [f"space {space}", "fence all"] if self.fences else [f"space {space}"]
            self.lines += script.run(taken)


def everywhere() -> list[str]:
    """The script of a trace that has none: all on demand."""
    return [everything(0, Order.SMALL)]
