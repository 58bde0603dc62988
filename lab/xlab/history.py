"""The real history of a program's address space as a mapping script: each page is mapped just
before its first touch, with the protection of its area, as an operating system does at a page
fault; and unmapped, protected and moved where the program asked for it."""

from collections import Counter
from collections.abc import Iterable, Iterator
from dataclasses import dataclass, field

from intervaltree import IntervalTree

from xlab.counting import counted
from xlab.lackey import Block
from xlab.scripts import ANY, MOST_AREAS, Span, demand, everything
from xlab.syscalls import Calls, Change, Emptied, Grown, Mapped, Moved, Protected, Unmapped
from xlab.touches import Order, Touch, Touches, Use

SHIFT = Order.SMALL.shift
NO_ACCESS = "r---"  # without u no access of a user is served, and the page keeps its frame


@dataclass
class Permission:
    """A page's permission: that of its area; or, where none is known (the program's own
    segments, its stack), what it is used for until it is protected."""

    protection: int | None = None
    use: Use = Use.READ

    def word(self) -> str:
        """As a script says it. A page that may be written or executed may be read, as on x86."""
        if self.protection is None:
            return self.use.permission()
        if self.protection == 0:
            return NO_ACCESS
        stored, fetched = self.protection & 2, self.protection & 4
        return (
            (Use.STORED if stored else Use.READ) | (Use.FETCHED if fetched else Use.READ)
        ).permission()


@dataclass(frozen=True)
class Step:
    """A line of the script, before a record; `{}` in it is a permission, which is known once all
    is read."""

    record: int
    line: str
    permission: Permission | None = None


@dataclass
class History:
    """Reads the records and system calls of a trace, and has the script's lines then."""

    steps: list[Step] = field(default_factory=list)
    done: Counter[str] = field(default_factory=Counter)  # pages mapped, unmapped, protected, moved
    most: int = 0  # pages mapped at once
    _areas: IntervalTree = field(default_factory=IntervalTree)  # protections, of pages
    _mapped: dict[int, Permission] = field(default_factory=dict)
    _touches: Touches = field(default_factory=Touches)
    _calls: Calls = field(default_factory=Calls)

    def read(self, events: Iterable[Block | bytes]) -> None:
        """Reads what a sieve gives that keeps lines of system calls."""
        for event in events:
            if isinstance(event, Block):
                for touch in self._touches.of(event):
                    self._touched(touch)
            else:
                for change in self._calls.changes(event):
                    self._changed(change)

    def lines(self) -> Iterator[str]:
        """The script."""
        what = ", ".join(
            f"{self.done[it]:,} {it}" for it in ("mapped", "unmapped", "protected", "moved")
        )
        yield f"# pages: {what}; at most {counted(self.most, 'page')} at once"
        record = 0
        for step in self.steps:
            if step.record > record:
                yield f"run {step.record - record}"
            record = step.record
            yield step.line.format(step.permission.word() if step.permission else "")
        yield "run rest"

    def _step(
        self,
        done: str,
        count: int,
        line: str,
        permission: Permission | None = None,
        record: int = -1,
    ) -> None:
        self.done[done] += count
        self.steps.append(Step(self._touches.records if record < 0 else record, line, permission))

    def _touched(self, touch: Touch) -> None:
        permission = self._mapped.get(touch.block)
        if permission is None:
            permission = self._mapped[touch.block] = Permission(self._protection(touch.block))
            self.most = max(self.most, len(self._mapped))
            self._step(
                "mapped", 1, f"map 0 {touch.block << SHIFT:x} 4k {{}}", permission, touch.record
            )
        permission.use |= touch.use

    def _protection(self, page: int) -> int | None:
        return next((area.data for area in self._areas.at(page)), None)

    def _changed(self, change: Change) -> None:
        if change.first >= change.end:
            return
        match change:
            case Unmapped() | Mapped() | Grown():
                self._unmap(change)
                self._areas.chop(change.first, change.end)
            case Emptied():
                self._unmap(change)
            case Protected():
                self._protect(change)
            case Moved():
                self._move(change)
        match change:
            case Mapped():
                self._areas.addi(change.first, change.end, change.protection)
            case Grown():
                protection = self._protection(change.like)
                if protection is not None:
                    self._areas.addi(change.first, change.end, protection)

    def _runs(self, pages: Iterable[int]) -> Iterator[Span]:
        """Neighbouring pages as spans."""
        run: Span | None = None
        for page in pages:
            if run and page == run.end:
                run.count += 1
            else:
                if run:
                    yield run
                run = Span(page, 1, Use.READ)
        if run:
            yield run

    def _mapped_in(self, first: int, end: int) -> list[int]:
        """The mapped pages of a range, in rising order."""
        if end - first < len(self._mapped):
            return [page for page in range(first, end) if page in self._mapped]
        return sorted(page for page in self._mapped if first <= page < end)

    def _unmap(self, change: Change) -> None:
        pages = self._mapped_in(change.first, change.end)
        for run in self._runs(pages):
            self._step("unmapped", run.count, f"unmap 0 {run.first << SHIFT:x} 4k {run.count}")
        for page in pages:
            del self._mapped[page]
        if pages:
            self._touches.forget(change.first, change.end)

    def _protect(self, change: Protected) -> None:
        self._areas.chop(change.first, change.end)
        self._areas.addi(change.first, change.end, change.protection)
        new = Permission(change.protection)
        pages = [
            page
            for page in self._mapped_in(change.first, change.end)
            if self._mapped[page].protection is None or self._mapped[page].word() != new.word()
        ]
        for run in self._runs(pages):
            line = f"protect 0 {run.first << SHIFT:x} 4k {{}} {run.count}"
            self._step("protected", run.count, line, new)
        for page in pages:
            self._mapped[page] = new

    def _move(self, change: Moved) -> None:
        by = change.to - change.first
        pages = self._mapped_in(change.first, change.end)
        for run in self._runs(pages):
            line = f"move 0 {run.first << SHIFT:x} {run.first + by << SHIFT:x} 4k {run.count}"
            self._step("moved", run.count, line)
        for page in pages:
            self._mapped[page + by] = self._mapped.pop(page)
        self._touches.forget(change.first, change.end)
        protection = self._protection(change.first)
        self._areas.chop(change.first, change.end)
        if protection is not None:
            self._areas.addi(change.to, change.to + change.end - change.first, protection)


def huge(events: Iterable[Block | bytes], of_files: bool) -> Iterator[str]:
    """The lines of areas of 2 MiB pages in whole aligned blocks of the memory that the program
    maps, that of files too or only anonymous memory; and of one area of 4 KiB pages everywhere
    else. An area that comes first is the one that serves; where there would be more than a
    script may have, the largest are taken."""
    calls, areas = Calls(), IntervalTree()
    for event in events:
        for change in calls.changes(event) if isinstance(event, bytes) else ():
            if (
                isinstance(change, Mapped)
                and change.first < change.end
                and (of_files or change.anonymous)
            ):
                areas.addi(change.first, change.end)
    areas.merge_overlaps(strict=False)
    per_block = Order.LARGE.pages
    whole = [
        Span(
            -(-area.begin // per_block),
            area.end // per_block - -(-area.begin // per_block),
            Use.READ,
        )
        for area in sorted(areas)
    ]
    found = sorted((span for span in whole if span.count > 0), key=lambda span: -span.count)[
        : MOST_AREAS - 1
    ]
    blocks = sum(span.count for span in found)
    yield f"# {counted(blocks, 'block')} of 2 MiB in {counted(len(found), 'area')}"
    for span in sorted(found, key=lambda span: span.first):
        yield demand(0, span.first, span.count, Order.LARGE, ANY)
    yield everything(0, Order.SMALL)
