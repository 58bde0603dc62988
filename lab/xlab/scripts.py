"""Lines of mapping scripts, and the limits of a script that xlate reads."""

from collections.abc import Iterable, Iterator
from dataclasses import dataclass

from xlab.lackey import Block
from xlab.messages import Fault
from xlab.touches import Order, Touches, Use

MOST_BYTES = 1 << 20
MOST_AREAS = 256
MOST_LEAVES = 1 << 20  # of a line
ALL_PAGES = 1 << 44  # of the lower half of Sv57, in which those of Sv48 and Sv39 lie
ANY = "rwxu"
MOST_FRAMES = 1 << 22  # of a host
GUEST_DATA = 1 << 30  # the guest physical address of a guest's first page; its nodes stand from 0 on


@dataclass
class Span:
    """Neighbouring blocks of one use."""

    first: int
    count: int
    use: Use

    @property
    def end(self) -> int:
        """The block behind it."""
        return self.first + self.count


def whole(lines: Iterable[str], advice: str) -> str:
    """The script of these lines; raises a fault with advice where it is longer than xlate reads."""
    text = "\n".join(lines) + "\n"
    if len(text) > MOST_BYTES:
        raise Fault(
            f"the script would have {len(text):,} bytes, and xlate reads at most {MOST_BYTES:,}: {advice}"
        )
    return text


def demand(space: int, first: int, count: int, order: Order, permission: str) -> str:
    """The line of an area of so many blocks that are mapped when they are touched."""
    return (
        f"demand {space} {first << order.shift:x} {count * order.pages} {order.value} {permission}"
    )


def everything(space: int, order: Order) -> str:
    """The line of an area that covers all addresses of a user, in each mode."""
    return demand(space, 0, ALL_PAGES // order.pages, order, ANY)


def maps(space: int, span: Span, order: Order) -> Iterator[str]:
    """The lines that map a span at once."""
    for first in range(span.first, span.end, MOST_LEAVES):
        count = min(span.end - first, MOST_LEAVES)
        yield f"map {space} {first << order.shift:x} {order.value} {span.use.permission()} {count}"


def _host_map(address: int, order: Order, permission: str, count: int) -> str:
    return f"gmap {address:x} {order.value} {permission} {min(count, MOST_LEAVES)}"


@dataclass(frozen=True)
class Touched:
    """What a trace touches, by block: its uses, and the record of its first touch, in this
    order."""

    order: Order
    uses: dict[int, Use]
    first: dict[int, int]
    records: int

    @classmethod
    def of(cls, blocks: Iterable[Block], order: Order) -> "Touched":
        """Reads blocks of records."""
        uses: dict[int, Use] = {}
        first: dict[int, int] = {}
        touches = Touches(order)
        for found in blocks:
            for touch in touches.of(found):
                first.setdefault(touch.block, touch.record)
                uses[touch.block] = uses.get(touch.block, Use.READ) | touch.use
        return cls(order, uses, first, touches.records)

    def head(self, spaces: int) -> str:
        """A comment with what the script wants."""
        frames = len(self.uses) * self.order.pages * spaces
        runs = len(spans(self.uses))
        blocks = f"{len(self.uses)} blocks of {self.order.value}"
        return f"# {blocks} in {runs} runs: {frames} frames are wanted"

    def on_demand(self, spaces: int = 1) -> Iterator[str]:
        """The lines of areas whose pages are mapped when they are touched; the same in each of
        the spaces."""
        for space in range(spaces):
            for span in joined(spans(self.uses), MOST_AREAS // spaces):
                yield demand(space, span.first, span.count, self.order, span.use.permission())

    def mapped(self, spaces: int = 1) -> Iterator[str]:
        """The lines that map all of it beforehand; the same in each of the spaces."""
        for space in range(spaces):
            for span in spans(self.uses):
                yield from maps(space, span, self.order)

    def by_touch(self) -> Iterator[str]:
        """The lines that map each block just before its first touch, and run the records
        between."""
        done = 0
        for block, record in self.first.items():
            if record > done:
                yield f"run {record - done}"
            done = record
            permission = self.uses[block].permission()
            yield f"map 0 {block << self.order.shift:x} {self.order.value} {permission}"

    def staged(self, host: Order, cache: int) -> Iterator[str]:
        """The lines of a guest with these blocks, over a host with blocks of a size of its own and
        a G cache of this width. Raises a fault where the host has too few frames."""
        nodes, pages = self._nodes(), len(self.uses) * self.order.pages
        of_nodes, of_data = (-(-count // host.pages) for count in (nodes, pages))
        frames = (of_nodes + of_data) * host.pages
        if frames > MOST_FRAMES:
            raise Fault(f"{frames:,} frames of the host are wanted, and there are {MOST_FRAMES:,}")
        host_nodes = 4 + sum(2 + (nodes >> shift) + (pages >> shift) for shift in (9, 18))
        yield f"guest 0 {nodes} {frames} {host_nodes} {cache}"
        for first in range(0, of_nodes, MOST_LEAVES):
            yield _host_map(first << host.shift, host, "rw-u", of_nodes - first)
        for first in range(0, of_data, MOST_LEAVES):
            yield _host_map(GUEST_DATA + (first << host.shift), host, ANY, of_data - first)
        at = GUEST_DATA
        for span in spans(self.uses):
            for line in maps(0, span, self.order):
                _, _, address, order, permission, count = line.split()
                yield f"vmap {address} {order} {at:x} {permission} {count}"
                at += int(count) << self.order.shift

    def _nodes(self) -> int:
        """The nodes of an Sv39 table with these blocks."""
        shifts = [shift for shift in (21, 30) if shift > self.order.shift]
        above = [{block >> shift - self.order.shift for block in self.uses} for shift in shifts]
        return 1 + sum(map(len, above))

    def turns(self, length: int) -> Iterator[str]:
        """Turns of spaces 0 and 1 of so many records each; after each turn of space 0 its first
        block of code gets its permission anew. Raises a fault where the trace has no code."""
        code = min((block for block, use in self.uses.items() if Use.FETCHED in use), default=None)
        if code is None:
            raise Fault("the trace has no fetch, and --turns changes the permission of code")
        address, permission = f"{code << self.order.shift:x}", self.uses[code].permission()
        for _ in range(self.records // (2 * length)):
            yield "space 0"
            yield f"run {length}"
            yield f"protect 0 {address} {self.order.value} {permission}"
            yield "space 1"
            yield f"run {length}"


def spans(uses: dict[int, Use]) -> list[Span]:
    """The blocks as spans of one use, in rising order."""
    found: list[Span] = []
    for block, use in sorted(uses.items()):
        if found and found[-1].end == block and found[-1].use == use:
            found[-1].count += 1
        else:
            found.append(Span(block, 1, use))
    return found


def joined(found: list[Span], most: int) -> list[Span]:
    """At most so many spans: those with the least gaps between them become one, over the gap,
    with both uses."""
    if len(found) <= most:
        return found
    gaps = [right.first - left.end for left, right in zip(found, found[1:], strict=False)]
    by_gap = sorted(range(len(gaps)), key=lambda at: (gaps[at], at))
    over = set(by_gap[: len(found) - most])
    made = [Span(found[0].first, found[0].count, found[0].use)]
    for at, right in enumerate(found[1:]):
        if at in over:
            made[-1] = Span(made[-1].first, right.end - made[-1].first, made[-1].use | right.use)
        else:
            made.append(Span(right.first, right.count, right.use))
    return made
