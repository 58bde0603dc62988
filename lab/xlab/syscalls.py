"""The lines of system calls that Valgrind writes into a trace with --trace-syscalls=yes, and the
changes of the address space that they say."""

import re
from dataclasses import dataclass, field

from xlab.touches import Order

SHIFT = Order.SMALL.shift
CALL = re.compile(
    rb"(?:# )?SYSCALL\[(\d+,\d+)\]\( *\d+\) "
    rb"(?:sys_(?P<name>mmap2?|munmap|mprotect|pkey_mprotect|mremap|brk|madvise)"
    rb" \( (?P<words>[^)]*) \)|\.\.\.)"
    rb".*?--> (?:\[[\w-]+\] )?"
    rb"(?P<result>Success\(0x(?P<value>[0-9a-f]+)|Failure|\[async\] \.\.\.|\.\.\.)"
)
ANONYMOUS = 0x20  # MAP_ANONYMOUS, of mmap
NO_PAGES = {
    4,
    9,
}  # of madvise: MADV_DONTNEED and MADV_REMOVE take the pages away, and their contents with them


@dataclass(frozen=True)
class Pages:
    """Pages of 4 KiB, from the first on and before the end."""

    first: int
    end: int


@dataclass(frozen=True)
class Mapped(Pages):
    """They are an area, with this protection (PROT_READ 1, PROT_WRITE 2, PROT_EXEC 4); what was
    there is gone."""

    protection: int
    anonymous: bool


@dataclass(frozen=True)
class Unmapped(Pages):
    """They are no area any more."""


@dataclass(frozen=True)
class Emptied(Pages):
    """They are still an area, but their frames are taken away."""


@dataclass(frozen=True)
class Protected(Pages):
    """They have this protection now."""

    protection: int


@dataclass(frozen=True)
class Moved(Pages):
    """The area, with the frames that it has, begins at another page now."""

    to: int


@dataclass(frozen=True)
class Grown(Pages):
    """They are an area, with the protection of another page."""

    like: int


Change = Mapped | Unmapped | Emptied | Protected | Moved | Grown


def pages(address: int, length: int) -> tuple[int, int]:
    """The first page and the end of an area of so many bytes that begins at a page."""
    return address >> SHIFT, (address + length + (1 << SHIFT) - 1) >> SHIFT


def up(address: int) -> int:
    """The first page that begins at an address or behind it."""
    return (address + (1 << SHIFT) - 1) >> SHIFT


@dataclass
class Calls:
    """Reads the lines of system calls, and remembers what one says of the next."""

    brk: int | None = None  # the end of the heap
    _asked: dict[bytes, tuple[bytes, list[int]]] = field(
        default_factory=dict
    )  # calls that have not ended, by thread

    def changes(self, line: bytes) -> list[Change]:
        """What a line says has changed; nothing where it is another call, or one that failed."""
        found = CALL.match(line)
        if not found:
            return []
        thread, name, result = found[1], found["name"], found["result"]
        call = self._asked.pop(thread, None)
        if name:
            call = name, [_number(word) for word in found["words"].split(b",")]
        if call and result.endswith(b"..."):
            self._asked[thread] = call
        elif call and result.startswith(b"Success"):
            return self._done(*call, int(found["value"], 16))
        return []

    def _done(self, name: bytes, words: list[int], value: int) -> list[Change]:
        match name:
            case b"mmap" | b"mmap2":
                return [Mapped(*pages(value, words[1]), words[2] & 7, bool(words[3] & ANONYMOUS))]
            case b"munmap":
                return [Unmapped(*pages(words[0], words[1]))]
            case b"mprotect" | b"pkey_mprotect":
                return [Protected(*pages(words[0], words[1]), words[2] & 7)]
            case b"madvise":
                return [Emptied(*pages(words[0], words[1]))] if words[2] in NO_PAGES else []
            case b"mremap":
                return self._remapped(words, value)
            case _:
                return self._heap(value)

    def _remapped(self, words: list[int], value: int) -> list[Change]:
        """An area that moved, shrank or grew: what is left of it at its end is unmapped or
        mapped."""
        first, old_end = pages(words[0], words[1])
        to, end = pages(value, words[2])
        kept = min(old_end - first, end - to)
        made: list[Change] = (
            [] if to == first else [Unmapped(to, end), Moved(first, first + kept, to)]
        )
        if first + kept < old_end:
            made.append(Unmapped(first + kept, old_end))
        if kept < end - to:
            made.append(Grown(to + kept, end, to))
        return made

    def _heap(self, value: int) -> list[Change]:
        """The heap that has another end."""
        before, self.brk = self.brk, value
        if before is None or up(before) == up(value):
            return []
        if before < value:
            return [Mapped(up(before), up(value), 3, anonymous=True)]
        return [Unmapped(up(value), up(before))]


def _number(word: bytes) -> int:
    """A word of a call: decimal or hexadecimal, perhaps with a text behind it."""
    text = word.split(b"(")[0].strip()
    return int(text, 16 if text.startswith(b"0x") else 10)
