"""`xlab script`: a mapping script for a trace."""

from __future__ import annotations

import argparse
from collections.abc import Iterable
from typing import TYPE_CHECKING

from xlab import files
from xlab.counting import positive
from xlab.formats import WIDTHS
from xlab.helppage import Example
from xlab.messages import Fault, Status
from xlab.needs import Needs

if TYPE_CHECKING:
    from xlab.lackey import Block

SUMMARY = "make a mapping script: on demand, by touched pages, or the program's real history"
DESCRIPTION = """
Writes the script of mapping commands that xlate serves beside a trace.

Without TRACE it is one line that covers all addresses of a user on demand, in each mode: each page
is mapped when an access finds it unmapped, so that first touches count two accesses and two walks.

With TRACE it has the pages that the trace touches, each with the permission that its uses want: as
areas on demand; with --maps all mapped before the run; with --touch each mapped just before its
first touch, so that nothing counts twice.

With --syscalls it is the program's real history of mmap, munmap, mprotect, mremap, brk and madvise,
at the records at which they happened, from a trace with lines of system calls (`xlab trace
--syscalls`, or Valgrind's --trace-syscalls=yes): each page is mapped just before its first touch,
with its area's protection.

With --huge the areas are pages of 2 MiB where whole aligned blocks of 2 MiB lie in the program's
anonymous memory (anon), or in this and in what it maps of files (files), and of 4 KiB elsewhere;
both want lines of system calls. With all they are of 2 MiB everywhere.

With --stages it is the script of `xlate nested`: a guest with these pages, all mapped before the
run, over a host with pages of 4k, 2m or 1g, behind a G cache of the width of --gcache. --order is
that of the guest's pages.

TRACE may be packed by gzip or zstd, and is read as `xlab records` reads it: lines that are no
records count for nothing. Run xlate on whole records then: the script counts these alone.
"""
EXAMPLES = (
    Example("xlab script -o any.script", "the line that serves any trace"),
    Example(
        "xlab script --touch -o my.script my.trace.zst",
        "each page is mapped just before its first touch",
    ),
    Example("xlab script --syscalls -o my.script my.trace.zst", "the program's real history"),
    Example(
        "xlab script --huge anon -o thp.script my.trace.zst",
        "2 MiB pages where the system could give them",
    ),
    Example(
        "xlab script --stages 2m --gcache 16 -o nested.script my.trace.zst",
        "a guest over host pages of 2 MiB",
    ),
    Example(
        "xlab script --turns 400 -o two.script my.trace",
        "two spaces by turns of 400 records, with a change at each",
    ),
)
NEEDS = Needs(modules=("numpy", "intervaltree"))
ORDERS = ("4k", "2m", "1g")
HUGE = ("anon", "files", "all")
ADVICE = (
    "take a part of the trace (xlab records --keep), larger pages (--order), or areas on demand"
)


def add_parser(parser: argparse.ArgumentParser) -> None:
    """Adds its words."""
    parser.add_argument(
        "trace", metavar="TRACE", nargs="?", help="the trace, or - for standard input"
    )
    parser.add_argument(
        "-o",
        "--output",
        metavar="FILE",
        default="-",
        help="the file to write; standard output else",
    )
    kind = parser.add_mutually_exclusive_group()
    kind.add_argument("--maps", action="store_true", help="map all touched pages before the run")
    kind.add_argument(
        "--touch", action="store_true", help="map each page just before its first touch"
    )
    kind.add_argument(
        "--syscalls", action="store_true", help="the program's own changes of its address space"
    )
    kind.add_argument("--huge", choices=HUGE, help="pages of 2 MiB in whole blocks of such memory")
    kind.add_argument(
        "--stages", choices=ORDERS, help="a guest over a host with pages of this size"
    )
    parser.add_argument(
        "--order", choices=ORDERS, default="4k", help="the size of pages (default: 4k)"
    )
    parser.add_argument(
        "--gcache",
        metavar="WIDTH",
        type=int,
        choices=WIDTHS,
        default=0,
        help="with --stages: a width of the G cache (default: 0)",
    )
    parser.add_argument(
        "--turns",
        metavar="RECORDS",
        type=positive,
        help="spaces 0 and 1 have the same pages and run by turns of so many records; after each turn of"
        " space 0 its first page of code gets its permission anew",
    )


def run(words: argparse.Namespace) -> int:
    """Writes the script."""
    _at_odds(words)
    text = _everything(words) if words.trace is None or words.huge == "all" else _of_trace(words)
    with files.written(words.output) as output:
        output.write(text.encode())
    return 0


def _at_odds(words: argparse.Namespace) -> None:
    """Raises a fault where words don't go together."""
    wanting = next(
        (name for name in ("maps", "touch", "syscalls", "stages", "turns") if getattr(words, name)),
        None,
    )
    wanting = f"huge {words.huge}" if words.huge in ("anon", "files") else wanting
    if words.trace is None and wanting:
        raise Fault(f"--{wanting} wants a TRACE", Status.USAGE)
    if words.order != "4k" and (words.syscalls or words.huge):
        raise Fault(f"--order {words.order} goes with neither --syscalls nor --huge", Status.USAGE)
    if words.gcache and not words.stages:
        raise Fault("--gcache goes with --stages", Status.USAGE)
    if words.turns and (words.touch or words.syscalls or words.huge or words.stages):
        raise Fault("--turns goes with --maps or with areas on demand alone", Status.USAGE)


def _everything(words: argparse.Namespace) -> str:
    """The script of one line."""
    from xlab import scripts
    from xlab.touches import Order

    return scripts.everything(0, Order.LARGE if words.huge else Order(words.order)) + "\n"


def _of_trace(words: argparse.Namespace) -> str:
    """The script that a trace says."""
    from xlab import scripts
    from xlab.lackey import Other
    from xlab.sieve import Sieve

    by_calls = bool(words.syscalls or words.huge)
    sieve = Sieve(syscalls=by_calls)
    with files.unpacked(words.trace, salvage=True) as trace:
        events = sieve.events(files.watched(files.pieces(trace)))
        lines = list(_history(words, events) if by_calls else _touched(words, events))
    if not sieve.records:
        raise Fault(f"{words.trace} has no record in it")
    if by_calls and not sieve.others[Other.SYSCALL]:
        raise Fault(
            f"{words.trace} has no lines of system calls: `xlab trace --syscalls` keeps them"
        )
    return scripts.whole(lines, ADVICE)


def _history(words: argparse.Namespace, events: Iterable[Block | bytes]) -> Iterable[str]:
    """The lines by the program's system calls."""
    from xlab.history import History, huge

    if words.huge:
        return huge(events, words.huge == "files")
    history = History()
    history.read(events)
    return history.lines()


def _touched(words: argparse.Namespace, events: Iterable[Block | bytes]) -> Iterable[str]:
    """The lines by what the trace touches."""
    from xlab.lackey import Block
    from xlab.scripts import Touched
    from xlab.touches import Order

    touched = Touched.of(
        (event for event in events if isinstance(event, Block)), Order(words.order)
    )
    spaces = 2 if words.turns else 1
    if words.stages:
        yield from touched.staged(Order(words.stages), words.gcache)
        yield "run rest"
        return
    yield touched.head(spaces)
    if words.touch:
        yield from touched.by_touch()
    else:
        yield from touched.mapped(spaces) if words.maps else touched.on_demand(spaces)
    if words.turns:
        yield from touched.turns(words.turns)
    yield "run rest"
