"""`xlab mix`: several traces by turns."""

import argparse
import contextlib
import pathlib

from xlab import files
from xlab.counting import counted, positive
from xlab.helppage import Example
from xlab.messages import Fault, Status, note
from xlab.needs import Needs

SUMMARY = "mix several traces by turns, each in a space of its own, with ASIDs or with fences"
DESCRIPTION = """
Writes one trace of several, by turns of so many records each, and the script that goes along with
it: each trace has a space of its own, so that its entries in a TLB have an ASID of their own and
stay there at a switch. With --fences each switch removes all entries, as on a machine without
ASIDs.

A trace's pages are mapped on demand, or, of TRACE=SCRIPT, by a script of space 0 that was made for
it.

The rows that run it want spaces = N, the number of traces.
"""
EXAMPLES = (
    Example(
        "xlab mix --turn 100k --trace both.trace.zst --script both.script sqlite.trace.zst cc1.trace.zst",
        "two programs, 100,000 records each at a time",
    ),
    Example(
        "xlab mix --turn 100k --fences --trace both.trace.zst --script fences.script sqlite.trace.zst cc1.trace.zst",
        "the same without ASIDs",
    ),
    Example(
        "xlab mix --turn 10k --trace both.trace --script both.script a.trace=a.script b.trace=b.script",
        "with each program's real history (`xlab script --syscalls`)",
    ),
)
NEEDS = Needs(modules=("numpy",))


def add_parser(parser: argparse.ArgumentParser) -> None:
    """Adds its words."""
    parser.add_argument(
        "--turn",
        metavar="N",
        type=positive,
        required=True,
        help="records of a turn; k and M may follow",
    )
    parser.add_argument("--fences", action="store_true", help="remove all entries at each switch")
    parser.add_argument("--trace", metavar="FILE", required=True, help="the trace to write")
    parser.add_argument("--script", metavar="FILE", required=True, help="the script to write")
    parser.add_argument(
        "traces", metavar="TRACE[=SCRIPT]", nargs="+", help="the traces, plain or packed"
    )


def run(words: argparse.Namespace) -> int:
    """Writes trace and script."""
    from xlab import scripts
    from xlab.mixing import MOST_SPACES, Mix, Records, everywhere
    from xlab.sieve import Sieve

    pairs = [tuple(word.split("=", 1)) for word in words.traces]
    if not 2 <= len(pairs) <= MOST_SPACES:
        raise Fault(f"2 to {MOST_SPACES} traces can be mixed", Status.USAGE)
    mapped = [
        pathlib.Path(pair[1]).read_text().splitlines() if len(pair) == 2 else everywhere()
        for pair in pairs
    ]
    with contextlib.ExitStack() as opened:
        traces = [opened.enter_context(files.unpacked(pair[0], salvage=True)) for pair in pairs]
        records = [Records(Sieve().blocks(files.pieces(trace))) for trace in traces]
        mix = Mix(records, mapped, words.turn, words.fences)
        with files.written(words.script) as script, files.written(words.trace) as trace:
            for text in mix.texts():
                trace.write(text)
            advice = f"turns of more than {words.turn} records make it shorter"
            script.write(scripts.whole(mix.lines, advice).encode())
    note(
        f"{' and '.join(counted(count, 'record') for count in mix.records)} in turns of {words.turn:,}: "
        f"rows want spaces = {len(pairs)}"
    )
    return 0
