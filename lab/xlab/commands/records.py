"""`xlab records`: the whole records of a trace, and of other tools' traces."""

import argparse

from xlab import files
from xlab.counting import number, positive
from xlab.helppage import Example
from xlab.messages import note
from xlab.needs import Needs

SUMMARY = "keep a trace's whole records, of a window; take other tools' traces"
DESCRIPTION = """
Writes the whole records of a trace in Lackey's form, as xlate reads them, and drops all else: the
program's own output, lines of system calls, Valgrind's words, a line that was cut off at the end.
What it kept and dropped is counted on standard error. It stops before 2^34 bytes, of which xlate
reads no more.

TRACE may be packed by gzip or zstd, whatever its name, or be - for standard input. A written file
whose name ends in .gz or .zst is packed.

A window is counted by records or by instructions: an instruction is its fetch and the data accesses
that follow it.

--from takes the log of QEMU's plugin execlog, what `drrun -t drmemtrace -tool view` (drmemtrace)
prints, or the file of Pin's pinatrace. execlog says no size of a data access: it is taken from
RISC-V's mnemonics, and is 1 byte else. pinatrace has no fetches.
"""
EXAMPLES = (
    Example(
        "xlab records my.trace.zst | xlate --config rows.toml --script any.script --trace /dev/stdin",
        "a trace of which not each line is a record",
    ),
    Example(
        "xlab records --skip 120M --keep 66M -o part.trace.zst my.trace.zst",
        "66 million records from the 120 millionth on",
    ),
    Example(
        "xlab records --by instructions --keep 10M my.trace > first.trace",
        "the first ten million instructions",
    ),
    Example(
        "xlab records --only data my.trace > data.trace",
        "loads, stores and modifies, for a TLB of data alone",
    ),
    Example(
        "xlab records --from execlog -o sort.trace.zst execlog.txt",
        "what QEMU logged of a RISC-V program",
    ),
)
NEEDS = Needs(modules=("numpy",))
WRITES_TRACE = True
FORMS = ("lackey", "execlog", "drmemtrace", "pinatrace")


def add_parser(parser: argparse.ArgumentParser) -> None:
    """Adds its words."""
    parser.add_argument(
        "trace",
        metavar="TRACE",
        nargs="?",
        default="-",
        help="the trace, or - for standard input (default)",
    )
    parser.add_argument(
        "-o",
        "--output",
        metavar="FILE",
        default="-",
        help="the file to write; standard output else",
    )
    parser.add_argument(
        "--from",
        dest="form",
        choices=FORMS,
        default="lackey",
        help="the form of TRACE (default: lackey)",
    )
    parser.add_argument(
        "--skip",
        metavar="N",
        type=number,
        default=0,
        help="pass over so many first; k, M and G may follow",
    )
    parser.add_argument("--keep", metavar="N", type=positive, help="keep at most so many")
    parser.add_argument(
        "--by",
        choices=("records", "instructions"),
        default="records",
        help="what N counts (default: records)",
    )
    parser.add_argument(
        "--only",
        choices=("all", "fetches", "data"),
        default="all",
        help="which records (default: all)",
    )
    parser.add_argument(
        "--syscalls",
        action="store_true",
        help="keep lines of system calls, as comments, for `xlab script --syscalls`",
    )


def run(words: argparse.Namespace) -> int:
    """Writes the records, and says what was kept."""
    from xlab import converters
    from xlab.sieve import Only, Sieve, Unit

    sieve = Sieve(words.skip, words.keep, Unit(words.by), Only(words.only), words.syscalls)
    with files.unpacked(words.trace, salvage=True) as trace, files.written(words.output) as output:
        pieces = files.watched(files.pieces(trace))
        converter = converters.CONVERTERS.get(words.form)
        converted = converter(pieces) if converter else pieces
        for text in sieve.texts(converted):
            output.write(text)
    for line in sieve.said():
        note(line)
    return 0
