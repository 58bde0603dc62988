"""`xlab trace`: a program's trace, by Valgrind's Lackey."""

from __future__ import annotations

import argparse
import pathlib
import re
import sys
import tempfile
from typing import TYPE_CHECKING

from xlab import files
from xlab.counting import counted, number, positive
from xlab.helppage import Example
from xlab.messages import Fault, Status, note
from xlab.needs import Needs

if TYPE_CHECKING:
    from xlab.sieve import Sieve
    from xlab.valgrind import Traced

SUMMARY = "trace a program by Valgrind's Lackey, into a file or straight into xlate"
DESCRIPTION = """
Runs a program under Valgrind's tool Lackey and writes its records: to standard output, so that they
may go straight into xlate with no file at all, or into a file, packed where its name ends in .zst
or .gz. The number of records and instructions is said on standard error.

The environment is fixed: PATH=/usr/bin:/bin and what --env says, and no more, so that a second run
has the same addresses. Standard input is the program's. What it writes goes to standard error,
through a pipe, as a program may do other things on a terminal.

Without --children the program alone is traced. With it a file is written for each process, with the
process's number in the place of %p in its name; their whole text lies in the same folder until the
program has ended, some 14 bytes a record. Of a process that begins another program (exec) the last
one's records are kept.

Lackey writes about a million records a second, so a program runs some hundred times slower than by
itself. Where --keep has enough, the program is stopped. Ctrl-C is the program's: what was traced
before it is kept.

Where a trace on standard output fails, its last line is the message, which is no record: so xlate
ends with status 4, and not with rows of zeros.
"""
EXAMPLES = (
    Example(
        "xlab trace ls /usr/lib | xlate --config rows.toml --script any.script --trace /dev/stdin",
        "the rows of a real program, with no file at all",
    ),
    Example("xlab trace -o sort.trace.zst sort -R /usr/share/dict/words", "a packed file"),
    Example(
        "xlab trace --syscalls -o ls.trace.zst ls /usr/lib",
        "with system calls as comments, for `xlab script --syscalls`",
    ),
    Example(
        "xlab trace --children -o cc.%p.trace.zst gcc -c my.c",
        "a file for the driver, the compiler, the assembler",
    ),
    Example(
        "xlab trace --skip 120M --keep 66M -o python.trace.zst python3 my.py",
        "66 million records from the 120 millionth on",
    ),
)
NEEDS = Needs(modules=("numpy",), programs=("valgrind",))
WRITES_TRACE = True


def add_parser(parser: argparse.ArgumentParser) -> None:
    """Adds its words; those behind PROGRAM are the program's."""
    parser.add_argument(
        "-o",
        "--output",
        metavar="FILE",
        default="-",
        help="the file to write, %%p in its name is the process's number; standard output else",
    )
    parser.add_argument(
        "--children", action="store_true", help="trace the processes that it makes, a file each"
    )
    parser.add_argument(
        "--syscalls", action="store_true", help="keep its system calls, as comments"
    )
    parser.add_argument(
        "--env",
        metavar="NAME=VALUE",
        action="append",
        default=[],
        type=_variable,
        help="a variable of its environment; more than one may be given",
    )
    parser.add_argument(
        "--skip",
        metavar="N",
        type=number,
        default=0,
        help="pass over so many first; k, M and G may follow",
    )
    parser.add_argument(
        "--keep", metavar="N", type=positive, help="keep at most so many, and stop the program then"
    )
    parser.add_argument(
        "--by",
        choices=("records", "instructions"),
        default="records",
        help="what N counts (default: records)",
    )
    parser.add_argument("program", metavar="PROGRAM", help="the program")
    parser.add_argument("words", metavar="...", nargs=argparse.REMAINDER, help="its words")


def _variable(text: str) -> tuple[str, str]:
    name, equals, value = text.partition("=")
    if not name or not equals:
        raise argparse.ArgumentTypeError(f"{text} is not NAME=VALUE")
    return name, value


def run(words: argparse.Namespace) -> int:
    """Runs the program, and writes its records."""
    from xlab.valgrind import Traced

    if words.output == "-" and sys.stdout.isatty():
        raise Fault(
            "standard output is a terminal: name a file by -o, or let it go into a pipe",
            Status.USAGE,
        )
    if words.children and "%p" not in words.output:
        raise Fault("--children wants a name with %p, such as -o my.%p.trace.zst", Status.USAGE)
    traced = Traced([words.program, *words.words], dict(words.env), words.syscalls)
    if words.children:
        _each_process(words, traced)
    else:
        _itself(words, traced)
    if traced.status and not traced.stopped:
        ended = (
            f"by signal {-traced.status}" if traced.status < 0 else f"with status {traced.status}"
        )
        note(f"{words.program} ended {ended}")
    return Status.INTERRUPTED if traced.interrupted else Status.OK


def _sieve(words: argparse.Namespace) -> Sieve:
    from xlab.sieve import Sieve, Unit

    return Sieve(words.skip, words.keep, Unit(words.by), syscalls=words.syscalls)


def _itself(words: argparse.Namespace, traced: Traced) -> None:
    """Writes the program's own records while it runs."""
    sieve = _sieve(words)
    with traced.pieces() as pieces:
        name = words.output.replace("%p", str(traced.number))
        with files.written(name) as output:
            for text in sieve.texts(files.watched(pieces)):
                output.write(text)
    if not sieve.records:
        raise Fault(f"{words.program} left no records", Status.RUN)
    _said(name, sieve)


def _each_process(words: argparse.Namespace, traced: Traced) -> None:
    """Writes a file for each process, once all have ended."""
    beside = pathlib.Path(words.output).parent
    with tempfile.TemporaryDirectory(prefix="xlab-trace-", dir=beside) as folder:
        for log in traced.logs(pathlib.Path(folder)):
            name, sieve = words.output.replace("%p", log.name), _sieve(words)
            with log.open("rb") as file, files.written(name) as output:
                for text in sieve.texts(files.watched(files.pieces(file), log.name)):
                    output.write(text)
            _said(name, sieve, _command(log))
            log.unlink()


def _command(log: pathlib.Path) -> str:
    """The command line of a process, as Valgrind writes it into the head of its log."""
    with log.open("rb") as file:
        found = re.search(rb"^==\d+== Command: (.*)$", file.read(4096), re.M)
    return f" of {found[1].decode(errors='replace')}" if found else ""


def _said(name: str, sieve: Sieve, of: str = "") -> None:
    place = "" if name == "-" else f"{name}: "
    note(
        f"{place}{counted(sieve.records, 'record')}, {counted(sieve.instructions, 'instruction')}{of}"
    )
    if sieve.full:
        note(f"it stopped before {sieve.most} bytes, of which xlate reads no more")
