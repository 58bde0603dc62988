"""`xlab explain`: what a message or a row of `xlate` means."""

import argparse
import subprocess
import sys
import threading
from collections.abc import Iterable

from xlab import formrows, program
from xlab.explained import configuration, curves, rows, script, stages, trace, words
from xlab.helppage import Example
from xlab.needs import Needs

SUMMARY = "run xlate on the words, and say what its message or its rows mean"
DESCRIPTION = """
Runs xlate on the words given, lets its output, its message and its status through, and says on standard error what they
mean: which file, line and key, the line itself, what is allowed there, and the nearest name. Of a run that ends well it
says why commands were refused and which key to raise, that nothing is mapped, or that nothing was read.

The words are xlate's own, all of which docs/FORMATS.md explains:

  --config FILE   the rows (TOML); needed
  --script FILE   mapping commands; without it nothing is mapped
  --trace FILE    the records, as Valgrind's Lackey writes them; /dev/stdin reads a pipe
  --make N        makes both, for N records
  --answers       a line for each access and command
  --image         the words of each radix table
  --json          the rows as JSON

or, after the word curve, --sets N and the three files: hit curves of all widths; or, after the word nested or harts,
--script FILE --trace FILE [--answers]: two stages, or several harts.
"""
EXAMPLES = (
    Example(
        "xlab explain --config my.toml --script my.script --trace my.trace", "the rows, and what they keep silent about"
    ),
    Example("xlab explain curve --sets 16 --config my.toml --script my.script --trace my.trace", "of hit curves"),
    Example("xlab explain nested --script my.script --trace my.trace", "of a guest over a host; or of harts"),
    Example("zstd -dc my.trace.zst | xlab explain --config my.toml --trace /dev/stdin", "of a trace in a pipe"),
)
NEEDS = Needs()
PASSES_ON = True  # words that start with - are xlate's


def add_parser(parser: argparse.ArgumentParser) -> None:
    """All words are those of `xlate`."""
    parser.add_argument("words", nargs=argparse.REMAINDER, metavar="WORDS", help="the words of xlate")


def run(asked: argparse.Namespace) -> int:
    """Runs the program and explains; its status is the program's."""
    running = subprocess.Popen([program.xlate(), *asked.words], stdout=subprocess.PIPE, stderr=subprocess.PIPE)
    assert running.stdout and running.stderr
    heard: list[str] = []
    hears = threading.Thread(target=_heard, args=(running.stderr, heard))
    hears.start()
    counted: list[str] = []
    found = list(_through(running.stdout, counted))
    hears.join()
    message = "".join(heard)
    status = running.wait()
    for line in explanation(status, message, asked.words, found, "\n".join(counted)):
        print(line if line.startswith("    ") else f"explain: {line}", file=sys.stderr)
    return status


def _heard(errors: Iterable[bytes], heard: list[str]) -> None:
    """Hands on what the program says, as it says it: a launcher that builds it first says how far it is."""
    for line in errors:
        heard.append(line.decode(errors="replace"))
        print(heard[-1], end="", file=sys.stderr, flush=True)


def _through(output: Iterable[bytes], counted: list[str]) -> Iterable[rows.Row]:
    """Hands the program's output through, and gives the rows that are in it; lines of counts of other forms are kept."""
    for line in output:
        sys.stdout.buffer.write(line)
        text = line.decode(errors="replace").rstrip("\n")
        counted += [text] if formrows.is_count(text) else []
        yield from rows.read(text)
    sys.stdout.buffer.flush()


def explanation(
    status: int, message: str, given: list[str], found: list[rows.Row], counts: str = ""
) -> list[str]:
    """What is to be said of a run that ended so, with these rows, or lines of counts of another form."""
    read = words.read(given)
    config, mapped, traced = read.file("config"), read.file("script"), read.file("trace")
    report = formrows.read(counts)
    match status:
        case 0 if read.form == "curve":
            return curves.explain(formrows.curves(counts), mapped, traced)
        case 0 if report is not None:
            return stages.explain(report, traced)
        case 0:
            return rows.explain(found, config, mapped, traced, "--make" in read.values)
        case 1:
            return words.usage(read)
        case 2:
            return configuration.explain(config, message)
        case 3:
            return script.explain(mapped, message, "plain" if read.form == "curve" else read.form)
        case 4:
            return trace.explain(traced, message)
        case 5 | 8:
            return words.files(read)
        case 6:
            return ["the rows could not be written to standard output: is the disk full, or the reader of a pipe gone?"]
        case 7:
            return ["there is too little memory for the rows: fewer rows, or smaller `frames`, `entries` and `ranges`"]
        case 9 if not message:
            return ["a word is no text in UTF-8"]
    return []
