"""The rows that a table, a picture or a report is made of, and the words that say how they are reckoned."""

import argparse
import fnmatch

from xlab import measures, rowfiles
from xlab.measures import FirstTouches, Sample
from xlab.messages import Fault, Status


def add_words(parser: argparse.ArgumentParser) -> None:
    """The files, and the words that say how their figures are reckoned."""
    parser.add_argument("files", nargs="+", metavar="[LABEL=]FILE", help="rows as JSON; - is standard input")
    parser.add_argument(
        "--config",
        action="append",
        default=[],
        metavar="FILE",
        help="the rows' configuration, which says the level of each array; else it is read off the counts",
    )
    parser.add_argument(
        "--trace", action="append", default=[], metavar="[LABEL=]FILE", help="counts the trace's instructions"
    )
    parser.add_argument(
        "--instructions",
        action="append",
        default=[],
        metavar="[LABEL=]N",
        help="the number of instructions; with --minus, of the part that is left",
    )
    parser.add_argument(
        "--minus",
        action="append",
        default=[],
        metavar="[LABEL=]FILE",
        help="rows of the front of the same trace, which are taken off: the warm-up",
    )
    parser.add_argument(
        "--first-touches",
        type=FirstTouches,
        choices=tuple(FirstTouches),
        default=FirstTouches.COUNTED,
        metavar="HOW",
        help="counted (as xlate does), once, or out",
    )
    parser.add_argument("--rows", metavar="PATTERN", default="*", help="only rows with such names, as 'radix*'")  # fmt: skip


def gathered(words: argparse.Namespace) -> list[Sample]:
    """The rows of all files, with levels and instructions."""
    levels = {name: found for file in words.config for name, found in rowfiles.levels(file).items()}
    samples = []
    for trace, rows in rowfiles.by_trace(words.files).items():
        warm = rowfiles.of_label(words.minus, trace)
        count = instructions(words, trace)
        for row in rowfiles.without(rows, rowfiles.read(warm), warm) if warm else rows:
            own = tuple(levels.get(row["name"]) or measures.guessed_levels(row))
            if len(own) != len(row["tlb"]):
                raise Fault(f"row {row['name']} has {len(row['tlb'])} arrays, and in the configuration {len(own)}")
            samples.append(Sample(trace, row, own, row.get("instructions", count), words.first_touches))
    return samples


def instructions(words: argparse.Namespace, trace: str) -> int | None:
    """The instructions of a trace, as the words say."""
    told = rowfiles.of_label(words.instructions, trace)
    if told is not None and not (told.isdigit() and int(told) > 0):
        raise Fault(f"--instructions {told}: a number is wanted", Status.USAGE)
    file = rowfiles.of_label(words.trace, trace)
    if told is None and file is not None and rowfiles.of_label(words.minus, trace):
        raise Fault(
            "with --minus, --instructions N says how many are left; --trace counts the whole trace", Status.USAGE
        )
    return int(told) if told is not None else rowfiles.instructions(file) if file is not None else None


def kept(samples: list[Sample], pattern: str) -> list[Sample]:
    """Those whose names fit a pattern."""
    found = [it for it in samples if fnmatch.fnmatch(it.row["name"], pattern)]
    if not found:
        raise Fault(f"--rows {pattern}: no row has such a name", Status.USAGE)
    return found
