"""`xlab plot`: pictures of rows, sweeps and curves."""

import argparse
from typing import Any

from xlab import measures, sampled
from xlab.helppage import Example
from xlab.measures import Sample
from xlab.messages import Fault, Status
from xlab.needs import Needs
from xlab.pictures import curves, rows, style, swept

SUMMARY = "pictures of rows, sweeps and curves: misses and reads, on one scale"
DESCRIPTION = """
Draws rows that xlate printed with --json or that xlab sweep gathered, or reports of `xlate nested` and `xlate harts`, each
trace in a panel of its own, all panels on one scale. What differs by more than a factor of eight has a log axis, which its
label says; colours go from dark to light, and marks and dashes differ, so that a picture can be printed in grey.

  rows    a mark for each row and column: misses of each level, or --columns of one unit
  sweep   a line for each design over the values of a key (--x KEY) of xlab sweep
  map     a cell for each design of a sweep; one colour scale for all traces
  curve   what xlate curve printed: misses by width, 1 to 64, per 1,000 lookups, or instructions with --trace
"""
EXAMPLES = (
    Example("xlab plot rows tlbs.json --output tlbs.png", "misses of each level per 1,000 accesses"),
    Example(
        "xlab plot sweep study/rows.json --x tlb.2.sets --columns mpki --output study.svg", "a line for each design"
    ),
    Example(
        "xlab plot rows hash=a.json sort=b.json --columns reads-access --output reads.pdf", "two traces, one scale"
    ),
    Example("xlab plot curve curves --trace my.trace --output curves.png", "misses of 64 widths per 1,000 instructions"),
)
NEEDS = Needs(modules=("matplotlib",))


def add_parser(parser: argparse.ArgumentParser) -> None:
    """Its words."""
    parser.add_argument("kind", choices=("rows", "sweep", "map", "curve"))
    sampled.add_words(parser)
    parser.add_argument("--columns", metavar="NAMES", help="as those of `xlab table`; a sweep and a map have one")
    parser.add_argument("--x", metavar="KEY", help="the key along the axis; by default the one with most values")
    parser.add_argument("--title", default="", help="above a picture of one trace")
    parser.add_argument(
        "-o",
        "--output",
        dest="out",
        required=True,
        metavar="FILE",
        help="its ending chooses the form: .png, .svg or .pdf",
    )


def run(words: argparse.Namespace) -> int:
    """Draws the picture."""
    if words.kind == "curve":
        style.write(curves.drawn(curved(words), words.title), words.out)
        return Status.OK
    samples = sampled.kept(sampled.gathered(words), words.rows)
    names = measures.checked(words.columns.split(","), samples, None) if words.columns else usual(words.kind, samples)
    style.write(figure(words.kind, samples, names, words.x, words.title), words.out)
    return Status.OK


def curved(words: argparse.Namespace) -> list[curves.Drawn]:
    """The curves, with the instructions of their traces where all are known."""
    found = curves.read(words.files)
    counts = {trace: sampled.instructions(words, trace) for trace in found}
    known = all(counts.values())
    return [curves.Drawn(trace, it, counts[trace] if known else None) for trace, own in found.items() for it in own]


def figure(kind: str, samples: list[Sample], names: list[str], x: str | None, title: str = "") -> Any:
    """The picture of a kind."""
    if kind == "rows":
        return rows.drawn(samples, names, title)
    return swept.lines(samples, names[0], x, title) if kind == "sweep" else swept.heat(samples, names[0], x)


def usual(kind: str, samples: list[Sample]) -> list[str]:
    """The columns that are drawn where none are named: misses where there are TLBs, reads else."""
    if measures.of_curves(samples):
        raise Fault("curves are drawn by `xlab plot curve`", Status.USAGE)
    unit = "mpki" if all(it.instructions is not None for it in samples) else "mpka"
    most = max((level for it in samples for level in it.levels), default=0)
    if kind != "rows":
        return [unit if most else "reads-access"]
    return [*(f"l{level}-{unit}" for level in range(1, most)), unit] if most else ["reads-access"]
