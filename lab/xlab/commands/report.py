"""`xlab report`: one page of a study, with all in it."""

import argparse
import base64
import pathlib
import shlex
import sys
from dataclasses import dataclass
from typing import Any

from xlab import measures, rowfiles, sampled
from xlab.commands import plot
from xlab.helppage import Example
from xlab.measures import Columns, FirstTouches, Sample, Value
from xlab.messages import Fault, Status
from xlab.needs import Needs
from xlab.pictures import style, swept
from xlab.reporting import origins

SUMMARY = "one HTML page of a study: question, rows, pictures, and where each figure comes from"
DESCRIPTION = """
Writes one HTML file that needs no other: the question, pictures as SVG, a table whose columns sort, the designs, and the
origin of all figures: SHA-256 of program, configurations, scripts, traces and rows, the program's commit and kit, and
whether it is proved. Rows of xlab sweep know their origins; of other rows --config, --script and --trace name them.

A picture is --plot KIND or KIND=COLUMNS, as xlab plot has them (rows, sweep, map). Without --plot a sweep has its lines,
or its map where lines would be too many, and other rows their marks.
"""
EXAMPLES = (
    Example("xlab report study/rows.json --title 'A second-level TLB' --question 'Do 1,536 entries pay?' --output study.html",
            "of a sweep"),
    Example("xlab report rows.json --config my.toml --script my.script --trace my.trace --output my.html", "of one run"),
)  # fmt: skip
NEEDS = Needs(modules=("jinja2", "matplotlib"))
MOST_MARKED = 40  # rows that a picture of marks is drawn of where none is asked for
PROOF = {"proved": "proved: what it prints is what the written definitions give", "unproved": "not proved"}
HOW = {
    FirstTouches.COUNTED: "Counts are those of xlate: a page mapped on demand is missed twice at its first touch.",
    FirstTouches.ONCE: "A page's first touch counts once.",
    FirstTouches.OUT: "Misses of first touches, which no TLB can avoid, are left out.",
}


@dataclass(frozen=True)
class Picture:
    """A picture as SVG in base64, and what it shows."""

    data: str
    caption: str


@dataclass
class Head:
    """A heading, what it means, and whether its column has texts."""

    name: str
    note: str
    text: bool = False


@dataclass(frozen=True)
class Cell:
    """A value of the table: what it sorts by, and what is shown."""

    value: str
    shown: str
    is_text: bool


def add_parser(parser: argparse.ArgumentParser) -> None:
    """Its words."""
    sampled.add_words(parser)
    parser.add_argument("--script", action="append", default=[], metavar="[LABEL=]FILE", help="named as an origin")
    parser.add_argument("--title", default="A study of address translation", help="the page's heading")
    parser.add_argument("--question", default="", help="paragraphs, or @FILE; an empty line parts them")
    parser.add_argument("--columns", metavar="NAMES", help="as those of `xlab table`")
    parser.add_argument("--base", metavar="ROW", help="the row against which changes are reckoned")
    parser.add_argument(
        "--plot", action="append", default=[], metavar="KIND[=COLUMNS]", help="a picture: rows, sweep or map"
    )
    parser.add_argument("--x", metavar="KEY", help="the key along the axis of a sweep's pictures")
    parser.add_argument("-o", "--output", dest="out", required=True, metavar="FILE", help="the page")


def run(words: argparse.Namespace) -> int:
    """Writes the page."""
    samples = sampled.kept(sampled.gathered(words), words.rows)
    rowfiles.write(page(words, samples), words.out)
    return Status.OK


def page(words: argparse.Namespace, samples: list[Sample]) -> str:
    """The text of the page."""
    import jinja2

    found, proof = origins.gathered(words.files, words.config, words.script, words.trace)
    heads, rows = table(words, samples)
    text = pathlib.Path(origins.__file__).with_name("study.html.j2").read_text()
    return jinja2.Environment(autoescape=True, undefined=jinja2.StrictUndefined).from_string(text).render(
        title=words.title, question=question(words.question), rows=rows, heads=heads, pictures=pictures(words, samples),
        reckoned=HOW[words.first_touches], source=", ".join(words.files), designs=designs(words), origins=found, proof=PROOF.get(proof, "one of which nothing says whether it is proved"),
        command=shlex.join(["xlab", *sys.argv[1:]]),
    )  # fmt: skip


def question(text: str) -> list[str]:
    """The paragraphs of the question."""
    whole = pathlib.Path(text[1:]).read_text() if text.startswith("@") else text
    return [part.strip() for part in whole.split("\n\n") if part.strip()]


def table(words: argparse.Namespace, samples: list[Sample]) -> tuple[list[Head], list[list[Cell]]]:
    """The headings and cells: trace, row, what a sweep set, and the columns."""
    names = words.columns.split(",") if words.columns else measures.usual(samples, words.base)
    bases = {it.trace: it for it in samples if it.row["name"] == words.base}
    columns = Columns(measures.checked(names, samples, words.base), words.base, bases)
    shown = [name for name in columns.names if any(columns.cell(name, it) is not None for it in samples)]
    front = ["trace", "name", *measures.set_keys(samples)]
    rows = [[cell(it.trace), *(cell(it.row.get(key)) for key in front[1:]), *(cell(columns.cell(name, it)) for name in shown)]
            for it in samples]  # fmt: skip
    heads = [Head("row" if key == "name" else key, "") for key in front]
    heads += [
        Head(measures.heading(name, words.base), measures.spoken(name.removesuffix(measures.AGAINST))) for name in shown
    ]
    for at, head in enumerate(heads):
        head.text = all(row[at].is_text or not row[at].value for row in rows)
    return heads, rows


def cell(value: Value | list[Any]) -> Cell:
    """A cell of a value."""
    if isinstance(value, list):
        return Cell(str(value), str(value), True)
    return Cell("" if value is None else str(value), measures.shown(value), isinstance(value, str))


def pictures(words: argparse.Namespace, samples: list[Sample]) -> list[Picture]:
    """The pictures that are asked for, or the usual ones."""
    return [picture(words, samples, *asked.partition("=")[::2]) for asked in words.plot or usual(samples)]


def usual(samples: list[Sample]) -> list[str]:
    """The kinds of picture that suit the rows."""
    known = measures.set_keys(samples)
    if known:
        axis = swept.axis_of(samples, None)
        lines = {swept.line_of(it, axis, known) for it in samples}
        return ["sweep" if len(lines) <= swept.MOST_LINES else "map"]
    return ["rows"] if len({it.row["name"] for it in samples}) <= MOST_MARKED else []


def picture(words: argparse.Namespace, samples: list[Sample], kind: str, names: str) -> Picture:
    """One picture with its caption."""
    if kind not in ("rows", "sweep", "map"):
        raise Fault(f"--plot {kind}: rows, sweep or map is wanted", Status.USAGE)
    columns = measures.checked(names.split(","), samples, None) if names else plot.usual(kind, samples)
    drawn = plot.figure(kind, samples, columns, words.x)
    shown = caption(kind, samples, columns, words.x)
    return Picture(
        base64.b64encode(style.text_of(drawn, ".svg")).decode(),
        f"{shown[:1].upper()}{shown[1:]}. {HOW[words.first_touches]}",
    )


def caption(kind: str, samples: list[Sample], columns: list[str], x: str | None) -> str:
    """What a picture shows, in words."""
    if kind != "rows":
        return f"{measures.spoken(columns[0])}, by {swept.axis_of(samples, x)}, of each design and trace"
    return f"{'; '.join(measures.spoken(name) for name in columns)}, of each row"


def designs(words: argparse.Namespace) -> list[dict[str, str]]:
    """The configurations, to be read in the page itself: those named, or a sweep's template."""
    sweep = origins.of_sweep(words.files)
    found = [*words.config, *([sweep["template"]] if sweep else [])]
    return [{"file": file, "text": pathlib.Path(file).read_text()} for file in found if pathlib.Path(file).is_file()]
