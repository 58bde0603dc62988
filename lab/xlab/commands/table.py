"""`xlab table`: rows of `xlate --json` as a table of what an architect asks for."""

import argparse
import json
from typing import Any

from xlab import measures, rowfiles, sampled
from xlab.helppage import Example
from xlab.measures import MEASURES, Columns, FirstTouches, Sample, shown, shown_change
from xlab.messages import Fault, Status, note
from xlab.needs import Needs

SUMMARY = "misses, MPKI, rates and changes of rows, as Markdown, CSV or JSON"
DESCRIPTION = f"""
Makes a table of rows that xlate printed with --json, or that xlab sweep gathered, or of the reports of `xlate nested`
and `xlate harts`, each a row named by its label, or of `xlate curve`, whose columns w1 to w64 are the misses of each
width. Several traces are shown side by side, and of a sweep the values set in front. Misses are those of a level, and
not of its arrays: an array of 2 MiB pages beside one of 4 KiB pages counts a miss wherever the other one hits.

A page that is mapped on demand is missed twice at its first touch, once unmapped and once mapped. --first-touches once
counts it as other simulators do; out leaves these misses out, which no TLB can avoid. Reads are all reads in each case.

Columns (--columns NAME,NAME..; a name with % behind it is the change in per cent against the row of --base; each count
of a row, as fills or kicks, and each value that a sweep set, as tlb.2.sets, is a column too):

{chr(10).join(f"  {it.name:12s} {it.note}" for it in MEASURES.values())}
"""
EXAMPLES = (
    Example("xlab table rows.json --trace my.trace", "Markdown: misses of each level and reads per 1,000 instructions"),
    Example(
        "xlab table sqlite=a.json gcc=b.json --columns walks,walks% --base radix --sort walks",
        "two traces side by side",
    ),
    Example("xlab table whole.json --minus front.json --first-touches out --format csv", "without the warm-up"),
)
NEEDS = Needs(modules=("pandas", "tabulate"))


def add_parser(parser: argparse.ArgumentParser) -> None:
    """Its words."""
    sampled.add_words(parser)
    parser.add_argument("--columns", metavar="NAMES", help="in this order, with commas between")
    parser.add_argument("--base", metavar="ROW", help="the row against which changes are reckoned")
    parser.add_argument("--sort", metavar="COLUMN", help="least first; of several traces, by the first")
    parser.add_argument("--reverse", action="store_true", help="greatest first")
    parser.add_argument("--format", choices=("markdown", "csv", "json"), default="markdown")
    parser.add_argument("-o", "--output", dest="out", metavar="FILE", help="in place of standard output")  # fmt: skip


def run(words: argparse.Namespace) -> int:
    """Prints the table."""
    samples = sampled.gathered(words)
    columns = chosen(words, samples)
    if (
        words.format == "markdown"
        and words.first_touches is FirstTouches.COUNTED
        and any(it.first_touches for it in samples)
    ):
        note("first touches count twice, as xlate counts; --first-touches once or out takes that out")
    rowfiles.write(written(table(words, samples, columns), words.format), words.out)
    return Status.OK


def chosen(words: argparse.Namespace, samples: list[Sample]) -> Columns:
    """The columns, with the base row of each trace."""
    bases = {it.trace: it for it in samples if it.row["name"] == words.base}
    if words.base is not None and not bases:
        names = dict.fromkeys(it.row["name"] for it in samples)
        raise Fault(f"--base {words.base}: no such row; the rows are {', '.join(names)}", Status.USAGE)
    names = words.columns.split(",") if words.columns else measures.usual(samples, words.base)
    return Columns(measures.checked(names, samples, words.base), words.base, bases)


def table(words: argparse.Namespace, samples: list[Sample], columns: Columns) -> Any:
    """A data frame with a line for each row, and the columns of all traces side by side."""
    import pandas

    kept = sampled.kept(samples, words.rows)
    traces = list(dict.fromkeys(it.trace for it in kept))
    swept = [key for key in measures.set_keys(kept) if key not in columns.names]
    lines: dict[str, dict[str, measures.Value]] = {}
    for it in kept:
        cells = columns.cells(it)
        named = cells if len(traces) == 1 else {f"{it.trace} {head}": value for head, value in cells.items()}
        own = {"row": it.row["name"]} | {key: measures.value(key, it) for key in swept}
        lines.setdefault(it.row["name"], own).update(named)
    frame = pandas.DataFrame(_sorted(words, kept, list(lines.values()), columns), dtype=object)
    return frame[["row", *swept, *_heads(traces, columns)]]


def _heads(traces: list[str], columns: Columns) -> list[str]:
    own = [measures.heading(name, columns.base) for name in columns.names]
    return own if len(traces) == 1 else [f"{trace} {head}" for trace in traces for head in own]


def _sorted(words: argparse.Namespace, samples: list[Sample], lines: list[Any], columns: Columns) -> list[Any]:
    """The lines in the order asked for: by a column's values on the first trace that has the row."""
    if words.sort is None:
        return lines[::-1] if words.reverse else lines
    if words.sort == "row":
        return sorted(lines, key=lambda line: line["row"], reverse=words.reverse)
    measures.checked([words.sort], samples, words.base)
    keys: dict[str, Any] = {}
    for it in samples:
        keys.setdefault(it.row["name"], columns.cell(words.sort, it))
    known = [line for line in lines if keys[line["row"]] is not None]
    ordered = sorted(known, key=lambda line: keys[line["row"]], reverse=words.reverse)
    return ordered + [line for line in lines if keys[line["row"]] is None]


def written(frame: Any, form: str) -> str:
    """The text of a data frame."""
    if form == "json":
        return json.dumps(frame.where(frame.notna(), None).to_dict("records"), indent=1)
    if form == "csv":
        return str(frame.to_csv(index=False)).rstrip("\n")
    texts = frame.apply(lambda column: column.map(shown_change if measures.is_change(column.name) else shown))
    texts["row"] = [f"`{name}`" for name in frame["row"]]
    return texts.to_markdown(
        index=False, disable_numparse=True, colalign=("left", *["right"] * (len(frame.columns) - 1))
    )
