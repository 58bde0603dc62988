"""Files of rows: what `xlate --json` and `xlab sweep` write, by trace; and counts taken from them."""

import json
import pathlib
import sys
import tomllib
from collections.abc import Iterable
from typing import Any

from xlab import files, formrows
from xlab.messages import Fault, Status

Row = dict[str, Any]  # a row's counts by name; of a sweep also `trace`, `config` and the values set


def labelled(word: str) -> tuple[str, str]:
    """The label and the rest of `LABEL=REST`; the label is empty where there is none."""
    label, equals, rest = word.partition("=")
    return (label, rest) if equals else ("", word)


def read(file: str) -> list[Row]:
    """The rows of a file, or of standard input where it is `-`: JSON, one array or a value for each line; or a report of
    the forms `nested`, `harts` and `curve`."""
    text = sys.stdin.read() if file == files.STANDARD else pathlib.Path(file).read_text()
    report = formrows.read(text)
    if report is not None:
        return [report | {"form": report["name"]}]
    curves = formrows.of_curves(text)
    if curves:
        return curves
    try:
        values = [json.loads(line) for line in text.splitlines() if line.strip()]
    except ValueError:
        values = _whole(file, text)
    rows = [row for value in values for row in (value if isinstance(value, list) else [value])]
    if not rows:
        raise Fault(f"{file} has no rows; `xlate .. --json > {file}` writes them")
    for row in rows:
        if not isinstance(row, dict) or not {"name", "accesses", "tlb"} <= row.keys():
            raise Fault(f"{file} holds something else than rows of --json: {str(row)[:60]}")
    return rows


def _whole(file: str, text: str) -> list[Any]:
    """The value of a text of many lines."""
    try:
        return [json.loads(text)]
    except ValueError as fault:
        hint = "; rows as text? xlate writes JSON where --json is among its words" if " accesses=" in text else ""
        raise Fault(f"{file} is no JSON: {fault}{hint}") from fault


def by_trace(words: Iterable[str]) -> dict[str, list[Row]]:
    """The rows of all files by trace: that of a row itself, the label of its file, or the file's name without ending. A
    report of `nested` or `harts` has one row, whose name is the label."""
    found: dict[str, list[Row]] = {}
    for word in words:
        label, file = labelled(word)
        for row in read(file):
            form = row.pop("form", None)
            if form is not None:
                found.setdefault(form, []).append(row | {"name": label or form})
                continue
            found.setdefault(label or row.get("trace") or pathlib.Path(file).stem, []).append(row)
    return found


def of_label(values: Iterable[str], label: str) -> str | None:
    """Of words `[LABEL=]REST` that of this label, or the one without a label."""
    found = dict(labelled(value) for value in values)
    return found.get(label, found.get(""))


def minus(row: Row, earlier: Row) -> Row:
    """The counts of a row less those of the same row on the front of the same trace."""

    def less(name: str, value: Any, before: Any) -> Any:
        if isinstance(value, list):
            return [less(name, *both) for both in zip(value, before, strict=True)]
        if isinstance(value, int) and value < before:
            raise Fault(f"row {row['name']} has fewer {name} than before: the other file is not of the trace's front")
        return value - before if isinstance(value, int) else value

    counts = {name: less(name, value, earlier[name]) for name, value in row.items() if name in earlier}
    left = (int(row["pasum"], 16) - int(earlier["pasum"], 16)) % 2**64
    return row | counts | {"pasum": f"{left:016x}"}


def without(rows: list[Row], earlier: list[Row], file: str) -> list[Row]:
    """All rows less those of the same names."""
    before = {row["name"]: row for row in earlier}
    for row in rows:
        if row["name"] not in before:
            raise Fault(f"{file} has no row {row['name']}")
    return [minus(row, before[row["name"]]) for row in rows]


def instructions(trace: str) -> int:
    """The number of instructions of a trace: its `I` records."""
    count, ended = 0, True
    with files.unpacked(trace) as file:
        for piece in files.pieces(file):
            count += piece.count(b"\nI") + (ended and piece.startswith(b"I"))
            ended = piece.endswith(b"\n")
    return count


def levels(config: str) -> dict[str, list[int]]:
    """For each row of a configuration the level of each of its TLB arrays."""
    try:
        rows = tomllib.loads(pathlib.Path(config).read_text())["row"]
        return {row["name"]: [array["level"] for array in row.get("tlb", [])] for row in rows}
    except (ValueError, KeyError, TypeError) as fault:
        raise Fault(f"{config} is no configuration: `xlab explain --config {config}` says why") from fault


def write(text: str, out: str | None) -> None:
    """A text to a file, whole or not at all, or to standard output."""
    if out is None:
        print(text)
        return
    try:
        with files.written(out) as file:
            file.write((text + "\n").encode())
    except PermissionError as fault:
        raise Fault(f"{out}: {fault.strerror}", Status.NO_OUTPUT) from fault
