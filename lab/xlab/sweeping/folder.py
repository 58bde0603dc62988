"""The folder of a sweep: configurations of at most sixteen rows, scripts, runs, rows; and what was left out."""

import csv
import json
import pathlib
import re
import shlex
import subprocess
from collections.abc import Iterable
from dataclasses import dataclass
from typing import Any

from xlab import formats
from xlab.explained import configuration
from xlab.messages import Fault, Status
from xlab.sweeping.designs import Design

Row = dict[str, Any]
LABEL = re.compile(r"[A-Za-z0-9_-]+")
FAULT = re.compile(r"configuration row (\d+) key")


@dataclass(frozen=True)
class Source:
    """A trace with its label and its script."""

    label: str
    trace: pathlib.Path
    script: pathlib.Path


@dataclass(frozen=True)
class Folder:
    """Where a sweep lies."""

    path: pathlib.Path

    @property
    def plan(self) -> pathlib.Path:
        """What the workflow reads: program, traces, scripts and configurations."""
        return self.path / "sweep.json"

    @property
    def rows(self) -> pathlib.Path:
        """All rows, as JSON; beside it as CSV."""
        return self.path / "rows.json"

    @property
    def said(self) -> pathlib.Path:
        """What the workflow's program said."""
        return self.path / "log"

    def config(self, number: int) -> pathlib.Path:
        """A configuration."""
        return self.path / "configs" / f"{number:04}.toml"

    def run(self, source: Source, config: pathlib.Path) -> pathlib.Path:
        """The rows of a configuration on a trace."""
        return self.path / "runs" / f"{source.label}.{config.stem}.json"

    def facts(self, source: Source) -> pathlib.Path:
        """A trace's instructions and checksum."""
        return self.path / "traces" / f"{source.label}.json"


def written(file: pathlib.Path, text: str) -> pathlib.Path:
    """The file, with this text; left alone where it has it, so that what was made of it stays good."""
    file.parent.mkdir(parents=True, exist_ok=True)
    if not file.exists() or file.read_text() != text:
        file.write_text(text)
    return file


def configurations(
    folder: Folder, program: str, found: list[Design], most: int
) -> tuple[list[pathlib.Path], list[str]]:
    """Writes the designs into files of at most `most` rows. A design that the program refuses is left out: what is said
    of it comes beside the files."""
    import tomli_w

    good, left_out = [], []
    for part in _parts(found, formats.MOST_ROWS):
        kept, said = _allowed(folder, program, part)
        good += kept
        left_out += said
    files = []
    for number, part in enumerate(_parts(good, most)):
        files.append(written(folder.config(number), tomli_w.dumps({"row": [it.row for it in part]})))
    for old in set(folder.path.glob("configs/*.toml")) - set(files):
        old.unlink()
    return files, left_out


def _parts(found: list[Design], most: int) -> Iterable[list[Design]]:
    return (found[at : at + most] for at in range(0, len(found), most))


def _allowed(folder: Folder, program: str, part: list[Design]) -> tuple[list[Design], list[str]]:
    """The designs that the program takes, and what is said of the others."""
    import tomli_w

    kept, left_out, trial = list(part), [], folder.path / "trial.toml"
    while kept:
        trial.parent.mkdir(parents=True, exist_ok=True)
        trial.write_text(tomli_w.dumps({"row": [it.row for it in kept]}))
        ended = subprocess.run(
            [program, "--config", str(trial), "--script", "/dev/null"], capture_output=True, text=True
        )
        found = FAULT.search(ended.stderr)
        if ended.returncode != 2 or found is None or found[1] == "0":
            break
        bad = kept.pop(int(found[1]) - 1)
        left_out.append(f"{_set(bad)}: {_why(str(trial), ended.stderr)}")
    trial.unlink(missing_ok=True)
    return kept, left_out


def _set(it: Design) -> str:
    return " ".join([it.template, *(f"{key}={value}" for key, value in it.values.items())])


def _why(file: str, message: str) -> str:
    """The first line of an explanation, without the place in a file that is gone."""
    first = configuration.explain(file, message)[0]
    return re.sub(r"^.*?: row \d+: ", "", first)


def plan(folder: Folder, sources: list[Source], configs: list[pathlib.Path], program: str, checksum: str) -> Row:
    """What the workflow has to do: each configuration on each trace."""
    runs = {}
    for source in sources:
        for config in configs:
            name = folder.run(source, config).stem
            runs[name] = {"config": str(config), "script": str(source.script), "trace": str(source.trace)}
    traces = {source.label: str(source.trace) for source in sources}
    return {"program": program, "checksum": checksum, "traces": traces, "runs": runs}


def command(program: str, config: str, script: str, trace: str, unpack: str | None) -> str:
    """The shell's command for a run."""
    words = [program, "--config", config, "--script", script, "--trace", "/dev/stdin" if unpack else trace, "--json"]
    front = f"set -o pipefail; {unpack} {shlex.quote(trace)} | " if unpack else ""
    return front + shlex.join(words)


def sources(traces: dict[str, str], scripts: dict[str, str], folder: Folder) -> list[Source]:
    """The traces with their scripts; where none is named, with one that maps every page on demand."""
    found = []
    for label, trace in traces.items():
        if not LABEL.fullmatch(label):
            raise Fault(f"--trace {label}: a label has letters, digits, - and _: --trace LABEL=FILE", Status.USAGE)
        script = scripts.get(label, scripts.get(""))
        made = script is None
        file = written(folder.path / "any.script", f"{formats.EVERYTHING}\n") if made else pathlib.Path(script or "")
        for it in (pathlib.Path(trace), file):
            if not it.is_file():
                raise Fault(f"{it}: no such file", Status.NO_INPUT)
        found.append(Source(label, pathlib.Path(trace).resolve(), file.resolve()))
    return found


def gathered(folder: Folder, found: list[Source], configs: list[pathlib.Path], designs: list[Design]) -> list[Row]:
    """The rows of all runs that have ended well, each with its trace and the values that were set."""
    values = {it.row["name"]: {"template": it.template} | it.values for it in designs}
    rows = []
    for source in found:
        facts = folder.facts(source)
        more = {"instructions": json.loads(facts.read_text())["instructions"]} if facts.exists() else {}
        for config in configs:
            file = folder.run(source, config)
            if file.exists():
                own = {"trace": source.label, "config": config.name} | more
                rows += [own | values[row["name"]] | row for row in json.loads(file.read_text())]
    return rows


def kept(folder: Folder, rows: list[Row]) -> None:
    """Writes all rows, as lines of one array of JSON and as CSV."""
    lines = ",\n".join(json.dumps(row) for row in rows)
    written(folder.rows, f"[{lines}]\n")
    heads = list(dict.fromkeys(key for row in rows for key in row))
    with folder.rows.with_suffix(".csv").open("w", newline="") as file:
        writer = csv.DictWriter(file, heads)
        writer.writeheader()
        writer.writerows(rows)
