"""Where figures come from: the program, and the checksums of configurations, scripts, traces and rows."""

import hashlib
import json
import pathlib
from collections.abc import Iterable
from dataclasses import dataclass
from typing import Any

from xlab import files, rowfiles
from xlab.commands import version


@dataclass(frozen=True)
class Origin:
    """Something that figures come from."""

    what: str
    name: str
    checksum: str = ""


def checksum(file: str) -> str:
    """The SHA-256 of a file, as it lies there."""
    with open(file, "rb") as opened:
        return hashlib.file_digest(opened, "sha256").hexdigest()


def named(what: str, words: Iterable[str]) -> list[Origin]:
    """Files of words `[LABEL=]FILE`."""
    found = [rowfiles.labelled(word) for word in words]
    return [Origin(what, f"{label}: {file}" if label else file, checksum(file)) for label, file in found]


def of_program(facts: dict[str, str]) -> list[Origin]:
    """The program and what is known of it."""
    known = [Origin("program", facts.get("program", "unknown"), facts.get("checksum", ""))]
    return known + [
        Origin(name, value) for name, value in facts.items() if name not in ("program", "checksum", "proof")
    ]


def of_sweep(words: Iterable[str]) -> dict[str, Any] | None:
    """What a sweep wrote of itself beside its rows, where the rows are of one."""
    for word in words:
        beside = pathlib.Path(rowfiles.labelled(word)[1]).with_name("provenance.json")
        if beside.is_file():
            known: dict[str, Any] = json.loads(beside.read_text())
            return known
    return None


def gathered(rows: list[str], config: list[str], script: list[str], trace: list[str]) -> tuple[list[Origin], str]:
    """All origins, and whether the program is proved."""
    sweep = of_sweep(rows)
    facts = sweep["program"] if sweep else version.facts()
    found = of_program(facts)
    if sweep:
        found += [Origin("swept", " ".join(f"--set {it}" for it in sweep["set"]))]
        found += [Origin(_kind(file, sweep["template"]), file, digest) for file, digest in sweep["sha256"].items()]
        found += [_trace(rows, label, file) for label, file in sweep["traces"].items()]
    found += named("configuration", config) + named("script", script) + named("trace", trace)
    found += named("rows", [word for word in rows if rowfiles.labelled(word)[1] != files.STANDARD])
    return found, facts.get("proof", "unknown")


def _kind(file: str, template: str) -> str:
    return "template" if file == template else "script" if file.endswith(".script") else "configuration"


def _trace(rows: list[str], label: str, file: str) -> Origin:
    """A trace of a sweep, with the checksum that the sweep took."""
    for word in rows:
        facts = pathlib.Path(rowfiles.labelled(word)[1]).parent / "traces" / f"{label}.json"
        if facts.is_file():
            return Origin("trace", f"{label}: {file}", json.loads(facts.read_text())["sha256"])
    return Origin("trace", f"{label}: {file}")
