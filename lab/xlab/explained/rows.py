"""What the rows of a run that ended well keep silent about: refusals, pages that were not there, nothing read."""

import json
import pathlib
import re
import tomllib
from typing import Any

from xlab import formats

LINE = re.compile(r"([a-z0-9_-]+) (accesses=\d+ .*) tlb=\S+")
Row = dict[str, Any]


def read(line: str) -> list[Row]:
    """The rows of a line of output: one, or those of `--json`; none where it is another line."""
    if line.startswith("[{"):
        listed: list[Row] = json.loads(line)
        return listed
    found = LINE.fullmatch(line)
    if found is None:
        return []
    counts: Row = dict(part.split("=") for part in found[2].split())
    refused = [int(part) for part in counts.pop("refused").split(",")]
    pasum = counts.pop("pasum")
    return [
        {name: int(count) for name, count in counts.items()} | {"name": found[1], "refused": refused, "pasum": pasum}
    ]


def explain(rows: list[Row], config: str, script: str, trace: str, made: bool) -> list[str]:
    """What a user may want to know of these rows."""
    designs, demands = _designs(config), made or _demands(script)
    said = _reading(rows, script, trace) if not made else []
    for row in rows:
        said += _row(row, designs.get(row["name"], {}), demands)
    return said


def _demands(script: str) -> bool:
    """Whether a script has demand lines: then each first touch is unmapped once, and a map is accepted for it."""
    file = pathlib.Path(script)
    return file.is_file() and any(
        line.split()[:1] == ["demand"] for line in file.read_text(errors="replace").splitlines()
    )


def _designs(config: str) -> dict[str, Row]:
    """The rows of the configuration, by name, as far as it can be read again."""
    try:
        found = tomllib.loads(pathlib.Path(config).read_text())["row"]
    except (OSError, ValueError, KeyError):
        return {}
    return {row["name"]: row for row in found}


def _reading(rows: list[Row], script: str, trace: str) -> list[str]:
    """What holds for all rows: nothing was read, or nothing is mapped."""
    if rows and not any(row["accesses"] for row in rows):
        file = f"{trace} holds no record" if trace else "no --trace is named"
        return [f"no row saw an access: {file}"]
    if rows and not any(row["ok"] or row["accepted"] or any(row["refused"]) for row in rows):
        file = f"{script} maps nothing" if script else "without --script nothing is mapped"
        return [f"no access found a page: {file}; a script of this line maps each page when it is first touched:",
                f"    {formats.EVERYTHING}"]  # fmt: skip
    return []


def _row(row: Row, design: Row, demands: bool) -> list[str]:
    name = f"row {row['name']}"
    said = [f"{name}: {count} commands refused, cause {cause}: {formats.CAUSES[cause]}; {_remedy(cause, design)}"
            for cause, count in enumerate(row["refused"], 1) if count]  # fmt: skip
    lost = row["unmapped"] - (row["accepted"] + sum(row["refused"]) if demands else 0)
    if lost > 0 and (row["ok"] or row["accepted"]):
        said.append(f"{name}: {lost} accesses found no page, nor a demand line that covers it")
    if row["denied"]:
        said.append(
            f"{name}: {row['denied']} accesses were denied: their page's PERM does not allow them (rwxu allows all)"
        )
    if row["notcanonical"]:
        mode = design.get("mode", "its mode")
        said.append(
            f"{name}: {row['notcanonical']} addresses are not canonical in {mode}: take a mode with more levels"
        )
    return said


def _remedy(cause: int, design: Row) -> str:
    """What helps against a cause of refusal, in a row of this design."""
    match cause:
        case 1:
            return f"raise {_with_value('spaces', design)}"
        case 7:
            return f"raise {_with_value('frames', design)}"
        case 8:
            keys = formats.ROOM.get(
                str(design.get("table")), tuple(key for keys in formats.ROOM.values() for key in keys)
            )
            return f"raise {formats.listed(tuple(_with_value(key, design) for key in keys))}"
        case 9:
            return f"raise {_with_value('cap_bits', design)} or {_with_value('ways', design)}"
        case _:
            return formats.REMEDIES[cause]


def _with_value(key: str, design: Row) -> str:
    """A key with its value and its limit."""
    most = formats.KEYS[formats.NUMBER_OF[key]].allowed.split()[-1]
    return f"`{key}` ({design[key]}; at most {most})" if key in design else f"`{key}` (at most {most})"
