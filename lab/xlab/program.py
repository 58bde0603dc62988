"""The program `xlate`: where it is, and its rows for a configuration, a script and a trace."""

import json
import os
import pathlib
import shutil
import subprocess
from typing import IO, Any

from xlab.messages import Fault, Status

LAB = pathlib.Path(__file__).resolve().parent.parent
TOP = LAB.parent  # the repository, or a copy of its layout where it is installed
Row = dict[str, Any]  # an object of `--json`: counts by their names, `name` and `pasum` texts


def xlate() -> str:
    """The program's path: that of XLATE, the launcher `xlate` beside `xlab`, or `xlate` in PATH."""
    named = os.environ.get("XLATE")
    if named:
        return shutil.which(named) or _not_there(f"XLATE names {named}, which is no program")
    beside = TOP / "xlate"
    if os.access(beside, os.X_OK):
        return str(beside)
    return shutil.which("xlate") or _not_there(
        "the program xlate is neither beside xlab nor in PATH"
    )


def binary() -> pathlib.Path:
    """The program's own file: that of XLATE, or the one that the launcher serves, which may not
    be built yet."""
    found = pathlib.Path(xlate())
    return TOP / "out" / "xlate" if found == TOP / "xlate" else found.resolve()


def _not_there(why: str) -> str:
    raise Fault(f"{why}; XLATE=PATH names it", Status.MISSING)


def rows(
    config: str, script: str | None, trace: str | None, stdin: IO[bytes] | None = None
) -> list[Row]:
    """The rows that `xlate --json` prints. Raises a fault with its message where it ends with
    another status than 0."""
    words = [xlate(), "--config", config, "--json"]
    for name, file in (("--script", script), ("--trace", trace)):
        words += [] if file is None else [name, file]
    ended = subprocess.run(words, stdin=stdin, capture_output=True)
    if ended.returncode != 0:
        said = (
            ended.stderr.decode(errors="replace").strip()
            or f"xlate ended with status {ended.returncode}"
        )
        raise Fault(f"{said} (`xlab explain {' '.join(words[1:])}` says more)", Status.RUN)
    found: list[Row] = json.loads(ended.stdout)
    return found
