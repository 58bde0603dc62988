"""`xlab version`: what a result is to be cited by."""

import argparse
import hashlib
import pathlib
import subprocess
import tomllib

from xlab import program
from xlab.helppage import Example
from xlab.messages import Fault
from xlab.needs import Needs

SUMMARY = "say version, commit, kit, proved or not, and checksum of the program"
DESCRIPTION = """
Says what a reader needs to find the program that made a figure: the version and commit of these
sources, and of the program that is run its file, SHA-256, and what its build wrote of it: version,
commit, kit, and whether it is proved.
"""
EXAMPLES = (Example("xlab version", "a line for each, to be kept beside a result"),)
NEEDS = Needs()
UNKNOWN = "unknown"


def add_parser(parser: argparse.ArgumentParser) -> None:
    """It has no words of its own."""


def run(words: argparse.Namespace) -> int:
    """Prints a line for each thing known."""
    for name, value in facts().items():
        print(f"{name}: {value}")
    return 0


def facts() -> dict[str, str]:
    """What is known of the sources and of the program, by name, in the order in which it is
    said."""
    version = program.TOP / "VERSION"
    found = {
        "xlab version": version.read_text().strip() if version.exists() else UNKNOWN,
        "xlab commit": commit(),
    }
    try:
        file = program.binary()
    except Fault as fault:
        return found | {"program": str(fault)}
    if not file.is_file():
        return found | {"program": f"{file} is not built"}
    checksum = hashlib.sha256(file.read_bytes()).hexdigest()
    return found | {"program": str(file), "checksum": checksum} | built(file, checksum)


def commit() -> str:
    """The commit of the sources, and whether files were changed after it."""
    asked = [
        "git",
        "-C",
        str(program.TOP),
        "describe",
        "--always",
        "--dirty=+changes",
        "--abbrev=40",
        "--exclude=*",
    ]
    try:
        ended = subprocess.run(asked, capture_output=True, text=True)
    except FileNotFoundError:
        return UNKNOWN
    return ended.stdout.strip() if ended.returncode == 0 else UNKNOWN


def built(file: pathlib.Path, checksum: str) -> dict[str, str]:
    """What the build wrote of the program beside it; all unknown where there is none, or it is
    of another program."""
    record = file.with_name(file.name + ".built")
    said = tomllib.loads(record.read_text()) if record.is_file() else {}
    own = said.get("checksum") == checksum
    found = {
        name: str(said.get(name, UNKNOWN)) if own else UNKNOWN
        for name in ("version", "commit", "kit")
    }
    proved = said.get("proved") if own else None
    return found | {"proof": UNKNOWN if proved is None else "proved" if proved else "unproved"}
