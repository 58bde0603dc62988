"""`xlab man`: the man pages, from the parser's own help."""

import argparse
import os
import pathlib
import shlex
import subprocess
import sys
import tempfile

from xlab import cli, program
from xlab.helppage import Example
from xlab.messages import Fault, Status, each
from xlab.needs import Needs

SUMMARY = "make the man pages xlab.1, xlab-trace.1 and so on"
DESCRIPTION = """
Makes a man page of xlab and one of each subcommand from their own --help, by help2man, and writes
them into a folder.
"""
EXAMPLES = (
    Example(
        "xlab man ~/.local/share/man/man1",
        "man xlab-trace then shows what xlab trace --help says, and more",
    ),
)
NEEDS = Needs(programs=("help2man",))
# help2man names a page by the program that it runs, and knows a synopsis by its capital letter
WRAPPER = """#!/bin/sh
{python} -m xlab {subcommand} "$@" | sed '1s/^usage:/Usage:/'
"""


def add_parser(parser: argparse.ArgumentParser) -> None:
    """Its word is the folder."""
    parser.add_argument(
        "folder", metavar="FOLDER", type=pathlib.Path, help="where to write the pages; it is made"
    )


def run(words: argparse.Namespace) -> int:
    """Writes the pages, and says how many."""
    words.folder.mkdir(parents=True, exist_ok=True)
    summaries = {"": "work around the program xlate"}
    summaries |= {name: module.SUMMARY for name, module in cli.subcommands().items()}
    for name, summary in each(summaries.items(), len(summaries), " pages"):
        page(name, summary, words.folder)
    print(f"{len(summaries)} pages in {words.folder}")
    return 0


def page(subcommand: str, summary: str, folder: pathlib.Path) -> None:
    """Makes the page of a subcommand, or of all where it is empty."""
    name = f"xlab-{subcommand}" if subcommand else "xlab"
    environment = os.environ | {"PYTHONPATH": _paths(), "COLUMNS": "1000"}
    with tempfile.TemporaryDirectory() as made:
        wrapper = pathlib.Path(made) / name
        wrapper.write_text(
            WRAPPER.format(python=shlex.quote(sys.executable), subcommand=subcommand)
        )
        wrapper.chmod(0o755)
        said = [
            "--no-info",
            "--version-string= ",
            f"--name={summary}",
            f"--output={folder / name}.1",
            str(wrapper),
        ]
        ended = subprocess.run(["help2man", *said], env=environment, capture_output=True, text=True)
    if ended.returncode != 0:
        raise Fault(f"help2man: {ended.stderr.strip()}", Status.RUN)


def _paths() -> str:
    """Where Python finds the package, and all that it found before."""
    return os.pathsep.join([str(program.LAB), *filter(None, [os.environ.get("PYTHONPATH")])])
