"""`xlab pages`: the figures of Markdown pages are what the commands beside them print."""

import argparse
import difflib
import os
import pathlib
import re
import shlex
import subprocess
from concurrent.futures import ThreadPoolExecutor
from dataclasses import dataclass

from xlab import files, needs, program
from xlab.helppage import Example
from xlab.messages import Fault, Status, each, note
from xlab.needs import Needs

SUMMARY = "check that the figures of Markdown pages are what their commands print, or write them anew"
DESCRIPTION = """
A page has a figure's command in a comment before it, and the figure up to the next comment <!-- end -->:

  <!-- figures: ./xlate --config a.toml --script a.script --trace a.trace --json | ./xlab table - -->

The commands are run at the top of the repository, and what they print must be what stands there: without --write a page
is only compared. A comment <!-- picture: COMMAND --> names the command that draws a picture: with --write it is run too.
"""
EXAMPLES = (
    Example("xlab pages examples/compare/*.md", "says where a page has other figures than its commands print"),
    Example("xlab pages --write study.md", "writes figures and pictures anew"),
)
NEEDS = Needs()
FIGURES = re.compile(r"(<!-- figures: (.*?) -->\n)(.*?)(<!-- end -->)", re.S)
PICTURE = re.compile(r"<!-- picture: (.*?) -->", re.S)


@dataclass(frozen=True)
class Page:
    """A page as it is, and as its commands make it."""

    file: pathlib.Path
    text: str
    made: str


def add_parser(parser: argparse.ArgumentParser) -> None:
    """Its words."""
    parser.add_argument("pages", nargs="+", metavar="PAGE", help="a Markdown file")
    parser.add_argument(
        "--write", action="store_true", help="writes figures and pictures into the pages and their folders"
    )


def run(words: argparse.Namespace) -> int:
    """Compares the pages, or writes them."""
    other = 0
    with ThreadPoolExecutor(os.cpu_count()) as workers:
        read_all = workers.map(lambda name: read(pathlib.Path(name), words.write), words.pages)
        pages = list(each(read_all, len(words.pages), " pages"))
    for name, page in zip(words.pages, pages):
        if page.text == page.made:
            continue
        if words.write:
            with files.written(name) as file:
                file.write(page.made.encode())
            note(f"{name}: written anew")
        else:
            other += 1
            lines = page.text.splitlines(), page.made.splitlines()
            print("\n".join(difflib.unified_diff(*lines, name, "its commands", n=0, lineterm="")))
    if other:
        note(
            f"{other} of {len(words.pages)} pages have other figures than their commands print; --write writes them anew"
        )
    return Status.DATA if other else Status.OK


def read(file: pathlib.Path, draws: bool) -> Page:
    """A page with what its commands print; its pictures are drawn too where that is asked for."""
    text = file.read_text()
    if not FIGURES.search(text) and not PICTURE.search(text):
        raise Fault(f"{file} has no comment <!-- figures: COMMAND --> or <!-- picture: COMMAND -->")
    made = FIGURES.sub(lambda it: f"{it[1]}\n{output(it[2]).strip()}\n\n{it[4]}", text)
    for command in PICTURE.findall(text) if draws else ():
        output(command)
    return Page(file, text, made)


def output(command: str) -> str:
    """What a command prints that is run at the top of the repository; a pipe fails where a part of it does."""
    plain = " ".join(command.split())
    own = plain.replace("./xlate ", f"{shlex.quote(program.xlate())} ")  # XLATE may name another program
    asked = ["bash", "-o", "pipefail", "-c", own]
    # an xlab in the command finds a Python of its own
    told = {name: value for name, value in os.environ.items() if name != needs.AGAIN}
    ended = subprocess.run(asked, cwd=program.TOP, stdin=subprocess.DEVNULL, capture_output=True, text=True, env=told)
    if ended.returncode != 0:
        raise Fault(f"{plain}: status {ended.returncode}: {ended.stderr.strip()[-400:]}", Status.RUN)
    return ended.stdout
