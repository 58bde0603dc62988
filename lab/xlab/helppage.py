"""The parts of a help page, from which the man pages are made too."""

import textwrap
from dataclasses import dataclass


@dataclass(frozen=True)
class Example:
    """A command line, and what it gives."""

    line: str
    gives: str


def paragraphs(text: str) -> str:
    """The paragraphs of a text, each filled to the width of a help page; those that are indented
    are left alone."""
    parts = textwrap.dedent(text).strip("\n").split("\n\n")
    return "\n\n".join(part if part.startswith(" ") else textwrap.fill(part, 78) for part in parts)


def shown(examples: tuple[Example, ...]) -> str:
    """The examples, as they stand at the end of a help page."""
    return "examples:\n" + "\n".join(f"  {it.line}\n      {it.gives}" for it in examples)
