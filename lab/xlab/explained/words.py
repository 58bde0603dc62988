"""What is wrong with the words of a run (status 1), and with the files that they name (statuses 5 and 8)."""

import os
import pathlib
import re
from dataclasses import dataclass, field

from xlab.explained.said import nearest

FILES = ("--config", "--script", "--trace")
VALUED = (*FILES, "--make", "--sets")
PAIR = ("--script", "--trace", "--answers")
KNOWN = {
    "plain": (*FILES, "--make", "--answers", "--image", "--json"),
    "curve": ("--sets", *FILES),
    "nested": PAIR,
    "harts": PAIR,
}
NEEDED = {"plain": ("--config FILE",), "curve": ("--sets N", "--config FILE"), "nested": ("--script FILE", "--trace FILE"),
          "harts": ("--script FILE", "--trace FILE")}  # fmt: skip
USED = {
    "plain": "--config FILE [--script FILE] [--trace FILE] [--make N] [--answers] [--image] [--json]",
    "curve": "curve --sets N --config FILE [--script FILE] [--trace FILE]",
    "nested": "nested --script FILE --trace FILE [--answers]",
    "harts": "harts --script FILE --trace FILE [--answers]",
}
MOST = {"--make": 1048576, "--sets": 256}


@dataclass
class Words:
    """The words of a run: its form, the options with their values, and words that belong to none."""

    form: str = "plain"
    options: list[str] = field(default_factory=list)
    values: dict[str, str] = field(default_factory=dict)
    lost: list[str] = field(default_factory=list)  # options that want a value and have none
    loose: list[str] = field(default_factory=list)

    def file(self, name: str) -> str:
        """The file of an option, or an empty text."""
        return self.values.get(f"--{name}", "")


def read(words: list[str]) -> Words:
    """The words as the program reads them."""
    found, rest = Words(), list(words)
    if rest and rest[0] in KNOWN and rest[0] != "plain":
        found.form = rest.pop(0)
    while rest:
        word = rest.pop(0)
        name, equals, value = word.partition("=")
        if not word.startswith("-") or word == "-":
            found.loose.append(word)
            continue
        found.options.append(name)
        if name in VALUED and equals:
            found.values[name] = value
        elif name in VALUED and rest and (rest[0] == "-" or not rest[0].startswith("-")):
            found.values[name] = rest.pop(0)
        elif name in VALUED:
            found.lost.append(name)
        elif name not in KNOWN[found.form] and not equals and rest and not rest[0].startswith("-"):
            rest.pop(0)  # the value of a misspelt word
    return found


def usage(words: Words) -> list[str]:
    """What is wrong with the words, as far as it can be seen."""
    known = KNOWN[words.form]
    own = "xlate" if words.form == "plain" else f"xlate {words.form}"
    said = [f"{it} is no word of {own}{_hint(it, known)}" for it in dict.fromkeys(words.options) if it not in known]
    said += [f"`{it}` belongs to no word{_owner(it)}" for it in words.loose]
    said += [f"{it} is given twice" for it in dict.fromkeys(words.options) if words.options.count(it) > 1]
    said += [f"{it} wants a value behind it" for it in words.lost]
    said += [f"{it} is needed" for it in NEEDED[words.form] if it.split()[0] not in words.options]
    if "--make" in words.options and "--make" in known and {"--script", "--trace"} & set(words.options):
        said.append("--make goes with neither --script nor --trace: it makes both")
    for name, most in MOST.items():
        told = words.values.get(name)
        if name in known and told is not None and not (re.fullmatch(r"[0-9]+", told) and 1 <= int(told) <= most):
            said.append(f"{name} {told}: a number from 1 to {most} is wanted, digits alone")
    return [*said, f"words: {USED[words.form]}; see docs/FORMATS.md"]


def _hint(word: str, known: tuple[str, ...]) -> str:
    if word in ("--help", "-h", "--version"):
        return ": `xlab explain --help`, `xlab version` and docs/FORMATS.md say more"
    if word in ("--csv", "--markdown", "--format"):
        return ": `xlab table` makes CSV and Markdown of what --json prints"
    if word in ("-o", "--out", "--output"):
        return ": the rows go to standard output: > FILE"
    forms = [form for form, own in KNOWN.items() if word in own]
    if forms:
        return ": it is a word of " + " and ".join("xlate" if it == "plain" else f"xlate {it}" for it in forms)
    return nearest(word, known)


def _owner(word: str) -> str:
    if word in KNOWN and word != "plain":
        return f": `{word}` is the first word, or none"
    kinds = {".toml": "--config", ".script": "--script", ".trace": "--trace"}
    kind = kinds.get(pathlib.Path(word).suffix)
    return f" (meant {kind} {word}?)" if kind else ""


def files(words: Words) -> list[str]:
    """Which of the files is not there or can't be read, in the order in which the program opens them."""
    said = []
    for option in FILES:
        file = words.values.get(option)
        why = None if file is None else _unreadable(file)
        said += [f"{option} {file}: {why}"] if why else []
    return said or ["all files that are named are there and can be read now: was one being changed?"]


def _unreadable(file: str) -> str | None:
    if not os.path.exists(file):
        beside = pathlib.Path(file).parent
        near = nearest(pathlib.Path(file).name, (it.name for it in beside.iterdir())) if beside.is_dir() else ""
        return "no such file" + (" (standard input is /dev/stdin)" if file == "-" else near)
    if os.path.isdir(file):
        return "is a folder, and a file is wanted"
    return None if os.access(file, os.R_OK) else "may not be read by this user"
