"""The parts of an explanation: places, lines of files, nearest names."""

import difflib
import enum
import pathlib
import re
from collections.abc import Iterable

from xlab import formats

SHOWN = 120  # characters of a line that are shown
MAGIC = {
    b"\x1f\x8b": "gzip -dc",
    b"\x28\xb5\x2f\xfd": "zstd -dc",
    b"\xfd7zXZ": "xz -dc",
    b"BZh": "bzip2 -dc",
}
RECORD = re.compile(rb"\s*[ILSM]\s+[0-9a-fA-F]{1,16},\d")


class Content(enum.Enum):
    """What a file looks like, by its first bytes and its first line."""

    CONFIGURATION = "a configuration"
    SCRIPT = "a mapping script"
    TRACE = "a trace"
    OTHER = "something else"


def nearest(word: object, known: Iterable[object], count: int = 1) -> str:
    """` (meant A or B?)` for those of the known words that are near; nothing where none is."""
    names = {str(it).lower(): str(it) for it in known}
    near = difflib.get_close_matches(str(word).lower(), list(names), count, 0.6)
    return f" (meant {formats.listed(tuple(names[it] for it in near))}?)" if near else ""


def nearest_number(value: float, known: Iterable[object]) -> str:
    """` (the nearest: 16 or 32)` for a number that is none of the known ones."""
    numbers = sorted(it for it in known if isinstance(it, int))
    around = [
        max((n for n in numbers if n <= value), default=None),
        min((n for n in numbers if n > value), default=None),
    ]
    return f" (the nearest: {formats.listed(tuple(n for n in around if n is not None))})"


def lines_of(file: str) -> list[str]:
    """The lines of a text file, as far as they can be read."""
    return pathlib.Path(file).read_text(encoding="utf-8", errors="replace").split("\n")


def line_of(file: str, number: int) -> str | None:
    """The line of this number, cut to what is shown; none where the file can't be read again."""
    if not pathlib.Path(file).is_file():
        return None
    with open(file, "rb") as lines:
        for at, line in enumerate(lines, 1):
            if at == number:
                return shown(line.decode("latin1"))
    return None


def shown(line: str) -> str:
    """A line as it is shown: without its end, unprintable characters replaced, cut where it is long."""
    clean = "".join(it if it.isprintable() or it == "\t" else "\N{REPLACEMENT CHARACTER}" for it in line.rstrip("\r\n"))
    return clean if len(clean) <= SHOWN else clean[:SHOWN] + " .."


def unpacker(file: str) -> str | None:
    """The command that unpacks a compressed file; none where it is not compressed, or can't be read again."""
    if not pathlib.Path(file).is_file():
        return None
    with open(file, "rb") as opened:
        head = opened.read(6)
    return next((command for magic, command in MAGIC.items() if head.startswith(magic)), None)


def content(file: str) -> Content:
    """What a file looks like."""
    if not pathlib.Path(file).is_file():
        return Content.OTHER
    with open(file, "rb") as opened:
        lines = [line.strip() for line in opened.read(4096).splitlines()]
    first = next((line for line in lines if line and not line.startswith((b"#", b"=="))), b"")
    if RECORD.match(first):
        return Content.TRACE
    verbs = {form.split()[0] for forms in formats.SCRIPTS.values() for form in forms}
    if first.split(b" ")[0].decode("latin1") in verbs:
        return Content.SCRIPT
    return Content.CONFIGURATION if re.match(rb"\[\[?\w+\]|\w+\s*=", first) else Content.OTHER


def exchanged(file: str, wanted: Content) -> list[str]:
    """A line that says so where a file looks like one of the two others."""
    found = content(file)
    if found in (wanted, Content.OTHER):
        return []
    return [f"{file} looks like {found.value}, and {wanted.value} is wanted: are two files exchanged?"]
