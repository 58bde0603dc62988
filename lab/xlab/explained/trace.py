"""What is wrong with a trace (status 4): the line, what may have written it, what helps."""

import pathlib
import re

from xlab.explained.said import Content, exchanged, line_of, unpacker
from xlab.formats import TRACE_REASONS

MESSAGE = re.compile(r"trace line (\d+): reason (\d)")
KEEP = "`xlab records` keeps whole records alone and says what it drops"


def explain(file: str, message: str) -> list[str]:
    """What the message means, for the trace in this file."""
    found = MESSAGE.search(message)
    if found is None:
        return [f"{file}: a trace has at most 2^34 bytes; `xlab records` cuts a window out of it"]
    number, reason = int(found[1]), int(found[2])
    unpack = unpacker(file)
    if unpack:
        return [f"{file} is compressed: {unpack} {file} | ./xlate .. --trace /dev/stdin"]
    line = line_of(file, number)
    said = [f"{file}:{number}: {TRACE_REASONS[reason]}"]
    if line is None:
        return [*said, f"    it can't be read again to show the line; keep what is piped in a file, or: {KEEP}"]
    return [*exchanged(file, Content.TRACE), *said, f"    {line}", f"    {_source(file, number, line)}"]


def _source(file: str, number: int, line: str) -> str:
    """What may have written such a line, and what helps."""
    if "\N{REPLACEMENT CHARACTER}" in line:
        return "this is no text: a compressed file, or another program's own form?"
    if "SYSCALL" in line or re.search(r"\[(sync|async|pre-)", line) or "-->" in line:
        return f"a line of Valgrind's --trace-syscalls; {KEEP}"
    if re.match(r"\s*[ILSM]\s+0[xX]", line):
        return "addresses have no 0x: sed 's/0x//' takes it out"
    if re.match(r"\s*(0x)?[0-9a-f]+: [RW] ", line):
        return "a line of Pin's pinatrace: `xlab records --help` has the converters"
    if _is_cut(file, number):
        return f"the file ends within its last line: it was cut; {KEEP}"
    return f"perhaps the traced program's own output: --log-file=FILE keeps it apart; {KEEP}"


def _is_cut(file: str, number: int) -> bool:
    """Whether a line is the last one, and no newline ends it."""
    raw = pathlib.Path(file)
    with raw.open("rb") as opened:
        opened.seek(max(0, raw.stat().st_size - 1))
        if opened.read(1) in (b"\n", b""):
            return False
    return line_of(file, number + 1) is None
