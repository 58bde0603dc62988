"""Runs of a program of this product under limits, and the configurations that the checks have in common."""

import os
import resource
import subprocess
import sys
import tempfile
from pathlib import Path
from typing import NamedTuple

ALL = ("4k", "2m", "1g")
PATIENCE = int(os.environ.get("PATIENCE", 1))  # how many times as long as else a run may take, on a busy machine
TABLES = {
    "radix": {"table_frames": 64},
    "hashed": {"buckets": 64, "entries": 4096},
    "clustered": {"buckets": 64, "blocks": 256},
    "cuckoo": {"ways": 3, "start_bits": 2, "cap_bits": 8, "threshold": 60, "kick_limit": 8,
               "migrate": 2, "sections_2m": 64, "sections_1g": 16},
    "range": {"ranges": 256},
}
LARGEST_TABLES = {
    "radix": {"table_frames": 16384, "walk_caches": [64, 64]},
    "hashed": {"buckets": 1048576, "entries": 1048576},
    "clustered": {"buckets": 1048576, "blocks": 131072},
    "cuckoo": {"ways": 4, "start_bits": 18, "cap_bits": 18, "threshold": 100, "kick_limit": 64,
               "migrate": 64, "sections_2m": 262144, "sections_1g": 4096, "walk_caches": [64, 64]},
    "range": {"ranges": 65536, "range_tlb": 64},
}


class Done(NamedTuple):
    status: int
    out: bytes
    err: bytes
    seconds: float


def toml_of(value):
    if isinstance(value, str):
        return f'"{value}"'
    if isinstance(value, list):
        return "[" + ", ".join(map(toml_of, value)) + "]"
    if isinstance(value, dict):
        return "{ " + ", ".join(f"{key} = {toml_of(item)}" for key, item in value.items()) + " }"
    return str(value)


def row(name="a", table="radix", **keys):
    """The text of one row; `keys` go over those of the small table of this kind."""
    row = {"name": name, "mode": "sv39", "frames": 4096, "spaces": 1, "table": table}
    row |= TABLES[table] | keys
    return "[[row]]\n" + "".join(f"{key} = {toml_of(value)}\n" for key, value in row.items())


A = row()


def array(level, sets, width, *orders):
    return {"level": level, "sets": sets, "width": width, "orders": list(orders)}


def children_seconds():
    used = resource.getrusage(resource.RUSAGE_CHILDREN)
    return used.ru_utime + used.ru_stime


def run(words, limit=60, **options):
    """Runs a program to its end, or for `limit` seconds times PATIENCE; gives its status, bytes and processor time."""
    options = {"stdout": subprocess.PIPE, "stderr": subprocess.PIPE, "stdin": subprocess.DEVNULL} | options
    before = children_seconds()
    done = subprocess.run(words, timeout=limit * PATIENCE, **options)
    return Done(done.returncode, done.stdout or b"", done.stderr or b"", children_seconds() - before)


class Place:
    """A folder for the files of one check, and the program that is run in it."""

    def __init__(self, program):
        self.program = str(Path(program).resolve())
        self.folder = Path(tempfile.mkdtemp(prefix="xlate-check-"))

    def write(self, name, text):
        path = self.folder / name
        path.write_bytes(text if isinstance(text, bytes) else text.encode())
        return str(path)

    def words(self, config, script=None, trace=None, *more):
        """The words of a run with files of these texts; a text that is None has no file."""
        words = [self.program, "--config", self.write("config", config)]
        for name, text in (("script", script), ("trace", trace)):
            if text is not None:
                words += ["--" + name, self.write(name, text)]
        return words + list(more)

    def form_words(self, form, script, trace, *more):
        """The words of a run of the form `nested` or `harts` with files of these texts."""
        files = ["--script", self.write("script", script), "--trace", self.write("trace", trace)]
        return [self.program, form, *files, *more]

    def curve_words(self, sets, *texts):
        """The words of a run of the form `curve` with files of these texts, as of `words`."""
        program, *words = self.words(*texts)
        return [program, "curve", "--sets", str(sets), *words]


class Tally:
    """What the checks found: how many there were, and which failed."""

    def __init__(self):
        self.checks = 0
        self.faults = []

    def expect(self, name, holds, told=""):
        self.checks += 1
        if not holds:
            self.faults.append(name)
            print(f"FAULT {name}: {told}"[:400], flush=True)

    def ends(self, name, done, status, message="", out=None):
        """The run ended with this status and message, and, where it is told, this output."""
        wanted = (status, f"xlate: {message}\n".encode() if message else b"")
        self.expect(name, (done.status, done.err) == wanted and out in (None, done.out),
                    f"status {done.status}, message {done.err[:200]!r}, output {done.out[:300]!r}; "
                    f"wanted {wanted} {out!r}")

    def finish(self):
        print(f"{self.checks} checks, {len(self.faults)} faults")
        sys.exit(1 if self.faults else 0)
