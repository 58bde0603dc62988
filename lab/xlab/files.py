"""Files that may be compressed: opened by their first bytes, and written whole or not at all."""

import contextlib
import os
import pathlib
import shutil
import subprocess
import sys
import threading
from collections.abc import Iterable, Iterator
from typing import IO, BinaryIO

from xlab.messages import Fault, Status, bar, note

# a compressed file's first bytes, and the program that unpacks and packs it
PACKERS = {b"\x1f\x8b": "gzip", b"\x28\xb5\x2f\xfd": "zstd"}
SUFFIXES = {".gz": "gzip", ".zst": "zstd"}
STANDARD = "-"  # names standard input or output


@contextlib.contextmanager
def unpacked(name: str, salvage: bool = False) -> Iterator[BinaryIO]:
    """The bytes of a file, or of standard input where the name is `-`, unpacked where its first
    bytes say gzip or zstd. Where what is packed is cut off or broken this is a fault once it is
    read so far, or with `salvage` a note."""
    with sys.stdin.buffer if name == STANDARD else open(name, "rb") as file:
        head = file.peek(4)[:4]  # type: ignore[attr-defined]
        packer = next((packer for magic, packer in PACKERS.items() if head.startswith(magic)), None)
        if packer is None:
            yield file
        else:
            with _through([_there(packer), "-dc"], file, name, salvage) as pipe:
                yield pipe


@contextlib.contextmanager
def _through(words: list[str], file: BinaryIO, name: str, salvage: bool) -> Iterator[BinaryIO]:
    """What a program writes that is given a file on its standard input."""
    direct = file.seekable()
    if direct:
        os.lseek(file.fileno(), 0, os.SEEK_SET)  # what was looked at is unread for the program
    with subprocess.Popen(
        words,
        stdin=file if direct else subprocess.PIPE,
        stdout=subprocess.PIPE,
        stderr=subprocess.PIPE,
    ) as run:
        assert run.stdout and run.stderr
        if not direct:
            threading.Thread(target=_fed, args=(file, run.stdin), daemon=True).start()
        yield run.stdout  # type: ignore[misc]
        if run.stdout.read(1):  # the reader has enough
            run.terminate()
            return
        said = run.stderr.read().decode(errors="replace").strip()
    if run.returncode != 0:
        why = said.splitlines()[-1] if said else f"status {run.returncode}"
        message = f"{name}: {words[0]} can't unpack all of it: {why}"
        if not salvage:
            raise Fault(message)
        note(f"{message}; it is read so far")


def _fed(file: BinaryIO, pipe: IO[bytes]) -> None:
    """Gives a pipe all that is in a file, as far as anyone reads it."""
    with contextlib.suppress(BrokenPipeError), pipe:
        shutil.copyfileobj(file, pipe)


@contextlib.contextmanager
def written(name: str) -> Iterator[BinaryIO]:
    """A file to write, or standard output where the name is `-`; packed where it ends in .gz or
    .zst. What was there under its name stays until all is written, and where something fails."""
    if name == STANDARD:
        yield sys.stdout.buffer
        sys.stdout.buffer.flush()
        return
    final, packer = pathlib.Path(name), SUFFIXES.get(pathlib.Path(name).suffix)
    if final.exists() and not final.is_file():
        # a pipe or a device has no other name to be written under
        with _made(final, name) as device:
            yield device
        return
    part = final.with_name(f"{final.name}.{os.getpid()}.part")
    try:
        with _made(part, name) as file:
            if packer is None:
                yield file
            else:
                with _packed([_there(packer), "-qc"], file) as pipe:
                    yield pipe
        part.replace(final)
    finally:
        part.unlink(missing_ok=True)


def _made(path: pathlib.Path, name: str) -> BinaryIO:
    """The file at a path, to be written; the message has the name that was asked for."""
    try:
        return open(path, "wb")
    except OSError as fault:
        raise Fault(f"{name}: {fault.strerror}", Status.NO_OUTPUT) from fault


@contextlib.contextmanager
def _packed(words: list[str], file: BinaryIO) -> Iterator[BinaryIO]:
    """The standard input of a program that writes into a file."""
    # in a group of its own, so that Ctrl-C ends what is packed and not the packer
    with subprocess.Popen(words, stdin=subprocess.PIPE, stdout=file, process_group=0) as run:
        assert run.stdin
        yield run.stdin  # type: ignore[misc]
        run.stdin.close()
    if run.returncode != 0:
        raise Fault(f"{words[0]} ended with status {run.returncode}", Status.RUN)


def _there(packer: str) -> str:
    """The program's name, where it is installed."""
    if shutil.which(packer) is None:
        raise Fault(f"{packer} is not installed: apt-get install {packer}", Status.MISSING)
    return packer


def pieces(file: BinaryIO, size: int = 1 << 21) -> Iterator[bytes]:
    """The bytes of a file in pieces of about `size` bytes, each of whole lines; the last may
    have an unended one. Raises a fault where a line has more than 64 MiB."""
    rest = b""
    while piece := file.read(size):
        cut = piece.rfind(b"\n") + 1
        if cut:
            yield rest + piece[:cut]
            rest = piece[cut:]
        else:
            rest += piece
            if len(rest) > 1 << 26:
                raise Fault("a line of more than 64 MiB: this is no text")
    if rest:
        yield rest


def watched(pieces: Iterable[bytes], what: str = "") -> Iterator[bytes]:
    """The pieces, with a bar of the bytes read where a terminal looks on."""
    shown = bar(None, "B", what)
    try:
        for piece in pieces:
            yield piece
            shown.update(len(piece))
    finally:
        shown.close()
