"""Programs run under Valgrind's tool Lackey, in a fixed environment: their traces as they come,
or a log a process."""

import contextlib
import os
import pathlib
import select
import shutil
import signal
import subprocess
import sys
from collections.abc import Iterator
from dataclasses import dataclass, field

from xlab.messages import Fault, Status

PATH = "/usr/bin:/bin"
PIECE = 1 << 19  # bytes that are handed on at a time
WAITED = 0.2  # seconds between two looks at whether the program has ended


@dataclass
class Traced:
    """A program to trace: its command line, and the environment that it has beside PATH."""

    command: list[str]
    environment: dict[str, str] = field(default_factory=dict)
    syscalls: bool = False
    number: int = 0  # of its process, once it runs
    interrupted: bool = False
    status: int | None = None  # of the program, once it has ended; a signal's number is negative
    stopped: bool = False  # by us, as enough was read

    @contextlib.contextmanager
    def pieces(self) -> Iterator[Iterator[bytes]]:
        """Its own trace in pieces of whole lines, while it runs; processes that it makes are not
        traced. The program is stopped where no more is read."""
        reader, writer = os.pipe()
        with self._run([f"--log-fd={writer}", "--child-silent-after-fork=yes"], (writer,)) as run:
            os.close(writer)
            try:
                yield self._pieces(reader, run)
            finally:
                os.close(reader)
                self._stop(run)

    def logs(self, folder: pathlib.Path) -> list[pathlib.Path]:
        """Runs it and the processes that it makes; the log of each, named by its number, in the
        order of these."""
        with self._run([f"--log-file={folder}/%p", "--trace-children=yes"], ()) as run:
            while run.poll() is None:
                with contextlib.suppress(subprocess.TimeoutExpired):
                    run.wait(WAITED)
            self._stop(run)
        return sorted(folder.iterdir(), key=lambda file: int(file.name))

    @contextlib.contextmanager
    def _run(self, words: list[str], kept: tuple[int, ...]) -> Iterator[subprocess.Popen[bytes]]:
        """The program under Valgrind. What it writes goes to standard error by a pipe, so that
        it is never a terminal for it; Ctrl-C reaches it alone, and the trace ends with it."""
        called = shutil.which(self.command[0])
        if called is None:
            raise Fault(f"{self.command[0]}: no such program", Status.NO_INPUT)
        tool = ["valgrind", "--tool=lackey", "--trace-mem=yes", *words]
        tool += ["--trace-syscalls=yes"] if self.syscalls else []
        environment = {"PATH": PATH} | self.environment
        before = signal.signal(signal.SIGINT, self._interrupt)
        with subprocess.Popen(
            ["cat"], stdin=subprocess.PIPE, stdout=sys.stderr.fileno(), process_group=0
        ) as shown:
            assert shown.stdin
            with subprocess.Popen(
                [shutil.which("valgrind") or "valgrind", *tool[1:], called, *self.command[1:]],
                stdout=shown.stdin,
                stderr=shown.stdin,
                env=environment,
                pass_fds=kept,
            ) as run:
                shown.stdin.close()
                self.number = run.pid
                try:
                    yield run
                finally:
                    signal.signal(signal.SIGINT, before)
                    if run.poll() is None:
                        run.kill()

    def _interrupt(self, *_: object) -> None:
        """The first Ctrl-C is the program's own; a second ends the wait for it."""
        if self.interrupted:
            raise KeyboardInterrupt
        self.interrupted = True

    def _pieces(self, reader: int, run: subprocess.Popen[bytes]) -> Iterator[bytes]:
        """What comes through a pipe until the program has ended; a process that it left behind
        may hold it open."""
        parts: list[bytes] = []
        length = 0
        while True:
            ended = run.poll() is not None
            ready = select.select([reader], [], [], 0 if ended else WAITED)[0]
            part = os.read(reader, PIECE) if ready else b""
            parts.append(part)
            length += len(part)
            if length >= PIECE:
                text = b"".join(parts)
                cut = text.rfind(b"\n") + 1
                yield text[:cut]
                parts = [text[cut:]]
                length = len(parts[0])
            if ready and not part or ended and not ready:
                break
        if length:
            yield b"".join(parts)

    def _stop(self, run: subprocess.Popen[bytes]) -> None:
        """Ends it where it has not ended by itself, and keeps its status."""
        try:
            self.status = run.wait(WAITED)
        except subprocess.TimeoutExpired:
            self.stopped = True
            run.kill()
            self.status = run.wait()
