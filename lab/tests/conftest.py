"""What the tests share: `xlab` run in this process, the program, and the small traces of the
repository."""

import io
import os
import pathlib
import sys
from collections.abc import Callable
from dataclasses import dataclass

import pytest

TOP = pathlib.Path(__file__).resolve().parents[2]
EXAMPLES = TOP / "examples"
sys.path.insert(0, str(TOP / "lab"))

from xlab import cli, needs  # noqa: E402  (found by the line above)


@dataclass
class Ended:
    """How `xlab` ended, and what it wrote."""

    returncode: int
    stdout: str
    stderr: str


Xlab = Callable[..., Ended]


@pytest.fixture
def xlab(
    tmp_path: pathlib.Path, monkeypatch: pytest.MonkeyPatch, capfd: pytest.CaptureFixture[str]
) -> Xlab:
    """Runs `xlab` on words, in this process and in a folder of the test's own; `stdin` is a
    text, if anything."""

    def run(*words: object, stdin: str = "", **environment: str) -> Ended:
        monkeypatch.chdir(tmp_path)
        for name, value in ({needs.AGAIN: sys.executable} | environment).items():
            monkeypatch.setenv(name, value)
        file = io.BufferedReader(io.BytesIO(stdin.encode()))  # type: ignore[arg-type]
        monkeypatch.setattr(sys, "stdin", io.TextIOWrapper(file))
        capfd.readouterr()
        try:
            status = cli.main([str(word) for word in words])
        except SystemExit as ended:  # of argparse, at --help and at bad words
            status = int(ended.code or 0)
        return Ended(status, *capfd.readouterr())

    return run


@pytest.fixture
def program(monkeypatch: pytest.MonkeyPatch) -> str:
    """The program `xlate`, where it is built; a test that wants it is skipped else. XLATE names
    it for `xlab` too."""
    named = os.environ.get("XLATE", str(TOP / "out" / "xlate"))
    if not os.access(named, os.X_OK):
        pytest.skip("the program xlate is not built, and XLATE names none")
    monkeypatch.setenv("XLATE", named)
    return named
