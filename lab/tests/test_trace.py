"""`xlab trace`: a program under Valgrind's Lackey."""

import shutil
import subprocess

import pytest

from xlab.messages import Status

pytest.importorskip("numpy")
needs_valgrind = pytest.mark.skipif(
    not shutil.which("valgrind"), reason="valgrind is not installed"
)


@needs_valgrind
def test_a_window_straight_into_xlate(xlab, program, tmp_path):
    ended = xlab("trace", "--keep", "2000", "true")
    assert ended.returncode == 0 and ended.stderr.startswith("xlab: 2,000 records, ")
    assert len(ended.stdout.splitlines()) == 2000
    xlab("script", "-o", "any.script")
    row = (
        'name = "a"\nmode = "sv39"\nframes = 4096\nspaces = 1\ntable = "radix"\ntable_frames = 64\n'
    )
    (tmp_path / "row.toml").write_text(f"[[row]]\n{row}")
    words = ["--config", "row.toml", "--script", "any.script", "--trace", "/dev/stdin"]
    said = subprocess.run(
        [program, *words], cwd=tmp_path, input=ended.stdout, capture_output=True, text=True
    ).stdout
    assert " ok=2" in said and " refused=0,0,0,0,0,0,0,0,0 " in said


@needs_valgrind
def test_a_second_run_has_the_same_addresses(xlab):
    first, second = (
        xlab("trace", "--keep", "3000", "true", PWD=name).stdout for name in ("/tmp", "/usr/share")
    )
    assert first == second


@needs_valgrind
def test_a_file_a_process_with_system_calls(xlab, tmp_path):
    ended = xlab(
        "trace",
        "--children",
        "--syscalls",
        "--keep",
        "900",
        "-o",
        "my.%p.trace",
        "sh",
        "-c",
        "/bin/true; exit 3",
    )
    assert ended.returncode == 0 and "sh ended with status 3" in ended.stderr
    assert " of /bin/true" in ended.stderr
    files = sorted(tmp_path.glob("my.*.trace"))
    assert len(files) == 2 and len(list(tmp_path.iterdir())) == 2
    for file in files:
        lines = file.read_text().splitlines()
        assert sum(not line.startswith("#") for line in lines) == 900


@needs_valgrind
def test_a_program_that_is_not_there(xlab):
    ended = xlab("trace", "no-such-program")
    assert ended.returncode == Status.NO_INPUT and "no such program" in ended.stderr
    assert ended.stdout == ended.stderr


@needs_valgrind
def test_a_trace_that_fails_leaves_no_rows(xlab, program, tmp_path):
    row = 'name = "a"\nmode = "sv39"\nframes = 1\nspaces = 1\ntable = "radix"\ntable_frames = 1\n'
    (tmp_path / "row.toml").write_text(f"[[row]]\n{row}")
    (tmp_path / "any.script").write_text("run 1\n")
    words = ["--config", "row.toml", "--script", "any.script", "--trace", "/dev/stdin"]
    text = xlab("trace", "no-such-program").stdout
    ended = subprocess.run(
        [program, *words], cwd=tmp_path, input=text, capture_output=True, text=True
    )
    assert ended.returncode == 4 and ended.stdout == ""
    assert "trace line 1" in ended.stderr


def test_a_file_that_fails_is_not_said_twice(xlab, tmp_path):
    ended = xlab("records", "-o", "my.trace", "no-such.trace")
    assert ended.returncode == Status.NO_INPUT and ended.stdout == ""
    ended = xlab("records", "no-such.trace")
    assert ended.returncode == Status.NO_INPUT and ended.stdout == ended.stderr


@pytest.mark.parametrize(
    "words", [["--children", "true"], ["--children", "-o", "x", "true"], ["--env", "A", "true"], []]
)
def test_words_at_odds(words, xlab):
    assert xlab("trace", *words).returncode == Status.USAGE


def test_valgrind_is_named_where_it_is_missing(xlab, tmp_path):
    ended = xlab("trace", "true", PATH=str(tmp_path))
    assert (
        ended.returncode == Status.MISSING
        and "apt-get install" in ended.stderr
        and "valgrind" in ended.stderr
    )
