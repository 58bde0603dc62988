"""`xlab mix`: turns, spaces, fences, scripts that go along."""

import subprocess

import pytest

from xlab.messages import Status

pytest.importorskip("numpy")

A = "I  1000,1\nI  1004,1\nI  1008,1\nI  2000,1\n"
B = " L 5000,1\n L 6000,1\n"


def test_turns_by_hand(xlab, tmp_path):
    (tmp_path / "a").write_text(A)
    (tmp_path / "b").write_text("hello\n" + B)
    (tmp_path / "a.script").write_text(
        "map 0 1000 4k r-xu\nrun 3\nunmap 0 1000 4k # gone\nmap 0 2000 4k r-xu\n"
    )
    ended = xlab(
        "mix",
        "--turn",
        "2",
        "--fences",
        "--trace",
        "out",
        "--script",
        "out.script",
        "a=a.script",
        "b",
    )
    assert (
        ended.returncode == 0
        and "4 records and 2 records" in ended.stderr
        and "spaces = 2" in ended.stderr
    )
    a, b = A.splitlines(), B.splitlines()
    assert (tmp_path / "out").read_text().splitlines() == [*a[:2], *b, *a[2:]]
    assert (tmp_path / "out.script").read_text().splitlines() == [
        "space 0",
        "fence all",
        "map 0 1000 4k r-xu",
        "run 2",
        "space 1",
        "fence all",
        "demand 1 0 17592186044416 4k rwxu",
        "run 2",
        "space 0",
        "fence all",
        "run 1",
        "unmap 0 1000 4k",
        "map 0 2000 4k r-xu",
        "run 1",
    ]


def test_the_program_serves_it(xlab, program, tmp_path):
    (tmp_path / "a").write_text(A)
    (tmp_path / "b").write_text(B)
    xlab("script", "--touch", "-o", "a.script", "a")
    assert (
        xlab(
            "mix", "--turn", "1", "--trace", "out", "--script", "out.script", "a=a.script", "b"
        ).returncode
        == 0
    )
    row = 'name = "a"\nmode = "sv39"\nframes = 64\nspaces = 2\ntable = "radix"\ntable_frames = 64\n'
    (tmp_path / "row.toml").write_text(f"[[row]]\n{row}")
    words = ["--config", "row.toml", "--script", "out.script", "--trace", "out"]
    said = subprocess.run([program, *words], cwd=tmp_path, capture_output=True, text=True).stdout
    assert " ok=6 unmapped=2 denied=0 " in said and " refused=0,0,0,0,0,0,0,0,0 " in said


def test_a_script_of_another_space_is_refused(xlab, tmp_path):
    (tmp_path / "a").write_text(A)
    (tmp_path / "a.script").write_text("map 1 1000 4k r-xu\n")
    ended = xlab(
        "mix", "--turn", "2", "--trace", "out", "--script", "out.script", "a=a.script", "a"
    )
    assert ended.returncode == Status.DATA and "space 0 alone" in ended.stderr
    assert not (tmp_path / "out").exists() and not (tmp_path / "out.script").exists()


def test_one_trace_is_no_mix(xlab, tmp_path):
    (tmp_path / "a").write_text(A)
    ended = xlab("mix", "--turn", "2", "--trace", "out", "--script", "s", "a")
    assert ended.returncode == Status.USAGE
