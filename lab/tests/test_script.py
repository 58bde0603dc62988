"""`xlab script`: one line for all, touched pages, first touches, the real history, pages of 2
MiB, turns."""

import json
import re
import subprocess

import pytest
from conftest import EXAMPLES

from xlab.messages import Fault, Status

pytest.importorskip("numpy")
pytest.importorskip("intervaltree")
from xlab import lackey, scripts, syscalls, touches  # noqa: E402  (they want numpy)

SMALL = EXAMPLES / "small.trace"
ROW = """[[row]]
name = "a"
mode = "sv39"
frames = 65536
spaces = 2
table = "radix"
table_frames = 1024
tlb = [{ level = 1, sets = 16, width = 4, orders = ["4k", "2m"] }]
"""


@pytest.fixture
def row(program, tmp_path):
    """The counts of one row for a script and a trace, by the program itself."""

    def ran(script, trace):
        (tmp_path / "row.toml").write_text(ROW)
        words = ["--config", "row.toml", "--script", script, "--trace", trace, "--json"]
        ended = subprocess.run([program, *words], cwd=tmp_path, capture_output=True, check=True)
        return json.loads(ended.stdout)[0]

    return ran


def test_the_line_that_covers_all(xlab, row):
    ended = xlab("script", "-o", "any.script")
    assert ended.returncode == 0
    counts = row("any.script", SMALL)
    assert counts["ok"] == 12826 and counts["unmapped"] == 64 and sum(counts["refused"]) == 0


def test_any_script_is_kept_beside_the_examples(xlab):
    assert (EXAMPLES / "any.script").read_text() == xlab("script").stdout


def test_touched_pages_by_hand(xlab):
    ended = xlab(
        "script", "-", stdin="I  1000,4\n L 2ffe,4\n S 4000,8\nI  5ffe,4\nhello\n M 10000,1\n"
    )
    assert ended.stdout.splitlines() == [
        "# 7 blocks of 4k in 5 runs: 7 frames are wanted",
        "demand 0 1000 1 4k r-xu",
        "demand 0 2000 2 4k r--u",
        "demand 0 4000 1 4k rw-u",
        "demand 0 5000 2 4k r-xu",
        "demand 0 10000 1 4k rw-u",
        "run rest",
    ]


@pytest.mark.parametrize(
    ("words", "pages"), [(["--maps"], 64), (["--touch"], 64), (["--touch", "--order", "2m"], 2)]
)
def test_nothing_counts_twice(words, pages, xlab, row):
    xlab("script", *words, "-o", "my.script", SMALL)
    counts = row("my.script", SMALL)
    assert counts["accepted"] == pages and counts["unmapped"] == 0 and counts["accesses"] == 12826


def test_first_touches_by_hand(xlab):
    ended = xlab("script", "--touch", "-", stdin="I  1ffe,4\nI  1000,4\n S 2000,8\n L 9000,1\n")
    assert ended.stdout.splitlines()[1:] == [
        "map 0 1000 4k r-xu",
        "map 0 2000 4k rwxu",
        "run 3",
        "map 0 9000 4k r--u",
        "run rest",
    ]


def test_turns(xlab, row):
    xlab("script", "--turns", "400", "-o", "two.script", SMALL)
    counts = row("two.script", SMALL)
    assert counts["ok"] == 12826 and counts["denied"] == 0 and sum(counts["refused"]) == 0


HISTORY = """SYSCALL[7,1](12) sys_brk ( 0x0 ) --> [pre-success] Success(0x5000800)
I  401000,4
 S 402000,8
SYSCALL[7,1](9) sys_mmap ( 0x0, 16384, 3, 34, 4294967295, 0 ) --> [pre-success] Success(0x4800000)
 S 4800000,8
 S 4801000,8
 L 4800ffc,8
SYSCALL[7,1](10) sys_mprotect ( 0x402000, 4096, 1 )[sync] --> Success(0x0)
SYSCALL[7,1](10) sys_mprotect ( 0x4801000, 8192, 0 )[sync] --> Success(0x0)
 L 402000,8
SYSCALL[7,1](25) sys_mremap ( 0x4800000, 16384, 32768, 0x1 ) --> [pre-success] Success(0x4900000)
 L 4900000,8
SYSCALL[7,1](12) sys_brk ( 0x5003000 ) --> [pre-success] Success(0x5003000)
 S 5001000,8
 S 5000400,8
SYSCALL[7,1](12) sys_brk ( 0x5001000 ) --> [pre-success] Success(0x5001000)
SYSCALL[7,1](28) sys_madvise ( 0x4900000, 4096, 4 ) --> [async] ...
SYSCALL[7,1](28) ... [async] --> Success(0x0)
 L 4900000,8
SYSCALL[7,1](11) sys_munmap ( 0x4900000, 32768 )[sync] --> Success(0x0)
SYSCALL[7,1](11) sys_munmap ( 0x402000, 4096 )[sync] --> Failure(0x16)
"""
LINES = """map 0 401000 4k r-xu
run 1
map 0 402000 4k rw-u
run 1
map 0 4800000 4k rw-u
run 1
map 0 4801000 4k rw-u
run 2
protect 0 402000 4k r--u 1
protect 0 4801000 4k r--- 1
run 1
move 0 4800000 4900000 4k 2
run 1
map 0 5001000 4k rw-u
run 1
map 0 5000000 4k rw-u
run 1
unmap 0 5001000 4k 1
unmap 0 4900000 4k 1
map 0 4900000 4k rw-u
run 1
unmap 0 4900000 4k 2
run rest
"""


def test_the_real_history_by_hand(xlab, row, tmp_path):
    ended = xlab("script", "--syscalls", "-", stdin=HISTORY)
    head, lines = ended.stdout.split("\n", 1)
    assert lines == LINES
    assert head == "# pages: 7 mapped, 4 unmapped, 2 protected, 2 moved; at most 6 pages at once"
    (tmp_path / "trace").write_text(xlab("records", "-", stdin=HISTORY).stdout)
    (tmp_path / "script").write_text(ended.stdout)
    counts = row("script", "trace")
    assert counts["ok"] == counts["accesses"] == 11 and sum(counts["refused"]) == 0


def test_the_real_history_wants_system_calls(xlab):
    ended = xlab("script", "--syscalls", SMALL)
    assert ended.returncode == Status.DATA and "xlab trace --syscalls" in ended.stderr


@pytest.mark.parametrize(
    ("line", "changes"),
    [
        ("sys_munmap ( 0x1000, 1 )[sync] --> Success(0x0)", [syscalls.Unmapped(1, 2)]),
        ("sys_munmap ( 0x1000, 1 )[sync] --> Failure(0x16)", []),
        (
            "sys_mmap ( 0x0, 5, 5, 2, 3, 0 ) --> [pre-success] Success(0x9000)",
            [syscalls.Mapped(9, 10, 5, False)],
        ),
        (
            "sys_mremap ( 0x4000, 16384, 4096, 0x0 ) --> [pre-success] Success(0x4000)",
            [syscalls.Unmapped(5, 8)],
        ),
        (
            "sys_mremap ( 0x4000, 4096, 8192, 0x0 ) --> [pre-success] Success(0x4000)",
            [syscalls.Grown(5, 6, 4)],
        ),
        (
            "sys_mremap ( 0x4000, 4096, 4096, 0x3, 0x8000 ) --> [pre-success] Success(0x8000)",
            [syscalls.Unmapped(8, 9), syscalls.Moved(4, 5, 8)],
        ),
        ("sys_read ( 4, 0x1ffefff408, 832 ) --> [async] ...", []),
    ],
)
def test_a_system_call(line, changes):
    for head in ("SYSCALL[7,1](  9) ", "# SYSCALL[7,1](9) "):
        assert syscalls.Calls().changes((head + line).encode()) == changes


def test_pages_of_2_mib(xlab):
    maps = [
        ("0x4a00000", 0x400000, 0x22),
        ("0x5001000", 0x200000, 0x22),
        ("0x6000000", 0x600000, 2),
    ]
    calls = "".join(
        f"SYSCALL[7,1](9) sys_mmap ( 0x0, {size}, 3, {flags}, 3, 0 ) --> [pre-success] Success({at})\n"
        for at, size, flags in maps
    )
    everywhere = "demand 0 0 17592186044416 4k rwxu"
    anon = xlab("script", "--huge", "anon", "-", stdin=f"{calls}I  1,1\n").stdout.splitlines()
    assert anon == ["# 2 blocks of 2 MiB in 1 area", "demand 0 4a00000 1024 2m rwxu", everywhere]
    of_files = xlab("script", "--huge", "files", "-", stdin=f"{calls}I  1,1\n").stdout.splitlines()
    assert of_files[1:] == [
        "demand 0 4a00000 1024 2m rwxu",
        "demand 0 6000000 1536 2m rwxu",
        everywhere,
    ]
    assert xlab("script", "--huge", "all").stdout == everywhere.replace("4k", "2m") + "\n"


def test_too_many_spans_are_joined():
    spans = scripts.spans({block: touches.Use.READ for block in (1, 2, 5, 6, 20)})
    assert [(span.first, span.count) for span in scripts.joined(spans, 2)] == [(1, 6), (20, 1)]


def test_a_script_that_is_too_long_is_refused():
    assert len(scripts.whole(["x" * 1023] * 1024, "")) == 1 << 20
    with pytest.raises(
        Fault, match="would have 1,048,577 bytes, and xlate reads at most 1,048,576: take less"
    ):
        scripts.whole(["x" * 1023] * 1023 + ["x" * 1024], "take less")


@pytest.mark.parametrize(
    "words",
    [
        ["--touch"],
        ["--huge", "anon"],
        ["--syscalls", "--order", "2m", "x"],
        ["--touch", "--turns", "4", "x"],
    ],
)
def test_words_at_odds(words, xlab):
    assert xlab("script", *words).returncode == Status.USAGE


@pytest.mark.parametrize("text", ["", "hello\n", "\x00\x01\x02"])
def test_a_file_without_records(text, xlab):
    ended = xlab("script", "-", stdin=text)
    assert ended.returncode == Status.DATA and "no record in it" in ended.stderr


def test_touches_are_told_once_until_forgotten():
    found = lackey.block(b"I  1000,1\nI  1004,1\n S 1008,1\nI  11000,1\n")
    told = touches.Touches()
    assert [(it.record, it.block) for it in told.of(found)] == [(0, 1), (2, 1), (3, 17)]
    assert told.of(found) == []
    told.forget(1, 2)
    assert [(it.record, it.block) for it in told.of(found)] == [(8, 1), (10, 1)]
