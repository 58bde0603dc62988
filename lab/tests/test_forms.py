"""The forms `curve`, `nested` and `harts`: what `xlab explain` says of them, their reports as rows, a trace's script of
two stages."""

import json
import subprocess

import pytest
from conftest import EXAMPLES

from xlab import cli, formrows
from xlab.explained import words
from xlab.messages import Status

ROWS = '[[row]]\nname = "a"\nmode = "sv39"\nframes = 64\nspaces = 1\ntable = "radix"\ntable_frames = 64\n'
GUEST = "guest 100 16 64 64 0\ngmap 100000 4k rw-u 3\ngmap 0 4k rwxu\nvmap 1000 4k 0 rw-u\n"
HARTS = "harts 1 4 1 16 1 1\nmap 0 1000 4k r--u\nunmap 0 1000 4k\n"
LOAD = " L 1008,1\n"
NESTED_REPORT = (
    "nested 1 L 0000000000001008 ok 0000000000003008\n"
    "nested accesses=4 ok=1 pagefaults=2 guestfaults=1 accepted=5 refused=0,1,0,0,0,2 reads=20 hits=3 pasum=0000000000003008\n"
)
HARTS_REPORT = """hart 0 accesses=10 ok=7 unmapped=2 denied=1 notcanonical=0 hits=6 misses=4 reads=12 taken=2 invalidated=1 pasum=ffffffffffffffff
hart 1 accesses=5 ok=5 unmapped=0 denied=0 notcanonical=0 hits=4 misses=1 reads=3 taken=0 invalidated=0 pasum=0000000000000002
harts accepted=4 refused=0,0,0,0,0,0,0,0,0,5,0,0 waiting=2 held=1
"""
CURVES = (
    "r curve sets=1 lookups=100 hits=" + ",".join(map(str, range(1, 65))) + "\n"
    "r curve sets=16 lookups=100 hits=6," + ",".join(["7"] * 63) + "\n"
)


@pytest.mark.parametrize(
    "form, script, trace, status, says",
    [
        ("nested", "gmap 0 4k rwxu\n", LOAD, 3, ["s:1: the head must stand once", "guest BASE NODES FRAMES GNODES GCACHE"]),
        ("nested", GUEST + "guest 100 16 64 64 0\n", LOAD, 3, ["s:5: the head must stand once"]),
        ("nested", "guest 100 16 64 64 3\n", LOAD, 3, ["`3` in the place of GCACHE", "0, 1, 2, 4, 6"]),
        ("nested", "guest 100 16 64 3 0\n", LOAD, 3, ["`3` in the place of GNODES", "4 to 16384"]),
        ("nested", "guest 20000000 16 64 64 0\n", LOAD, 3, ["BASE + NODES passes 2^29"]),
        ("nested", GUEST + "gmap 4000 4k rwx-\n", LOAD, 3, ["`rwx-` in the place of PERM", "rwxu"]),
        ("nested", GUEST + "vmap 2000 4k rwxu\n", LOAD, 3, ["too few or too many", "vmap ADDR ORDER ADDR PERM [N]"]),
        ("nested", GUEST + "demand 0 0 1 4k rwxu\n", LOAD, 3, ["`demand` is no command", "a script of rows"]),
        ("nested", GUEST + "vmmap 0 4k 0 rwxu\n", LOAD, 3, ["meant vmap?"]),
        ("nested", GUEST, "hello\n", 4, ["t:1: no record"]),
        ("nested", "guest 100 16 64 64 0\n", LOAD, 0, ["1 guest-page faults", "BASE + 1"]),
        ("nested", GUEST, " L 2000,1\n", 0, ["1 page faults"]),
        ("nested", GUEST + "gmap 10 4k rwxu\n", LOAD, 0, ["1 commands refused, cause 2"]),
        ("nested", GUEST, "", 0, ["t holds no record"]),
        ("harts", "harts 9 4 1 16 1 1\n", LOAD, 3, ["`9` in the place of HARTS", "1 to 8"]),
        ("harts", "harts 1 4 1 1 2 1\n", LOAD, 3, ["NODES is 1", "2 SPACES"]),
        ("harts", HARTS + "fence all\n", LOAD, 3, ["`fence` is no command", "a script of rows"]),
        ("harts", HARTS + "take 65536\n", LOAD, 3, ["`65536` in the place of HART", "0 to 65535"]),
        ("harts", HARTS + "map 0 1000 4k r--u\n", LOAD, 0, ["cause 7", "held back", "2 requests wait", "1 accesses found no page"]),
        ("harts", HARTS + "take 1\n", LOAD, 0, ["cause 12: no such hart"]),
    ],
)  # fmt: skip
def test_a_mistake_is_explained(form, script, trace, status, says, program, tmp_path, monkeypatch, capfd):
    monkeypatch.chdir(tmp_path)
    (tmp_path / "s").write_text(script)
    (tmp_path / "t").write_text(trace)
    assert cli.main(["explain", form, "--script", "s", "--trace", "t"]) == status
    said = capfd.readouterr().err
    assert not [it for it in says if it not in said], said


@pytest.mark.parametrize(
    "asked, says",
    [
        (["nested"], ["--script FILE is needed", "--trace FILE is needed", "words: nested --script"]),
        (["nested", "--script", "s", "--trace", "t", "--config", "c"], ["--config is no word of xlate nested"]),
        (["harts", "--script", "s", "--trace", "t", "--json"], ["--json is no word of xlate harts"]),
        (["--config", "c", "harts"], ["`harts` is the first word, or none"]),
        (["curve", "--config", "c"], ["--sets N is needed", "words: curve --sets N --config"]),
        (["curve", "--sets", "257", "--config", "c"], ["--sets 257: a number from 1 to 256"]),
        (["curve", "--sets", "1", "--config", "c", "--make", "64"], ["--make is no word of xlate curve"]),
        (["--sets", "1", "--config", "c"], ["--sets is no word of xlate"]),
        (["--sets", "1", "--config", "c", "curve"], ["`curve` is the first word, or none"]),
    ],
)
def test_words_of_a_form(asked, says):
    said = "\n".join(words.usage(words.read(asked)))
    assert not [it for it in says if it not in said], said


@pytest.mark.parametrize(
    "config, script, trace, status, says",
    [
        (ROWS, "map 0 2000 4k r--u\n", LOAD, 0, ["no look-up hit at any width: s maps none", "demand 0 0", "without `curve`"]),
        (ROWS, "map 0 1000 4k r--u\n", "", 0, ["no row looked anything up: t holds no record"]),
        (ROWS, "map 0 1000 4k\n", LOAD, 3, ["s:1: too few or too many", "map SPACE ADDR ORDER PERM [N]"]),
        (ROWS.replace("sv39", "sv40"), "", LOAD, 2, ["c:3:", "sv39"]),
        (ROWS, "", "hello\n", 4, ["t:1: no record"]),
    ],
)  # fmt: skip
def test_a_mistake_of_a_curve_is_explained(config, script, trace, status, says, program, tmp_path, monkeypatch, capfd):
    monkeypatch.chdir(tmp_path)
    for name, text in (("c", config), ("s", script), ("t", trace)):
        (tmp_path / name).write_text(text)
    asked = ["explain", "curve", "--sets", "2", "--config", "c", "--script", "s", "--trace", "t"]
    assert cli.main(asked) == status
    said = capfd.readouterr().err
    assert not [it for it in says if it not in said], said


def test_what_is_well_needs_no_word(program, tmp_path, monkeypatch, capfd):
    monkeypatch.chdir(tmp_path)
    (tmp_path / "s").write_text(GUEST)
    (tmp_path / "t").write_text(LOAD)
    assert cli.main(["explain", "nested", "--script", "s", "--trace", "t", "--answers"]) == 0
    out, said = capfd.readouterr()
    assert said == "" and " reads=15 " in out


def test_a_report_of_two_stages_is_a_row():
    row = formrows.read(NESTED_REPORT)
    assert (row["name"], row["accesses"], row["walks"], row["reads"], row["hits"]) == ("nested", 4, 4, 20, 3)
    assert row["refused"] == [0, 1, 0, 0, 0, 2] and row["tlb"] == []


def test_a_report_of_harts_is_a_row_of_all():
    row = formrows.read(HARTS_REPORT)
    assert (row["accesses"], row["ok"], row["unmapped"], row["walks"], row["reads"]) == (15, 12, 2, 5, 15)
    assert (row["accepted"], row["waiting"], row["held"], row["pasum"]) == (4, 2, 1, "0000000000000001")
    assert row["tlb"] == [[10, 5]] and row["refused"][9] == 5


def test_other_lines_are_no_report():
    assert formrows.read("a accesses=3 ok=3\n") is None and not formrows.is_count("hart 0 1 L 0 0000000000001008 ok")


def test_tables_of_reports(xlab, tmp_path):
    pytest.importorskip("tabulate")
    (tmp_path / "n").write_text(NESTED_REPORT)
    (tmp_path / "h").write_text(HARTS_REPORT)
    ended = xlab("table", "bare=n", "again=n", "--columns", "reads-access,hits", "--format", "json")
    rows = [{"row": name, "reads/access": 5.0, "hits": 3} for name in ("bare", "again")]
    assert ended.returncode == 0 and json.loads(ended.stdout) == rows, ended.stderr
    assert "reads/access" in xlab("table", "n").stdout
    ended = xlab("table", "h", "--columns", "l1,walks,held,refused", "--format", "json")
    assert json.loads(ended.stdout) == [{"row": "harts", "L1 misses": 5, "walks": 5, "held": 1, "refused": 5}]


def test_tables_of_curves(xlab, tmp_path):
    pytest.importorskip("tabulate")
    (tmp_path / "c").write_text(CURVES)
    ended = xlab("table", "c", "--columns", "accesses,w1,w64", "--format", "json")
    wanted = (("r, 1 set", 99, 36), ("r, 16 sets", 94, 93))
    rows = [{"row": name, "accesses": 100, "w1": narrow, "w64": wide} for name, narrow, wide in wanted]
    assert ended.returncode == 0 and json.loads(ended.stdout) == rows, ended.stderr
    ended = xlab("table", "c", "--columns", "walks")
    assert ended.returncode == Status.USAGE and "w1 to w64" in ended.stderr


@pytest.mark.parametrize(
    "asked, reads, hits",
    [
        # an access is three nodes of the guest, and four translations of as many loads as the host's page leaves levels
        (["--stages", "4k"], 15, 0), (["--stages", "2m"], 11, 0), (["--stages", "1g"], 7, 0),
        (["--stages", "2m", "--order", "2m"], 8, 0), (["--stages", "1g", "--order", "1g"], 3, 0),
    ],
)  # fmt: skip
def test_a_script_of_two_stages(asked, reads, hits, program, xlab, tmp_path):
    pytest.importorskip("intervaltree")
    small = EXAMPLES / "small.trace"
    assert xlab("script", *asked, "-o", "s", small).returncode == 0
    out = subprocess.run([program, "nested", "--script", tmp_path / "s", "--trace", small], capture_output=True, text=True)
    counts = formrows.read(out.stdout)
    assert (counts["ok"], counts["reads"], counts["hits"]) == (12826, 12826 * reads, hits) and sum(counts["refused"]) == 0


def test_stages_of_a_few_pages_by_hand(xlab):
    pytest.importorskip("intervaltree")
    ended = xlab("script", "--stages", "2m", "--gcache", 16, "-", stdin="I  1000,4\n S 2000,8\n L 40003000,1\n")
    # nodes: a root, one for each of two GiB, one for each of two blocks of 2 MiB; one host page for them, one for the data
    assert ended.stdout.splitlines() == [
        "guest 0 5 1024 8 16",
        "gmap 0 2m rw-u 1",
        "gmap 40000000 2m rwxu 1",
        "vmap 1000 4k 40000000 r-xu 1",
        "vmap 2000 4k 40001000 rw-u 1",
        "vmap 40003000 4k 40002000 r--u 1",
        "run rest",
    ]


def test_stages_want_a_trace(xlab):
    for asked, says in ((["--stages", "4k"], "wants a TRACE"), (["--gcache", "4"], "goes with --stages")):
        ended = xlab("script", *asked)
        assert ended.returncode == Status.USAGE and says in ended.stderr


def test_the_figures_of_the_examples_are_what_the_program_prints(program, xlab):
    pytest.importorskip("tabulate")
    ended = xlab("pages", EXAMPLES / "guests.md", EXAMPLES / "harts.md")
    assert ended.returncode == 0, ended.stdout
