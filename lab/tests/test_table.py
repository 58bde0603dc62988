"""`xlab table`, on rows whose figures can be worked out at sight."""

import csv
import gzip
import io
import json

import pytest
from conftest import EXAMPLES

from xlab.messages import Status

pytest.importorskip("pandas")
pytest.importorskip("tabulate")

COUNTS = ("accesses ok unmapped denied notcanonical accepted walks reads wchits fills kicks undone migrated growths fences "
          "invalidated").split()  # fmt: skip


def row(name, tlb, walks, reads, accesses=1000, unmapped=0, **more):
    counts = dict.fromkeys(COUNTS, 0) | {"accesses": accesses, "ok": accesses - unmapped, "unmapped": unmapped}
    zeros = {"refused": [0] * 9, "pasum": "0000000000000000"}
    return counts | zeros | {"name": name, "tlb": tlb, "walks": walks, "reads": reads, "accepted": unmapped} | more


BARE = row("bare", [], 1000, 3000)
# 4 KiB and 2 MiB beside each other in level 1, then a level 2: 1000 accesses, 900 + 20 hits, 80 misses, 70 hits, 10 walks
TWO = row("two", [[900, 100], [20, 980], [70, 10]], 10, 25, unmapped=2)


# 400 fetches and 600 loads and stores, each with a first level of its own; of 70 misses the level that they share hits 50
SPLIT = row("split", [[390, 10], [540, 60], [50, 20]], 20, 60)
# the same with arrays of 4 KiB and of 2 MiB, and a second level that is split too
APART = row("apart", [[380, 20], [10, 390], [540, 60], [0, 600], [6, 4], [44, 16]], 20, 60)


@pytest.fixture
def made(tmp_path):
    """Writes rows into a file."""

    def write(name, *rows):
        (tmp_path / name).write_text(json.dumps(list(rows)) + "\n")
        return name

    return write


def figures(xlab, *words):
    ended = xlab("table", *words, "--format", "csv")
    assert ended.returncode == 0, ended.stderr
    return {line.pop("row"): line for line in csv.DictReader(io.StringIO(ended.stdout))}


def test_misses_are_of_levels(xlab, made):
    found = figures(xlab, made("a.json", BARE, TWO), "--columns", "l1,l2,walks,l1-rate,l2-rate,reads-walk,walk-rate")
    assert list(found["two"].values()) == ["80", "10", "10", "8.0", "12.5", "2.5", "1.0"]
    assert found["bare"]["L1 misses"] == "" and found["bare"]["walks"] == "1000"


def test_levels_that_are_split(xlab, made):
    found = figures(xlab, made("a.json", SPLIT, APART), "--columns", "l1,l2,walks")
    assert list(found["split"].values()) == list(found["apart"].values()) == ["70", "20", "20"]


def test_a_split_level_that_fetches_alone_look_at(xlab, made):
    only = row("only", [[900, 100], [0, 0], [70, 30]], 30, 90)
    assert list(figures(xlab, made("a.json", only), "--columns", "l1,l2")["only"].values()) == ["100", "30"]


def test_figures_per_thousand_instructions(xlab, made):
    found = figures(xlab, made("a.json", TWO), "--columns", "l1-mpki,mpki,rpki", "--instructions", 4000)
    assert list(found["two"].values()) == ["20.0", "2.5", "6.25"]


@pytest.mark.parametrize("column", ["mpki", "l1-mpki", "rpki", "instructions"])
def test_figures_by_instructions_want_their_number(column, xlab, made):
    ended = xlab("table", made("a.json", TWO), "--columns", column)
    assert ended.returncode == Status.USAGE and "--trace FILE counts them" in ended.stderr and not ended.stdout


@pytest.mark.parametrize("how, walks, accesses", [("counted", "10", "1000"), ("once", "8", "998"), ("out", "6", "998")])
def test_first_touches(how, walks, accesses, xlab, made):
    found = figures(xlab, made("a.json", TWO), "--columns", "walks,accesses,first", "--first-touches", how)
    assert list(found["two"].values()) == [walks, accesses, "2"]


def test_changes_against_a_row(xlab, made):
    ended = xlab("table", made("a.json", BARE, TWO), "--columns", "walks,walks%", "--base", "bare")
    lines = [[cell.strip() for cell in line.split("|")[1:-1]] for line in ended.stdout.splitlines()]
    assert lines[0] == ["row", "walks", "walks vs bare %"]
    assert lines[2:] == [["`bare`", "1,000", "+0.0"], ["`two`", "10", "-99.0"]]


def test_a_warm_up_is_taken_off(xlab, made):
    front = row("two", [[400, 60], [10, 450], [44, 6]], 6, 15, accesses=460, unmapped=2)
    ended = figures(
        xlab, made("a.json", TWO), "--minus", made("w.json", front), "--columns", "accesses,l1,walks,reads,first"
    )
    assert list(ended["two"].values()) == ["540", "30", "4", "10", "0"]


def test_a_front_that_is_none(xlab, made):
    ended = xlab("table", made("a.json", BARE), "--minus", made("w.json", row("bare", [], 1001, 1, accesses=1001)))
    assert ended.returncode == Status.DATA and "not of the trace's front" in ended.stderr


def test_traces_side_by_side_and_sorted(xlab, made):
    made("x.json", BARE, TWO), made("y.json", TWO)
    found = xlab("table", "one=x.json", "y.json", "--columns", "walks", "--sort", "walks", "--format", "json")
    assert json.loads(found.stdout) == [
        {"row": "two", "one walks": 10, "y walks": 10},
        {"row": "bare", "one walks": 1000, "y walks": None},
    ]


def test_what_a_sweep_set_stands_in_front(xlab, made):
    rows = [BARE | {"trace": trace, "template": "t", "tlb.2.sets": 4, "walk_caches": [1, 2]} for trace in ("x", "y")]
    found = figures(xlab, made("rows.json", *rows), "--columns", "walks")
    assert found["bare"] == {"tlb.2.sets": "4", "walk_caches": "[1, 2]", "x walks": "1000", "y walks": "1000"}


def test_a_level_without_a_hit_wants_the_configuration(xlab, made, tmp_path):
    arrays = "".join(f'{{ level = {level}, sets = 1, width = 1, orders = ["4k"] }},' for level in (1, 2))
    (tmp_path / "c.toml").write_text(f'[[row]]\nname = "r"\ntlb = [{arrays}]\n')
    cold = made("a.json", row("r", [[0, 10], [4, 6]], 6, 18, accesses=10))
    assert list(figures(xlab, cold, "--config", "c.toml", "--columns", "l1,l2")["r"].values()) == ["10", "6"]


def test_instructions_of_a_trace(xlab, made, tmp_path):
    (tmp_path / "t.gz").write_bytes(gzip.compress(b"I  1000,4\n L 1,1\nI  2,4\n"))
    assert figures(xlab, made("a.json", BARE), "--trace", "t.gz", "--columns", "instructions")["bare"] == {
        "instructions": "2"
    }


def test_rows_of_the_program(xlab, program, tmp_path):
    from xlab import program as xlate

    words = [EXAMPLES / "compare/tables.toml", EXAMPLES / "small.script", EXAMPLES / "small.trace"]
    (tmp_path / "a.json").write_text(json.dumps(xlate.rows(*map(str, words))))
    found = figures(xlab, "a.json", "--columns", "l1,walks", "--rows", "*-tlb")
    # the last level's misses are the walks that the program counts; without a TLB each access walks
    assert {tuple(line.values()) for line in found.values()} == {("372", "128")}


@pytest.mark.parametrize(
    "words, says",
    [
        (("none.json",), "none.json: No such file"),
        (("a.json", "--columns", "walk"), "meant walks?"),
        (("a.json", "--base", "c"), "the rows are bare, two"),
        (("a.json", "--columns", "walks%"), "wants --base"),
        (("a.json", "--rows", "x*"), "no row has such a name"),
        (("a.json", "--instructions", "many"), "a number is wanted"),
        (("text",), "--json"),
        (("empty",), "has no rows"),
    ],
)
def test_faults(words, says, xlab, made, tmp_path):
    made("a.json", BARE, TWO)
    (tmp_path / "text").write_text("a accesses=3 ok=3\n")
    (tmp_path / "empty").write_text("")
    ended = xlab("table", *words)
    assert ended.returncode >= 64 and says in ended.stderr and "Traceback" not in ended.stderr
