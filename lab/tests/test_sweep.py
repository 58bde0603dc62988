"""`xlab sweep`: designs of a template and lists, and a workflow with a design that is not allowed."""

import csv
import json

import pytest
from conftest import EXAMPLES

from xlab.messages import Fault, Status
from xlab.sweeping.designs import axis, designs

ROW = {"name": "r", "mode": "sv39", "frames": 64, "spaces": 1, "table": "radix", "table_frames": 8}
INSTRUCTIONS = 2158  # grep -c "^I" examples/primes.trace
ARRAY = {"level": 1, "sets": 1, "width": 4, "orders": ["4k"]}
SECOND = ARRAY | {"level": 2, "sets": 16}
TEXT = """[[row]]
name = "r"
mode = "sv39"
frames = 1024
spaces = 1
table = "radix"
table_frames = 64
tlb = [{ level = 1, sets = 1, width = 4, orders = ["4k"] }]
"""


def made(*words, template=None):
    return designs(template or [ROW | {"tlb": [ARRAY, SECOND]}], [axis(word) for word in words])


def test_a_key_and_an_array():
    found = made("table_frames=8,16", "tlb.2.sets=32,64")
    assert [(it.row["table_frames"], it.row["tlb"][1]["sets"]) for it in found] == [
        (8, 32),
        (8, 64),
        (16, 32),
        (16, 64),
    ]
    assert [it.row["name"] for it in found] == ["r-8-32", "r-8-64", "r-16-32", "r-16-64"]
    assert found[3].values == {"table_frames": 16, "tlb.2.sets": 64}


def test_all_arrays_of_a_level():
    row = ROW | {"tlb": [ARRAY, ARRAY | {"orders": ["2m"]}, SECOND]}
    (found,) = made("tlb.l1.width=8", template=[row])
    assert [it["width"] for it in found.row["tlb"]] == [8, 8, 4]


def test_what_an_array_serves():
    fetch, both = made("tlb.1.serves=fetch,none")
    assert fetch.row["tlb"][0]["serves"] == "fetch" and both.row["tlb"][0] == ARRAY


def test_an_array_itself_and_none():
    with_two, without = made('tlb.2={level = 2, sets = 8, width = 6, orders = ["4k", "2m"]},none')
    assert with_two.row["tlb"][1]["width"] == 6 and without.row["tlb"] == [ARRAY]


def test_lists_go_to_the_rows_that_have_the_key():
    hashed = {"name": "h", "table": "hashed", "buckets": 1}
    found = made("walk_caches=[0, 0],[4, 4]", "h:buckets=2,4", "mode=sv39", template=[ROW, hashed])
    assert [it.row.get("walk_caches", it.row.get("buckets")) for it in found] == [[0, 0], [4, 4], 2, 4]


def test_long_names_become_numbers():
    found = made("frames=1048576,2097152", "tlb.2.sets=16384", "tlb.1.width=64")
    assert [it.row["name"] for it in found] == ["r-1", "r-2"]


@pytest.mark.parametrize(
    "word, says",
    [
        ("table_frame=8", "meant table_frames?"),
        ("tlb.2.ways=8", "ways is no key of an array"),
        ("tlb.2.sets", "KEY=VALUE"),
        ("tlb.2.sets=,8", "no value"),
        ("tlb.4.sets=8", "no row of the template has"),
        ("x:frames=8", "the template has no row x with"),
    ],
)
def test_bad_lists(word, says):
    with pytest.raises(Fault, match=says):
        made(word)


def test_one_good_table_although_a_design_and_a_trace_are_bad_and_a_second_run_is_short(program, xlab, tmp_path):
    pytest.importorskip("snakemake")
    pytest.importorskip("tomli_w")
    (tmp_path / "core.toml").write_text(TEXT)
    (tmp_path / "cut.trace").write_text("I  1000,4\nI  10")
    words = [
        "sweep",
        "core.toml",
        "--output",
        "out",
        "--trace",
        EXAMPLES / "primes.trace",
        "--trace",
        "cut.trace",
        "--set",
        "tlb.1.width=4,5,8",
        "--jobs",
        2,
    ]
    ended = xlab(*words)
    assert ended.returncode == Status.RUN, ended.stderr
    assert "run cut.0000 failed: xlate: trace line 2: reason 2" in ended.stderr and "1 run missing" in ended.stderr
    assert "left out" in ended.stderr and "tlb.1.width=5: array 1 of `tlb`: `width` is 5" in ended.stderr
    rows = json.loads((tmp_path / "out/rows.json").read_text())
    assert [(row["name"], row["trace"], row["tlb.1.width"]) for row in rows] == [
        ("r-4", "primes", 4),
        ("r-8", "primes", 8),
    ]
    assert all(row["accesses"] == row["ok"] + row["unmapped"] and row["instructions"] == INSTRUCTIONS for row in rows)
    with (tmp_path / "out/rows.csv").open() as file:
        assert [line["tlb.1.width"] for line in csv.DictReader(file)] == ["4", "8"]
    done = (tmp_path / "out/runs/primes.0000.json").stat().st_mtime_ns
    assert xlab(*words).returncode == Status.RUN
    assert (tmp_path / "out/runs/primes.0000.json").stat().st_mtime_ns == done


@pytest.mark.parametrize(
    "words, says",
    [
        (("none.toml", "--trace", "t"), "none.toml"),
        (("core.toml", "--trace", "none"), "none: no such file"),
        (("core.toml", "--trace", "a=core.toml", "--trace", "a=core.toml"), "two traces have the label a"),
        (("core.toml", "--trace", "core.toml", "--script", "b=core.toml"), "no trace has this label"),
        (("core.toml", "--trace", "core.toml", "--rows", 17), "1 to 16 rows"),
    ],
)
def test_faults(words, says, xlab, tmp_path):
    pytest.importorskip("tomli_w")
    (tmp_path / "core.toml").write_text(TEXT)
    ended = xlab("sweep", *words, "--output", "out")
    assert ended.returncode >= 64 and says in ended.stderr and "Traceback" not in ended.stderr
