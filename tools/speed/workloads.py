"""The workloads that are timed, and how: files, processor time and instructions."""

import re
import subprocess
import sys
from pathlib import Path

TOP = Path(__file__).resolve().parent.parent.parent
sys.path.append(str(TOP / "tools/checks"))
from runs import ALL, array, row, run  # noqa: E402

TWO_LEVELS = [array(1, 16, 4, *ALL), array(2, 64, 8, *ALL)]
# One first array for all accesses, and one for fetches and one for data, over the same second array.
FIRST_LEVELS = {
    "joint": [array(1, 16, 4, *ALL), array(2, 128, 8, *ALL)],
    "split": [array(1, 16, 4, *ALL) | {"serves": kind} for kind in ("fetch", "data")] + [array(2, 128, 8, *ALL)],
}
TIMED_TABLES = {
    "radix": {"table_frames": 64, "walk_caches": [16, 4]},
    "hashed": {"buckets": 4096, "entries": 8192},
    "clustered": {"buckets": 512, "blocks": 512},
    "cuckoo": {"ways": 3, "start_bits": 7, "cap_bits": 12, "threshold": 60, "kick_limit": 32, "migrate": 4,
               "sections_2m": 64, "sections_1g": 4, "walk_caches": [16, 4]},
    "range": {"ranges": 8192, "range_tlb": 16},
}


def timed_row(table, tlb=TWO_LEVELS):
    return row(table, table, frames=8192, spaces=2, tlb=tlb, **TIMED_TABLES[table])


def made_trace(records, rng, pages=4096):
    """Lines in Lackey's form: three in four touch one of 64 pages, the others one of `pages`."""
    lines = []
    for _ in range(records):
        letter, size = rng.choice((("I ", 4),) * 3 + ((" L", 8),) * 3 + ((" S", 8), (" M", 8)))
        page = rng.randrange(64 if rng.random() < 0.75 else pages)
        lines.append(f"{letter} {0x10000000 + page * 4096 + rng.randrange(512) * 8:08x},{size}\n")
    return "".join(lines)


def made_script(records, rng):
    """Each page is mapped where it is touched first, and after each 64 records one of 4,096 is unmapped."""
    unmaps = (f"run 64\nunmap 0 {0x10000000 + rng.randrange(4096) * 4096:08x} 4k\n" for _ in range(records // 64))
    return "demand 0 10000000 4096 4k rwxu\n" + "".join(unmaps)


# A guest's 1,024 pages, by the width of the G cache and the host's pages; its nodes stand at guest page 100 (hexadecimal).
STAGES = {
    "nested": (0, "gmap 100000 4k rw-u 8\ngmap 1000000 4k rwxu 1024\n"),
    "nested-cached": (16, "gmap 100000 4k rw-u 8\ngmap 1000000 4k rwxu 1024\n"),
    "nested-large": (16, "gmap 0 2m rwxu 1\ngmap 1000000 2m rwxu 2\n"),
}


def stages_script(name):
    width, host = STAGES[name]
    return f"guest 100 16 8192 64 {width}\n{host}vmap 10000000 4k 1000000 rwxu 1024\n"


def all_take(harts, requests):
    return "".join(f"take {hart}\n" * requests for hart in range(harts))


def mapping_harts(harts, queue, sets, pages, at=0x10000000):
    """The head of a script of harts, and maps of so many pages, as many at a time as a queue holds requests."""
    lines = [f"harts {harts} {queue} 16384 64 1 {sets}\n"]
    for first in range(0, pages, queue):
        lines += [f"map 0 {at + first * 4096:x} 4k rwxu {queue}\n", all_take(harts, queue)]
    return "".join(lines)


def harts_script(records, rng, harts=4):
    """Turns of a thousand records, a hart each, and behind each turn a protect that all take."""
    lines = [mapping_harts(harts, 16, 64, 1024)]
    for turn in range(records // 1000):
        page = 0x10000000 + rng.randrange(1024) * 4096
        lines.append(f"hart {turn % harts}\nrun 1000\nprotect 0 {page:x} 4k rwxu\n{all_take(harts, 1)}")
    return "".join(lines)


def captured_trace(path):
    """A trace of a real program, `sort`, that Valgrind's Lackey writes; it is captured where it isn't there yet."""
    if not Path(path).exists():
        print(f"capturing {path}", file=sys.stderr)
        subprocess.run(["valgrind", "--tool=lackey", "--trace-mem=yes", f"--log-file={path}", "sort",
                        TOP / "examples" / "primes.trace"], stdout=subprocess.DEVNULL, check=True)
    return Path(path)


def first_lines(path, count):
    with open(path) as lines:
        return "".join(line for _, line in zip(range(count), lines))


def accesses(out):
    """The accesses of all rows of a report, or the look-ups of all curves."""
    return sum(map(int, re.findall(rb"(?:accesses|lookups)=(\d+)", out)))


def least(words, runs):
    """The least processor time of so many runs, in seconds, and the bytes of the last."""
    done = [run(words, limit=600) for _ in range(runs)]
    if done[-1].status != 0:
        sys.exit(f"{' '.join(words)}: status {done[-1].status}, {done[-1].err.decode(errors='replace')}")
    return min(each.seconds for each in done), done[-1].out


def instructions(words):
    """The instructions of a run, as callgrind counts them, and the accesses of all its rows."""
    counted = ["valgrind", "--tool=callgrind", "--callgrind-out-file=/dev/null"]
    done = run(counted + words, limit=600)
    return int(re.search(rb"Collected : (\d+)", done.err)[1]), accesses(done.out)
