"""Programs, which Debian has in every installation, under Valgrind's tools: Lackey, whose traces are run here, and
Cachegrind, whose caches of lines of 4,096 bytes are TLBs of pages of 4 KiB."""

import re
import shutil
import subprocess
import sys

TEXTS = "/usr/share/common-licenses"
PROGRAMS = {
    "ls": ["ls", "-l", "/usr/lib"],
    "gzip": ["gzip", "-c", f"{TEXTS}/GPL-2"],
    "sed": ["sed", "-e", "s/the/THE/g", f"{TEXTS}/GPL-3"],
    "grep": ["grep", "-c", "-i", "the.*of", f"{TEXTS}/GPL-3"],
    "awk": ["awk", "{ for (i = 1; i <= NF; i++) n[$i]++ } END { for (w in n) print n[w], w }", f"{TEXTS}/GPL-2"],
}
EVERYWHERE = "demand 0 0 67108864 4k rwxu\n"
TABLE = {"mode": "sv48", "frames": 65536, "buckets": 4096, "entries": 65536}  # of a hashed row, for these programs
PAGE = 4096
ENVIRONMENT = {"PATH": "/usr/bin:/bin", "LC_ALL": "C"}


def valgrind(tool, words, command):
    """Runs a command under a tool of Valgrind; answers what the tool said."""
    if not shutil.which("valgrind"):
        sys.exit("valgrind is not there: apt-get install valgrind")
    line = ["valgrind", f"--tool={tool}", *words, *command]
    done = subprocess.run(line, env=ENVIRONMENT, cwd="/", stdin=subprocess.DEVNULL, stdout=subprocess.DEVNULL,
                          stderr=subprocess.PIPE, text=True)
    if done.returncode != 0:
        sys.exit(f"{' '.join(line)} ended with status {done.returncode}: {done.stderr[-300:]}")
    return done.stderr


def misses_behind(first, last, command):
    """Cachegrind's misses of I1, D1 and LL, where the first two and the last have these sets and ways."""
    geometries = {"I1": first[0], "D1": first[1], "LL": last}
    caches = [f"--{kind}={sets * width * PAGE},{width},{PAGE}" for kind, (sets, width) in geometries.items()]
    said = valgrind("cachegrind", ["--cache-sim=yes", "--cachegrind-out-file=/dev/null", *caches], command)
    return {kind: int(re.search(rf"{kind}\s+misses:\s+([\d,]+)", said)[1].replace(",", "")) for kind in geometries}


def misses_there(sets, width, command):
    """Cachegrind's I1 and D1 misses, with both caches of this geometry."""
    return misses_behind([(sets, width), (sets, width)], (1024, 16), command)
