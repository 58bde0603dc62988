"""The real history on random programs: a simulated address space makes accesses that are allowed and system calls; xlate
serves the script without a refusal or a denial, and each page keeps its frame until it is unmapped."""

import random
import subprocess

import pytest

pytest.importorskip("numpy")
pytest.importorskip("intervaltree")

ROW = """[[row]]
name = "a"
mode = "sv39"
frames = 8192
spaces = 1
table = "radix"
table_frames = 512
tlb = [{ level = 1, sets = 4, width = 4, orders = ["4k"] }]
"""
FIRST, PAGES = 0x4000, 96  # the addresses in which areas come and go, in pages
LETTERS = {" L": 1, " S": 2, " M": 2, "I ": 4}  # and the protection that each wants


class Space:
    """An address space of areas, and of pages that are there once they are touched; each has an identity."""

    def __init__(self, seed):
        self.random = random.Random(seed)
        self.areas, self.pages, self.log, self.touched = {}, {}, [], []
        self.brk = 0x9000 << 12
        self.call("brk", "0x0", self.brk)

    def call(self, name, words, value):
        self.log.append(
            f"SYSCALL[7,1](1) sys_{name} ( {words} ) --> [pre-success] Success(0x{value:x}) "
        )

    def drop(self, pages):
        for page in pages:
            self.areas.pop(page, None)
            self.pages.pop(page, None)

    def some(self):
        first = self.random.randrange(PAGES)
        return FIRST + first, self.random.randint(1, min(12, PAGES - first))

    def mmap(self):
        at, count = self.some()
        protection = self.random.choice([0, 1, 3, 3, 5, 7])
        self.drop(range(at, at + count))
        self.areas.update(dict.fromkeys(range(at, at + count), protection))
        self.call("mmap", f"0x0, {count * 4096 - 5}, {protection}, 34, 4294967295, 0", at << 12)

    def munmap(self):
        at, count = self.some()
        self.drop(range(at, at + count))
        self.call("munmap", f"0x{at << 12:x}, {count * 4096}", 0)

    def mprotect(self):
        at, count = self.area()
        protection = self.random.choice([0, 1, 3, 5])
        self.areas.update(dict.fromkeys(range(at, at + count), protection))
        self.call("mprotect", f"0x{at << 12:x}, {count * 4096}, {protection}", 0)

    def madvise(self):
        at, count = self.area()
        for page in range(at, at + count):
            self.pages.pop(page, None)
        self.call("madvise", f"0x{at << 12:x}, {count * 4096}, 4", 0)

    def area(self):
        """Neighbouring pages of one protection; mapped first where there are none."""
        if not self.areas:
            self.mmap()
        at = self.random.choice(sorted(self.areas))
        count = 1
        while self.areas.get(at + count) == self.areas[at] and self.random.random() < 0.8:
            count += 1
        return at, count

    def mremap(self):
        at, count = self.area()
        protection, new = self.areas[at], self.random.randint(1, 12)
        to = at
        if new > count or self.random.random() < 0.5:
            to = FIRST + PAGES + self.random.randrange(40)
            if to < at + count and at < to + new:
                return  # the system moves nothing onto itself
            self.drop(range(to, to + new))
        kept = {
            page - at + to: self.pages[page]
            for page in range(at, at + min(count, new))
            if page in self.pages
        }
        self.drop(range(at, at + count))
        self.areas.update(dict.fromkeys(range(to, to + new), protection))
        self.pages.update(kept)
        self.call(
            "mremap", f"0x{at << 12:x}, {count * 4096}, {new * 4096}, 0x3, 0x{to << 12:x}", to << 12
        )

    def heap(self):
        before, self.brk = self.brk, self.random.randrange(0x9000 << 12, 0x9010 << 12)
        self.areas.update(dict.fromkeys(range(before + 4095 >> 12, self.brk + 4095 >> 12), 3))
        self.drop(range(self.brk + 4095 >> 12, before + 4095 >> 12))
        self.call("brk", f"0x{self.brk:x}", self.brk)

    def access(self):
        letter = self.random.choice(list(LETTERS))
        allowed = [
            page
            for page, has in self.areas.items()
            if has & (LETTERS[letter] if letter != " L" else 7)
        ]
        if not allowed:
            return
        page = self.random.choice(allowed)
        identity = self.pages.setdefault(page, len(self.touched))
        self.touched.append(identity)
        self.log.append(f"{letter} {page << 12 | self.random.randrange(4088):x},8")


@pytest.mark.parametrize("seed", range(4))
def test_random_programs(seed, xlab, program, tmp_path):
    space = Space(seed)
    moves = [space.mmap, space.munmap, space.mprotect, space.madvise, space.mremap, space.heap]
    for _ in range(1500):
        space.random.choice([space.access] * 14 + moves)()
    log = "\n".join(space.log) + "\n"
    script = xlab("script", "--syscalls", "-", stdin=log).stdout
    assert script.startswith(f"# pages: {len(set(space.touched))} mapped, ")
    (tmp_path / "script").write_text(script)
    (tmp_path / "trace").write_text(xlab("records", "-", stdin=log).stdout)
    (tmp_path / "row").write_text(ROW)
    words = ["--config", "row", "--script", "script", "--trace", "trace", "--answers"]
    ended = subprocess.run([program, *words], cwd=tmp_path, capture_output=True, text=True)
    assert " refused=0,0,0,0,0,0,0,0,0 " in ended.stdout and " unmapped=0 denied=0 " in ended.stdout
    frames, answers = {}, [
        line.split() for line in ended.stdout.splitlines() if line.startswith("a ")
    ]
    for _, record, *_, verdict, physical in [it for it in answers if it[1].isdigit()]:
        identity = space.touched[int(record) - 1]
        assert (
            verdict == "ok"
            and frames.setdefault(identity, int(physical, 16) >> 12) == int(physical, 16) >> 12
        )
    assert len(frames) > 50
