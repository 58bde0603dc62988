"""Mistakes that users make, each with its status and what `xlab explain` must say of it."""

import gzip
import pathlib
import subprocess
from dataclasses import dataclass, field

import pytest
from conftest import TOP

from xlab import cli
from xlab.explained import words

ROW = """[[row]]
name = "a"
mode = "sv39"
frames = 1024
spaces = 1
table = "radix"
table_frames = 64
"""
TLB = (
    ROW
    + 'tlb = [{ level = 1, sets = 1, width = 8, orders = ["4k"] },\n       { level = 2, sets = 4, width = 8, orders = ["4k"] }]\n'
)
HASHED = ROW.replace("radix", "hashed").replace("table_frames = 64", "buckets = 64\nentries = 64")
SCRIPT = "demand 0 0 67108864 4k rwxu\n"
TRACE = "I  1000,4\n L 2000,8\n S 2008,8\n"
FILES = ("--config", "c.toml", "--script", "s", "--trace", "t")


@dataclass(frozen=True)
class Mistake:
    """Files and words with a mistake, the status of the run, and parts of what explain says."""

    name: str
    status: int
    says: tuple[str, ...]
    config: str | bytes = ROW
    script: str | None = SCRIPT
    trace: str | bytes | None = TRACE
    words: tuple[str, ...] = field(default=FILES)


def usage(name: str, *says: str, words: tuple[str, ...]) -> Mistake:
    return Mistake(name, 1, says, words=words)


def config(name: str, text: str | bytes, *says: str) -> Mistake:
    return Mistake(name, 2, says, config=text)


def edited(name: str, old: str, new: str, *says: str, base: str = ROW) -> Mistake:
    assert old in base
    return config(name, base.replace(old, new, 1), *says)


def script(name: str, text: str, *says: str) -> Mistake:
    return Mistake(name, 3, says, script=text)


def trace(name: str, text: str | bytes, *says: str) -> Mistake:
    return Mistake(name, 4, says, trace=text)


def silent(name: str, *says: str, **files: str | None) -> Mistake:
    given = tuple(it for it in FILES[4:] if files.get("trace", TRACE) is not None)
    mapped = FILES[2:4] if files.get("script", SCRIPT) is not None else ()
    return Mistake(name, 0, says, **files, words=(*FILES[:2], *mapped, *given))  # type: ignore[arg-type]


MISTAKES = [
    usage("no words", "--config FILE is needed", words=()),
    usage("--version", "xlab version", words=("--version",)),
    usage("a word of one letter", "-x is no word of xlate", "docs/FORMATS.md", words=(*FILES, "-x")),
    usage("a word misspelt", "meant --trace?", words=(*FILES[:2], "--traces", "t")),
    usage("a word of another form", "--sets is no word", "a word of xlate curve", words=(*FILES[:2], "--sets", "4")),
    usage("--make beside a trace", "--make goes with neither", words=(*FILES[:2], "--make", "10", "--trace", "t")),
    usage("--make too large", "1 to 1048576", words=(*FILES[:2], "--make", "2000000")),
    usage("--make with a letter", "--make 10k: a number", words=(*FILES[:2], "--make", "10k")),
    usage("a word twice", "--json is given twice", words=(*FILES, "--json", "--json")),
    usage("--csv", "--csv is no word of xlate", "xlab table", words=(*FILES, "--csv")),
    usage("-o", "-o is no word of xlate", "> FILE", words=(*FILES, "-o", "rows")),
    usage("a file by itself", "`c.toml` belongs to no word", "meant --config c.toml?", words=("c.toml",)),
    usage("--config without a value", "--config wants a value", words=("--script", "s", "--config")),
    Mistake("no such configuration", 8, ("--config d.toml: no such file", "meant c.toml?"), words=("--config", "d.toml")),
    Mistake("no such script", 8, ("--script none: no such file",), words=(*FILES[:2], "--script", "none")),
    Mistake("no such trace", 8, ("--trace none: no such file",), words=(*FILES[:2], "--trace", "none")),
    Mistake("--trace -", 8, ("standard input is /dev/stdin",), words=(*FILES[:4], "--trace", "-")),
    Mistake("a folder as configuration", 5, ("--config .: is a folder",), words=("--config", ".")),
    Mistake("a folder as trace", 5, ("--trace .: is a folder",), words=(*FILES[:4], "--trace", ".")),
    Mistake("configuration and script exchanged", 2, ("s looks like a mapping script", "exchanged?"),
            words=("--config", "s", "--script", "c.toml", "--trace", "t")),
    Mistake("script and trace exchanged", 3, ("t looks like a trace", "t:1: ", "    I  1000,4"),
            words=("--config", "c.toml", "--script", "t", "--trace", "s")),
    config("an empty configuration", "", "c.toml:1: there is no `row`", "each headed [[row]]"),
    edited("[[rows]]", "[[row]]", "[[rows]]", "c.toml:1: there is no `row`", "meant [[row]]?"),
    edited("[row]", "[[row]]", "[row]", "c.toml:1: ", "two brackets"),
    config("17 rows", "".join(ROW.replace('"a"', f'"r{at}"') for at in range(17)), "17 rows", "1 to 16 tables", "xlab sweep"),
    config("a key at the top", 'title = "mine"\n' + ROW, "c.toml:1: `title` is outside the rows"),
    edited("tableframes", "table_frames", "tableframes", "c.toml:1: row 1: the radix row has no `table_frames`",
           "c.toml:7: row 1: `tableframes` is there: misspelt table_frames?"),
    edited("mode left out", 'mode = "sv39"\n', "", "has no `mode`", '"sv39", "sv48" or "sv57"'),
    edited("Sv39", '"sv39"', '"Sv39"', 'c.toml:3: row 1: `mode` is "Sv39"', "meant sv39", '    mode = "Sv39"'),
    edited("radx", '"radix"', '"radx"', "c.toml:6: row 1: `table`", "meant radix?"),
    edited("a number in quotes", "1024", '"1024"', "c.toml:4: row 1: `frames`", "a text", "without quotes", "1 to 4194304"),
    edited("a number with an exponent", "1024", "1e3", "c.toml:4: ", "point or an exponent", "1 to 4194304"),
    edited("too many frames", "1024", "4194305", "c.toml:4: row 1: `frames` is 4194305; allowed: 1 to 4194304"),
    edited("a key of another table", "table_frames = 64", "table_frames = 64\nbuckets = 64",
           "c.toml:8: row 1: `buckets` is a key of hashed and clustered rows, and not of radix rows"),
    edited("an unknown key", "table_frames = 64", "table_frames = 64\nwalk_cache = [4, 4]",
           "c.toml:8: row 1: `walk_cache` is no key of a radix row", "meant walk_caches?"),
    edited("table_frames in a hashed row", "buckets = 64\nentries = 64", "table_frames = 64", "the hashed row has no `buckets`",
           "c.toml:7: row 1: `table_frames` is a key of radix rows", base=HASHED),
    edited("three walk caches in Sv39", "table_frames = 64", "table_frames = 64\nwalk_caches = [4, 4, 4]",
           "c.toml:8: row 1: `walk_caches` is [4, 4, 4]", "2 widths in sv39"),
    edited("a width that is none, in an array", "sets = 4, width = 8", "sets = 4, width = 24",
           "c.toml:9: row 1: array 2 of `tlb`: `width` is 24", "16 or 32", base=TLB),
    edited("4K in an array", '["4k"]', '["4K"]', "c.toml:8: row 1: array 1 of `tlb`: `orders` holds \"4K\"", "meant 4k?", base=TLB),
    edited("ways in an array", "width = 8", "ways = 8", "array 1 of `tlb`: it has no `width`", base=TLB),
    edited("a level that is left out", "level = 2", "level = 3", "c.toml:9: ", "behind level 1 array 2 has level 3", base=TLB),
    config("level 2 alone", ROW + 'tlb = [{ level = 2, sets = 1, width = 8, orders = ["4k"] }]\n', "c.toml:8: ",
           "the first array has level 2", "begin at 1"),
    edited("an order twice in a level", "level = 2", "level = 1", "c.toml:9: ", "arrays 1 and 2 of level 1 both hold 4k", base=TLB),
    edited("an order twice for data", 'level = 2, sets = 4', 'level = 1, serves = "data", sets = 4', "c.toml:9: ",
           "arrays 1 and 2 of level 1 both hold 4k for data", "for one kind of access", base=TLB),
    edited("serves that is no text", "sets = 4", "serves = 1, sets = 4", "c.toml:9: row 1: array 2 of `tlb`: `serves` is 1",
           "a text", '"all", "fetch" or "data"', base=TLB),
    edited("serves of another word", "sets = 4", 'serves = "fetches", sets = 4', '`serves` is "fetches"', "meant fetch?", base=TLB),
    edited("serve in an array", "sets = 4", 'serve = "data", sets = 4', "c.toml:9: ", "`serve` is none of its keys", "meant serves?",
           base=TLB),
    edited("too many entries", "sets = 4, width = 8", "sets = 8192, width = 8", "c.toml:9: row 1: array 2", "65536",
           "at most 16384", base=TLB),
    config("two rows of one name", ROW + ROW, "c.toml:9: row 2: row 1 has the name a too"),
    edited("a name with a space", '"a"', '"Skylake L2"', "c.toml:2: row 1: `name`", "a to z", "' '"),
    edited("a name of 19 letters", '"a"', '"abcdefghijklmnopqrs"', "c.toml:2: ", "19 characters"),
    edited("no quotes", '"sv39"', "sv39", "c.toml:3: TOML: ", 'mode = "sv39"'),
    edited("a key twice", "spaces = 1", "frames = 8\nspaces = 1", "c.toml:5: TOML: ", "twice"),
    edited("two keys on a line", "spaces = 1\n", "spaces = 1", "c.toml:5: TOML: ", "each key has a line of its own"),
    config("UTF-16", ROW.encode("utf-16"), "c.toml is UTF-16", "iconv"),
    config("a byte order mark", b"\xef\xbb\xbf\xff" + ROW.encode(), "byte order mark"),
    config("JSON", '{"row": []}\n', "looks like JSON"),
    script("three letters of permission", "map 0 1000 4k rwx\n", "s:1: `rwx` in the place of PERM", "    map 0 1000 4k rwx"),
    script("4K", "run rest\nmap 0 1000 4K rwxu\n", "s:2: `4K` in the place of ORDER", "small letters"),
    script("no space", "map 1000 4k rwxu\n", "s:1: too few or too many words", "map SPACE ADDR ORDER PERM [N]"),
    script("run all", "run all\n", "s:1: `all` in the place of COUNT", "the word rest"),
    script("run 0", "run 0\n", "s:1: `0`", "from 1 to 4294967295"),
    script("0x10 pages", "demand 0 0 0x10 4k rwxu\n", "s:1: `0x10` in the place of PAGES", "decimal"),
    script("mmap", "mmap 0 1000 4k rwxu\n", "s:1: `mmap` is no command", "meant map?"),
    script("fence 0 A", "fence 0 1000\n", "s:1: `fence 0` is no fence", "fence page SPACE ADDR"),
    script("a comment of C", "// maps\n", "s:1: ", "a comment begins with #"),
    script("a comment of C behind words", "fence all // now\n", "s:1: ", "a comment begins with #"),
    script("3 pages as 2m", "demand 0 0 3 2m rwxu\n", "s:1: ", "512 pages"),
    script("300 areas", "".join(f"demand 0 {at:x}000 1 4k rwxu\n" for at in range(300)), "s:257: ", "at most 256 areas",
           "demand 0 0 67108864 4k rwxu"),
    script("a script over 1 MiB", "# long\n" * 150000, "at most 1048576 bytes"),
    silent("a decimal address", "cause 3", "hexadecimal", script="map 0 4097 4k rwxu\n"),
    silent("an unaligned address", "cause 3", "multiple of 200000", script="map 0 1000 2m rwxu\n"),
    silent("space 1 of 1", "cause 1: no such space", "raise `spaces` (1; at most 64)", script="map 1 1000 4k rwxu\n"),
    silent("no script", "without --script nothing is mapped", "demand 0 0 67108864 4k rwxu", script=None),
    silent("an empty script", "s maps nothing", "demand 0 0 67108864 4k rwxu", script=""),
    silent("no trace", "no --trace is named", trace=None),
    silent("an empty trace", "t holds no record", trace=""),
    silent("a page that is not covered", "2 accesses found no page", script="map 0 1000 4k rwxu\n"),
    silent("denied", "2 accesses were denied", script="map 0 1000 4k r-xu\nmap 0 2000 4k --xu\n"),
    silent("not canonical", "1 addresses are not canonical in sv39", trace="I  1000,4\n L 4000000000,8\n"),
    silent("one frame", "cause 7: no free frames", "raise `frames` (1; at most 4194304)", config=ROW.replace("1024", "1")),
    silent("one frame of tables", "cause 8: no room in the table", "raise `table_frames` (1; at most 16384)",
           config=ROW.replace("64", "1")),
    silent("one entry", "cause 8", "raise `entries` (1; at most 1048576)", config=HASHED.replace("entries = 64", "entries = 1")),
    trace("gzip", gzip.compress(TRACE.encode()), "t is compressed: gzip -dc t |", "/dev/stdin"),
    trace("zstd", b"\x28\xb5\x2f\xfd\x24\x00\x01\x00\x00", "t is compressed: zstd -dc t |"),
    trace("the program's output", "I  1000,4\nhello\n", "t:2: no record", "    hello", "xlab records"),
    trace("a system call", "I  1000,4\nSYSCALL[1,1](  9) sys_mmap ( 0x0 ) --> [pre-success] Success(0x1)\n", "t:2: ",
          "--trace-syscalls"),
    trace("0x", " L 0x1000,4\n", "t:1: no address", "sed 's/0x//'"),
    trace("pinatrace", "0x401000: R 0x7ffe\n", "t:1: ", "pinatrace"),
    trace("a line that is cut", "I  1000,4\n L 20", "t:2: ", "    L 20", "it was cut"),
]  # fmt: skip


def write(folder: pathlib.Path, mistake: Mistake) -> None:
    files = {"c.toml": mistake.config, "s": mistake.script, "t": mistake.trace}
    for name, text in files.items():
        if text is not None:
            (folder / name).write_bytes(text if isinstance(text, bytes) else text.encode())


@pytest.mark.parametrize("mistake", MISTAKES, ids=lambda it: it.name)
def test_a_mistake_is_explained(mistake, program, tmp_path, monkeypatch, capfd):
    monkeypatch.chdir(tmp_path)
    monkeypatch.setenv("XLATE", program)
    write(tmp_path, mistake)
    status = cli.main(["explain", *mistake.words])
    said = capfd.readouterr().err
    assert status == mistake.status, said
    for part in mistake.says:
        assert part in said, said


def test_what_is_well_needs_no_word(program, tmp_path, monkeypatch, capfd):
    monkeypatch.chdir(tmp_path)
    monkeypatch.setenv("XLATE", program)
    for end in ("\n", "\r\n"):
        write(tmp_path, Mistake("none", 0, (), *(text.replace("\n", end) for text in (ROW, SCRIPT, TRACE))))
        assert cli.main(["explain", *FILES]) == 0
        out, said = capfd.readouterr()
        assert said == "" and " ok=3 " in out


def test_a_pipe_is_not_read_again(program, tmp_path):
    (tmp_path / "c.toml").write_text(ROW)
    asked = [TOP / "xlab", "explain", "--config", "c.toml", "--trace", "/dev/stdin"]
    ended = subprocess.run(asked, input="hello\n", capture_output=True, text=True, cwd=tmp_path)
    assert ended.returncode == 4 and "/dev/stdin:1: no record" in ended.stderr and "xlab records" in ended.stderr


def test_rows_of_json_are_read(program, tmp_path, monkeypatch, capfd):
    monkeypatch.chdir(tmp_path)
    monkeypatch.setenv("XLATE", program)
    write(tmp_path, Mistake("none", 0, (), config=ROW.replace("1024", "1")))
    assert cli.main(["explain", *FILES, "--json", "--answers"]) == 0
    assert "cause 7: no free frames" in capfd.readouterr().err


def test_words_with_an_equals_sign():
    read = words.read(["--config=c", "--trace=-"])
    assert (read.file("config"), read.file("trace"), read.loose) == ("c", "-", [])
