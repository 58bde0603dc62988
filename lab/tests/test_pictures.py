"""`xlab plot`, `xlab report` and `xlab pages`."""

import base64
import html.parser
import json
import re
import xml.etree.ElementTree

import pytest
from conftest import EXAMPLES
from test_table import BARE, TWO

from xlab.messages import Status

pytest.importorskip("matplotlib")
SWEPT = [TWO | {"name": f"r-{sets}-{kind}", "template": kind, "tlb.2.sets": sets, "trace": trace, "instructions": 4000,
                "walks": 10, "reads": 25 * sets} for trace in ("x", "y") for kind in ("a", "b") for sets in (4, 16)]  # fmt: skip
CURVE = "r curve sets=2 lookups=1000 hits=" + ",".join(str(10 * width) for width in range(1, 65)) + "\n"


@pytest.fixture
def files(tmp_path):
    """Files of rows: of a run, of a sweep, of a curve."""
    (tmp_path / "rows.json").write_text(json.dumps([BARE, TWO]))
    (tmp_path / "swept.json").write_text(json.dumps(SWEPT))
    (tmp_path / "curve").write_text(CURVE)
    (tmp_path / "two").write_text(CURVE + CURVE.replace("r curve sets=2", "s curve sets=1"))
    return tmp_path


def texts(svg):
    return [it.text for it in xml.etree.ElementTree.fromstring(svg).iter("{http://www.w3.org/2000/svg}text")]


@pytest.mark.parametrize(
    "words, says",
    [
        (("rows", "rows.json"), ["misses per 1,000 accesses, log scale", "L1 misses", "walks", "bare", "two"]),
        (
            ("rows", "rows.json", "--columns", "reads-access", "--title", "mine"),
            ["reads per access, log scale", "mine"],
        ),
        (
            ("sweep", "swept.json", "--columns", "rpki"),
            ["reads per 1,000 instructions", "tlb.2.sets", "x", "y", "a", "b", "16"],
        ),
        (
            ("map", "swept.json", "--columns", "rpki"),
            ["reads per 1,000 instructions, log scale", "tlb.2.sets", "x", "y", "25"],
        ),
        (("curve", "curve"), ["misses per 1,000 lookups", "width (entries of a set)", "2 sets"]),
        (
            ("curve", "my=two", "--instructions", "my=4000", "--title", "mine"),
            ["misses per 1,000 instructions", "r, 2 sets", "s, 1 set", "mine"],
        ),
    ],
)
def test_what_a_picture_says(words, says, files, xlab):
    ended = xlab("plot", *words, "--output", "a.svg")
    assert ended.returncode == 0, ended.stderr
    found = texts((files / "a.svg").read_text())
    assert not [it for it in says if it not in found], found


def test_the_same_rows_give_the_same_bytes(files, xlab):
    for name in ("a.png", "b.png"):
        xlab("plot", "rows", "rows.json", "--output", name)
    assert (files / "a.png").read_bytes() == (files / "b.png").read_bytes()


@pytest.mark.parametrize(
    "words, says",
    [
        (("rows", "rows.json", "--output", "a.gif"), ".png, .svg, .pdf"),
        (("rows", "rows.json", "--columns", "walks,mpka", "--output", "a.png"), "one axis has one unit"),
        (("sweep", "rows.json", "--output", "a.png"), "of no sweep"),
        (("sweep", "swept.json", "--x", "tlb.2.set", "--output", "a.png"), "meant tlb.2.sets?"),
        (("curve", "rows.json", "--output", "a.png"), "no curves"),
        (("rows", "curve", "--output", "a.png"), "xlab plot curve"),
        (("rows", "rows.json", "--output", "none/a.png"), "none"),
    ],
)
def test_faults(words, says, files, xlab):
    ended = xlab("plot", *words)
    assert ended.returncode >= 64 and says in ended.stderr and "Traceback" not in ended.stderr


class Page(html.parser.HTMLParser):
    """The tags of a page, and what lies outside of it."""

    def __init__(self, text):
        super().__init__()
        self.tags, self.links = [], []
        self.feed(text)

    def handle_starttag(self, tag, attributes):
        self.tags.append(tag)
        self.links += [value for name, value in attributes if name in ("src", "href") and not value.startswith("data:")]


def test_a_report_holds_all_that_it_needs(files, xlab):
    pytest.importorskip("jinja2")
    (files / "c.toml").write_text('# <rows>\n[[row]]\nname = "two"\ntlb = [{level = 1}, {level = 1}, {level = 2}]\n')
    ended = xlab("report", "rows.json", "--config", "c.toml", "--title", "Two & bare", "--question", "Is it < 3?\n\nYes.",
                 "--output", "study.html")  # fmt: skip
    assert ended.returncode == 0, ended.stderr
    text = (files / "study.html").read_text()
    page = Page(text)
    assert page.links == [] and page.tags.count("img") == 1 and page.tags.count("tr") >= 4
    assert "<title>Two &amp; bare</title>" in text and "Is it &lt; 3?" in text and "# &lt;rows&gt;" in text
    assert len(set(re.findall(r"\b[0-9a-f]{64}\b", text))) >= 2  # of the rows and the configuration
    svg = base64.b64decode(re.search(r'base64,([^"]+)"', text)[1])
    assert "misses per 1,000 accesses, log scale" in texts(svg)


PAGE = "# Page\n\n<!-- figures: printf 'a\\nb' -->\n\n{}\n\n<!-- end -->\n"


def test_pages_are_compared_and_written(xlab, tmp_path):
    (tmp_path / "p.md").write_text(PAGE.format("a\nc"))
    ended = xlab("pages", "p.md")
    assert ended.returncode == Status.DATA and "-c\n+b" in ended.stdout and "1 of 1 pages" in ended.stderr
    assert (tmp_path / "p.md").read_text() == PAGE.format("a\nc")
    assert xlab("pages", "--write", "p.md").returncode == 0
    assert (tmp_path / "p.md").read_text() == PAGE.format("a\nb")
    assert xlab("pages", "p.md").returncode == 0


def test_a_page_whose_command_fails(xlab, tmp_path):
    (tmp_path / "p.md").write_text("<!-- figures: echo why >&2; false -->\n<!-- end -->\n")
    ended = xlab("pages", "p.md")
    assert ended.returncode == Status.RUN and "why" in ended.stderr


def test_the_figures_of_the_examples_are_what_the_program_prints(program, xlab):
    pytest.importorskip("tabulate")
    ended = xlab("pages", *sorted((EXAMPLES / "compare").glob("*.md")))
    assert ended.returncode == 0, ended.stdout
