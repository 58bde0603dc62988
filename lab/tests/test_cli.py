"""All subcommands alike: help with an example, statuses, messages without a traceback."""

import shutil
import subprocess
import sys

import pytest
from conftest import TOP

from xlab import cli, needs
from xlab.commands import man
from xlab.messages import Status

NAMES = list(cli.subcommands())


@pytest.mark.parametrize("name", NAMES)
def test_help_has_an_example(name, xlab):
    ended = xlab(name, "--help")
    assert ended.returncode == 0 and ended.stderr == ""
    assert (
        "examples:\n  xlab" in ended.stdout or "xlab " + name in ended.stdout.split("examples:")[1]
    )


@pytest.mark.parametrize(
    "name", [name for name in NAMES if name != "explain"]
)  # it hands unknown words on
def test_an_unknown_word_is_a_usage_fault(name, xlab):
    ended = xlab(name, "--no-such-word")
    assert ended.returncode == Status.USAGE
    assert "Traceback" not in ended.stderr and "--help" in ended.stderr


def test_the_nearest_subcommand_is_named(xlab):
    ended = xlab("vrsion")
    assert ended.returncode == Status.USAGE and "meant version?" in ended.stderr


def test_a_word_near_to_none_has_no_hint(xlab):
    ended = xlab("foo")
    assert ended.returncode == Status.USAGE and "meant" not in ended.stderr


def test_no_words_are_a_usage_fault(xlab):
    assert xlab().returncode == Status.USAGE


def test_version_says_commit_and_program(xlab):
    ended = xlab("version")
    assert ended.returncode == 0
    assert {line.split(":")[0] for line in ended.stdout.splitlines()} >= {
        "xlab version",
        "xlab commit",
        "program",
    }


def test_what_is_missing_is_named_with_its_package():
    lacking = needs.missing(needs.Needs(modules=("no_such_module",), programs=("no-such-program",)))
    assert needs.said(lacking) == (
        "Python's no_such_module and no-such-program are not installed: "
        "apt-get install python3-no-such-module no-such-program"
    )


@pytest.mark.parametrize("shell", ["bash", "zsh", "fish"])
def test_completions_name_the_program(shell, xlab):
    pytest.importorskip("argcomplete")
    assert "xlab" in xlab("completions", shell).stdout


def test_completions_come_from_the_parser(tmp_path):
    pytest.importorskip("argcomplete")
    asked = "_ARGCOMPLETE=1 COMP_LINE='xlab vers' COMP_POINT=9 %s %s 8>&1 9>/dev/null"
    ended = subprocess.run(
        asked % (sys.executable, TOP / "xlab"), shell=True, capture_output=True, text=True
    )
    assert ended.stdout.strip() == "version"


def test_man_pages_come_from_the_parser(tmp_path):
    if not shutil.which("help2man"):
        pytest.skip("help2man is not installed")
    man.page("records", "keep whole records", tmp_path)
    text = (tmp_path / "xlab-records.1").read_text()
    assert (
        "records \\- keep whole records" in text and ".SH SYNOPSIS" in text and "\\-\\-skip" in text
    )
