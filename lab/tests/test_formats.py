"""The examples of docs/FORMATS.md: each edit of its row is answered with the message beside it."""

import re
import subprocess

import pytest
from conftest import TOP

TEXT = (TOP / "docs" / "FORMATS.md").read_text()
ROW = re.search(r"```\n(\[\[row\]\]\n.*?)```", TEXT, re.S)[1]
EXAMPLES = re.findall(r"^\| `(.*?)` \| (.*?) ?\| `(row \d+ key \d+ rule \d)` \|$", TEXT, re.M)


def test_there_is_an_example_of_each_rule():
    assert {message[-1] for _, _, message in EXAMPLES} == set("12345")


@pytest.mark.parametrize("old, new, message", EXAMPLES)
def test_an_example_of_a_rule(old, new, message, program, tmp_path):
    assert old in ROW
    text = ROW.replace(old, "\n".join(re.findall("`(.*?)`", new)), 1)
    (tmp_path / "c.toml").write_text(text)
    ended = subprocess.run([program, "--config", tmp_path / "c.toml"], capture_output=True, text=True)
    assert (ended.returncode, ended.stderr) == (2, f"xlate: configuration {message}\n")
