"""`xlab completions`: what a shell needs to complete the words of `xlab`."""

import argparse

from xlab.helppage import Example
from xlab.needs import Needs

SUMMARY = "print a shell's completions of these words"
DESCRIPTION = """
Prints what bash, zsh or fish needs to complete subcommands, options and files. The shell asks xlab
itself, so that the completions are always those of its parser.
"""
EXAMPLES = (
    Example('eval "$(xlab completions bash)"', "in ~/.bashrc; zsh takes its own in the same way"),
    Example("xlab completions fish > ~/.config/fish/completions/xlab.fish", "for fish"),
)
NEEDS = Needs(modules=("argcomplete",))


def add_parser(parser: argparse.ArgumentParser) -> None:
    """Its word is the shell."""
    parser.add_argument("shell", choices=("bash", "zsh", "fish"))


def run(words: argparse.Namespace) -> int:
    """Prints the shell's code."""
    import argcomplete

    code: str = argcomplete.shellcode(["xlab"], shell="fish" if words.shell == "fish" else "bash")
    # zsh takes bash's completions by its own bashcompinit
    head = "autoload -U +X compinit && compinit\nautoload -U +X bashcompinit && bashcompinit\n"
    print((head if words.shell == "zsh" else "") + code)
    return 0
