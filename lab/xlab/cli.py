"""The words of `xlab`: one parser from all the subcommands, which also makes help, man pages and
completions."""

import argparse
import contextlib
import difflib
import functools
import importlib
import os
import pkgutil
import re
import signal
import sys
import traceback
from types import ModuleType
from typing import NoReturn

from xlab import commands, files, needs
from xlab.helppage import Example, paragraphs, shown
from xlab.messages import Fault, Status
from xlab.needs import Needs

COMPLETED = "_ARGCOMPLETE"  # set by a shell that asks for completions
DEBUG = "XLAB_DEBUG"  # shows the traceback of a fault of xlab's own
ABOUT = "What an architect needs around xlate: traces, mapping scripts, sweeps, tables, pictures and reports."
FIRST = Example(
    "xlab trace ls /usr/lib | ./xlate --config examples/compare/tables.toml --script examples/any.script"
    " --trace /dev/stdin",
    "the rows of a real program, with no file at all",
)


class Parser(argparse.ArgumentParser):
    """A parser whose errors end with `Status.USAGE` and name the nearest word."""

    def error(self, message: str) -> NoReturn:
        """Says the message and where help is, and ends."""
        print(
            f"{self.prog}: {message}{self._meant(message)}; `{self.prog} --help` shows its words",
            file=sys.stderr,
        )
        sys.exit(Status.USAGE)

    def _meant(self, message: str) -> str:
        known = [
            word
            for action in self._actions
            for word in (*action.option_strings, *(action.choices or ()))
        ]
        said = re.findall(r"invalid choice: '([^']*)'", message)
        said = said or message.partition("unrecognized arguments: ")[2].split()
        for word in [it for it in said if it not in known]:
            near = difflib.get_close_matches(word, map(str, known), 1)
            if near:
                return f" (meant {near[0]}?)"
        return ""


def subcommands() -> dict[str, ModuleType]:
    """The modules of the package `commands`, by name."""
    names = [found.name for found in pkgutil.iter_modules(commands.__path__)]
    return {name: importlib.import_module(f"xlab.commands.{name}") for name in names}


def parser() -> Parser:
    """The parser of all words."""
    form = functools.partial(argparse.RawDescriptionHelpFormatter, max_help_position=26)
    top = Parser("xlab", description=ABOUT, epilog=shown((FIRST,)), formatter_class=form)
    places = top.add_subparsers(
        title="subcommands", metavar="SUBCOMMAND", dest="subcommand", required=True
    )
    for name, module in subcommands().items():
        made = places.add_parser(
            name,
            help=module.SUMMARY,
            description=paragraphs(module.DESCRIPTION),
            epilog=shown(module.EXAMPLES),
            formatter_class=form,
        )
        module.add_parser(made)
        made.set_defaults(
            run=module.run,
            needs=module.NEEDS,
            passes_on=getattr(module, "PASSES_ON", False),
            writes_trace=getattr(module, "WRITES_TRACE", False),
        )
    return top


def main(argv: list[str]) -> int:
    """Runs the subcommand that the words name, and gives the status; what goes wrong is a
    message, and no traceback."""
    top = parser()
    if COMPLETED in os.environ:
        complete(top, argv)
    words = read(top, argv)
    try:
        needs.begin_with(words.needs, argv)
        status = int(words.run(words))
        sys.stdout.flush()
        return status
    except Exception as fault:
        return told(fault, f"xlab {words.subcommand}", into_xlate(words))
    except KeyboardInterrupt:
        print(f"xlab {words.subcommand}: interrupted", file=sys.stderr)
        return Status.INTERRUPTED


def read(top: Parser, argv: list[str]) -> argparse.Namespace:
    """The words; of a subcommand that passes its words on, those that are no word of its own
    stand in front."""
    words, rest = top.parse_known_args(argv)
    if words.passes_on:
        words.words = rest + words.words
    elif rest:
        top.error(f"unrecognized arguments: {' '.join(rest)}")
    return words


def complete(top: Parser, argv: list[str]) -> None:
    """Answers a shell that asks for completions, and ends."""
    needs.begin_with(Needs(modules=("argcomplete",)), argv)
    importlib.import_module("argcomplete").autocomplete(top)


def into_xlate(words: argparse.Namespace) -> bool:
    """Whether a trace goes to standard output, and no terminal has that: mostly into xlate."""
    return words.writes_trace and words.output == files.STANDARD and not sys.stdout.isatty()


def told(fault: Exception, who: str, spoils: bool = False) -> int:
    """Says what went wrong on standard error, and gives its status. A trace on standard output
    ends with the message, which is no line of a trace: so xlate, which can't see how its writer
    ends, ends with status 4 in place of the rows of no trace, or of half of one."""
    match fault:
        case BrokenPipeError():
            _end_as_a_pipe_ends()
        case Fault():
            message, status = str(fault), fault.status
        case FileNotFoundError() | PermissionError() | IsADirectoryError() | NotADirectoryError():
            message, status = f"{fault.filename}: {fault.strerror}", Status.NO_INPUT
        case OSError():
            message, status = (
                f"{fault.filename or 'input or output'}: {fault.strerror or fault}",
                Status.RUN,
            )
        case _:
            message = f"a fault of its own: {type(fault).__name__}: {fault} ({DEBUG}=1 shows where)"
            status = Status.INTERNAL
    if DEBUG in os.environ:
        traceback.print_exception(fault)
    print(f"{who}: {message}", file=sys.stderr)
    if spoils:
        with contextlib.suppress(BrokenPipeError):
            sys.stdout.flush()
            print(f"{who}: {message}", flush=True)
    return status


def _end_as_a_pipe_ends() -> NoReturn:
    """Ends by the signal by which a reader's end of a pipe ends its writers: `xlab .. | head`
    says nothing."""
    signal.signal(signal.SIGPIPE, signal.SIG_DFL)
    os.kill(os.getpid(), signal.SIGPIPE)
    sys.exit(128 + signal.SIGPIPE)
