"""What a subcommand wants beside Python itself, and how to get it where it is missing."""

import importlib.util
import os
import shutil
import subprocess
import sys
from collections.abc import Iterable
from dataclasses import dataclass

from xlab.messages import Fault, Status

DEBIAN_PYTHON = "/usr/bin/python3"
AGAIN = "XLAB_PYTHON"  # set where xlab was begun anew by Debian's Python

# Debian's packages, where they have another name than the module or program
MODULE_PACKAGES = {"PIL": "python3-pil"}
PROGRAM_PACKAGES = {
    "qemu-riscv64": "qemu-user",
    "cc": "gcc",
    "sbatch": "slurm-client",
    "chromium": "chromium",
}


@dataclass(frozen=True)
class Needs:
    """Python modules and programs, by the names under which they are imported and run."""

    modules: tuple[str, ...] = ()
    programs: tuple[str, ...] = ()


def packages(missing: Needs) -> list[str]:
    """Debian's packages for what is missing, each once."""
    of_modules = [MODULE_PACKAGES.get(name, _of_module(name)) for name in missing.modules]
    of_programs = [PROGRAM_PACKAGES.get(name, name) for name in missing.programs]
    return list(dict.fromkeys([*of_modules, *of_programs]))


def _of_module(name: str) -> str:
    """Debian's package of a module that has no other name there."""
    return f"python3-{name.split('.')[0].replace('_', '-').lower()}"


def missing(needs: Needs) -> Needs:
    """Those of them that are not installed."""
    modules = tuple(name for name in needs.modules if not _has_module(name))
    programs = tuple(name for name in needs.programs if shutil.which(name) is None)
    return Needs(modules, programs)


def _has_module(name: str) -> bool:
    return importlib.util.find_spec(name) is not None


def _debian_has(modules: Iterable[str]) -> bool:
    """Whether Debian's Python has all these modules, and is another than this one."""
    if not os.access(DEBIAN_PYTHON, os.X_OK) or os.path.samefile(DEBIAN_PYTHON, sys.executable):
        return False
    found = f"any(util.find_spec(name) is None for name in {list(modules)!r})"
    asked = f"import sys; from importlib import util; sys.exit({found})"
    return subprocess.run([DEBIAN_PYTHON, "-c", asked], capture_output=True).returncode == 0


def begin_with(needs: Needs, argv: list[str]) -> None:
    """Returns where all is there. Where modules are missing here and Debian's Python has them,
    `xlab` begins anew by that, with the same words; raises a fault that names what is missing
    and its packages else."""
    lacking = missing(needs)
    if lacking.modules and AGAIN not in os.environ and _debian_has(needs.modules):
        package = os.path.dirname(os.path.dirname(os.path.abspath(__file__)))
        paths = [package, *filter(None, [os.environ.get("PYTHONPATH")])]
        environment = os.environ | {AGAIN: DEBIAN_PYTHON, "PYTHONPATH": os.pathsep.join(paths)}
        os.execve(DEBIAN_PYTHON, [DEBIAN_PYTHON, "-m", "xlab", *argv], environment)
    if lacking != Needs():
        raise Fault(said(lacking), Status.MISSING)


def said(lacking: Needs) -> str:
    """What is missing and how to get it."""
    names = [f"Python's {name}" for name in lacking.modules] + list(lacking.programs)
    verb = "is" if len(names) == 1 else "are"
    return (
        f"{' and '.join(names)} {verb} not installed: apt-get install {' '.join(packages(lacking))}"
    )
