"""Hit curves: of one pass, the misses of one TLB array of every width from 1 to 64."""

import pathlib
import sys
from collections.abc import Iterable
from dataclasses import dataclass
from typing import Any

from xlab import files, rowfiles
from xlab.formrows import Curve, curves
from xlab.messages import Fault
from xlab.pictures import style

WIDTHS = range(1, 65)


@dataclass(frozen=True)
class Drawn:
    """A curve of a trace, whose instructions may be known."""

    trace: str
    curve: Curve
    instructions: int | None = None

    def misses(self) -> list[float]:
        """Misses for each 1,000 instructions, or lookups where these aren't known, by width."""
        return [1000 * misses / (self.instructions or self.curve.lookups) for misses in self.curve.misses]


def read(words: Iterable[str]) -> dict[str, list[Curve]]:
    """The curves of all files, each a line of `xlate curve`, by trace."""
    found: dict[str, list[Curve]] = {}
    for word in words:
        label, file = rowfiles.labelled(word)
        text = sys.stdin.read() if file == files.STANDARD else pathlib.Path(file).read_text()
        found.setdefault(label or pathlib.Path(file).stem, []).extend(curves(text))
    if not all(found.values()) or not all(it.lookups for own in found.values() for it in own):
        raise Fault("no curves: lines of `xlate curve --sets N ..` are wanted, with one lookup or more")
    return found


def drawn(found: list[Drawn], title: str = "") -> Any:
    """A panel for each trace, a line for each row and number of sets."""
    traces = list(dict.fromkeys(it.trace for it in found))
    names = list(dict.fromkeys((it.curve.row, it.curve.sets) for it in found))
    figure, panels = style.panels(len(traces), 2 + 3.2 * len(traces), 3.4, layout="constrained")
    far = style.log_axis(panels[0], "y", [value for it in found for value in it.misses()])
    rows = {row for row, _ in names}
    for axes, trace in zip(panels, traces):
        for it in (it for it in found if it.trace == trace):
            at = names.index((it.curve.row, it.curve.sets))
            look = {"color": style.colours(len(names))[at], "ls": style.DASHES[at % len(style.DASHES)]}
            label = it.curve.array if len(rows) == 1 else f"{it.curve.row}, {it.curve.array}"
            axes.plot(WIDTHS, it.misses(), drawstyle="steps-post", label=label, **look)
        axes.set_title(title if title and len(traces) == 1 else trace, fontsize=9)
        axes.set_xlabel("width (entries of a set)")
        axes.set_xscale("log", base=2)
        axes.set_xticks([1, 2, 4, 8, 16, 32, 64], ["1", "2", "4", "8", "16", "32", "64"])
    unit = "instructions" if all(it.instructions for it in found) else "lookups"
    panels[0].set_ylabel(f"misses per 1,000 {unit}" + (", log scale" if far else ""))
    style.legend(panels)
    return figure
