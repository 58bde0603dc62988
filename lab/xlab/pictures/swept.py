"""Pictures of a sweep: lines over the values of one key, or a map of all designs."""

import math
from typing import Any

from xlab import measures
from xlab.explained.said import nearest
from xlab.measures import Sample
from xlab.messages import Fault, Status
from xlab.pictures import style

MOST_LINES = 12
Point = tuple[Any, float]


def axis_of(samples: list[Sample], x: str | None) -> str:
    """The key of the axis: the one that is named, or the one that takes most values."""
    known = measures.set_keys(samples)
    if not known:
        raise Fault("these rows are of no sweep: `xlab sweep` writes rows with the values that it set", Status.USAGE)
    if x is None:
        return max(known, key=lambda key: len({str(it.row.get(key)) for it in samples}))
    if x not in known:
        raise Fault(f"--x {x}: no such key{nearest(x, known)}; the sweep set {', '.join(known)}", Status.USAGE)
    return x


def line_of(it: Sample, x: str, among: list[str]) -> str:
    """The design but for the axis: the template's row, and all else that was set."""
    parts = [str(it.row.get("template", ""))]
    return " ".join(parts + [f"{key.rsplit('.', 1)[-1]} {it.row[key]}" for key in among if key != x and key in it.row])


def lines(samples: list[Sample], name: str, x: str | None, title: str = "") -> Any:
    """A measure over the values of a key: a panel for each trace, a line for each design else alike."""
    over, known = axis_of(samples, x), measures.set_keys(samples)
    samples = [it for it in samples if over in it.row]
    designs = list(dict.fromkeys(line_of(it, over, known) for it in samples))
    if len(designs) > MOST_LINES:
        raise Fault(
            f"{len(designs)} lines are too many to tell apart: --rows PATTERN chooses, or `xlab plot map`", Status.USAGE
        )
    traces = list(dict.fromkeys(it.trace for it in samples))
    ticks = sorted({_place(it.row[over]) for it in samples}, key=_order)
    figure, panels = style.panels(len(traces), 2 + 2.7 * len(traces), 3.4, layout="constrained")
    values = [value for it in samples if isinstance(value := measures.value(name, it), int | float)]
    far = style.log_axis(panels[0], "y", values)
    for axes, trace in zip(panels, traces):
        here = [it for it in samples if it.trace == trace]
        for at, design in enumerate(designs):
            own = [it for it in here if line_of(it, over, known) == design]
            _line(axes, sorted(((_place(it.row[over]), measures.value(name, it)) for it in own), key=lambda p: _order(p[0])),
                  ticks, at, len(designs), design)  # fmt: skip
        axes.set_title(trace if len(traces) > 1 else title or trace, fontsize=9)
        axes.set_xticks(range(len(ticks)), [str(tick) for tick in ticks], rotation=0 if len(str(ticks)) < 60 else 45)
        axes.set_xlabel(over)
    panels[0].set_ylabel(f"{measures.spoken(name)}{', log scale' if far else ''}")
    style.legend(panels)
    return figure


def _place(value: Any) -> Any:
    return value if isinstance(value, int | float | str) else str(value)


def _order(value: Any) -> tuple[int, Any]:
    return (0, value) if isinstance(value, int | float) else (1, str(value))


def _line(axes: Any, points: list[Any], ticks: list[Any], at: int, count: int, label: str) -> None:
    seen = [(ticks.index(x), y) for x, y in points if isinstance(y, int | float)]
    look = {"color": style.colours(count)[at], "marker": style.MARKS[at % len(style.MARKS)], "ms": 4.5}
    axes.plot([x for x, _ in seen], [y for _, y in seen], style.DASHES[at % len(style.DASHES)], label=label, **look)


def heat(samples: list[Sample], name: str, x: str | None) -> Any:
    """A map for each trace: a line for each design else alike, a column for each value; one scale for all."""
    import matplotlib

    over, known = axis_of(samples, x), measures.set_keys(samples)
    samples = [it for it in samples if over in it.row]
    traces = list(dict.fromkeys(it.trace for it in samples))
    designs = list(dict.fromkeys(line_of(it, over, known) for it in samples))
    columns = sorted({_place(it.row[over]) for it in samples}, key=_order)
    values = {(it.trace, line_of(it, over, known), _place(it.row[over])): measures.value(name, it) for it in samples}
    positive = [value for value in values.values() if isinstance(value, int | float) and value > 0]
    scale = matplotlib.colors.LogNorm(min(positive, default=1), max(positive, default=1) * 1.0001)
    width, height = 2.6 + len(traces) * (0.4 + 0.46 * len(columns)), max(2.9, 1.1 + 0.22 * len(designs))
    figure, panels = style.panels(len(traces), width, height, layout="constrained")
    for axes, trace in zip(panels, traces):
        cells = [[values.get((trace, design, column)) for column in columns] for design in designs]
        shown = _cells(axes, cells, scale)
        axes.set_title(trace, fontsize=9)
        axes.set_xticks(range(len(columns)), [str(column) for column in columns])
        axes.set_yticks(range(len(designs)), designs)
        axes.set_xlabel(over)
    bar = figure.colorbar(shown, ax=list(panels), label=f"{measures.spoken(name)}, log scale", pad=0.02)
    style.plain_ticks(bar.ax.yaxis, scale.vmax / scale.vmin)
    return figure


def _cells(axes: Any, cells: list[list[Any]], scale: Any) -> Any:
    """A map with its numbers; dark is little."""
    plain = [[value if isinstance(value, int | float) and value > 0 else math.nan for value in line] for line in cells]
    shown = axes.imshow(plain, aspect="auto", cmap="cividis", norm=scale)
    axes.grid(False)
    for y, line in enumerate(cells):
        for x, value in enumerate(line):
            if isinstance(value, int | float):
                ink = "white" if value > 0 and scale(value) < 0.55 else "black"
                axes.text(
                    x,
                    y,
                    f"{value:.2g}" if value < 100 else f"{value:,.0f}",
                    ha="center",
                    va="center",
                    fontsize=6.5,
                    color=ink,
                )
    return shown
