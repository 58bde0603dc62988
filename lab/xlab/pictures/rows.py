"""A mark for each row and measure: for a handful of designs. Marks need no zero, so a log axis is honest."""

from typing import Any

from xlab import measures
from xlab.measures import Sample
from xlab.messages import Fault, Status
from xlab.pictures import style


def drawn(samples: list[Sample], names: list[str], title: str = "") -> Any:
    """The picture of these columns: a panel for each trace, a line for each row."""
    units = dict.fromkeys(measures.unit(name) for name in names)
    if len(units) > 1:
        raise Fault(f"one axis has one unit, and these columns have {', '.join(units)}", Status.USAGE)
    names = [name for name in names if any(_shows(it, name) for it in samples)] or names
    traces = list(dict.fromkeys(it.trace for it in samples))
    rows = list(dict.fromkeys(it.row["name"] for it in samples))
    figure, panels = style.panels(
        len(traces),
        3.4 + (3.6 if len(traces) == 1 else 2.6) * len(traces),
        1.2 + 0.23 * len(rows),
        layout="constrained",
    )
    values = [value for it in samples for value in _values(it, names)]
    far = style.log_axis(panels[0], "x", values)
    for axes, trace in zip(panels, traces):
        _panel(axes, [it for it in samples if it.trace == trace], rows, names, far)
        axes.set_title(trace if len(traces) > 1 else title, fontsize=9)
        axes.set_xlabel(_label(names, next(iter(units))) + (", log scale" if far else ""))
    panels[0].set_yticks(range(len(rows)), rows)
    panels[0].set_ylim(len(rows) - 0.5, -0.5)
    if len(names) > 1:
        style.legend(panels)
    return figure


def _label(names: list[str], unit: str) -> str:
    """The label of an axis: what its marks count, and their unit."""
    if unit.startswith("reads"):
        return unit
    heads = {_bare(name) for name in names}
    if len(heads) == 1:
        return _joined(heads.pop(), unit)
    return _joined("misses" if heads <= {"L1 misses", "L2 misses", "L3 misses", "walks"} else "number", unit)


def _joined(what: str, unit: str) -> str:
    return what if unit == "count" else f"{what} {unit}"


def _bare(name: str) -> str:
    """The heading of a column without its unit, which is at the axis."""
    head = measures.heading(name, None)
    return head.removesuffix(" PKA").removesuffix(" PKI").removesuffix(" rate %").replace("MPKI", "misses")


def _is_last(it: Sample, name: str) -> bool:
    """Whether a column has the misses of a row's last level, which are its walks."""
    return name[0] == "l" and name[1:2] == str(max(it.levels, default=0))


def _shows(it: Sample, name: str) -> bool:
    """Whether a row has a mark for this column: not where it is the walks again."""
    return not _is_last(it, name) and measures.value(name, it) is not None


def _values(it: Sample, names: list[str]) -> list[float]:
    found = [measures.value(name, it) for name in names]
    return [value for value in found if isinstance(value, int | float)]


def _panel(axes: Any, samples: list[Sample], rows: list[str], names: list[str], far: bool) -> None:
    """The marks of one trace, with the number beside the last one of a row."""
    shades = style.colours(len(names))
    zeros: dict[int, list[str]] = {}
    for at, name in enumerate(names):
        own = [it for it in samples if len(names) == 1 or _shows(it, name)]
        found = [(measures.value(name, it), rows.index(it.row["name"])) for it in own]
        known = [(value, y) for value, y in found if isinstance(value, int | float)]
        seen = [(value, y) for value, y in known if value > 0 or not far]
        axes.plot([x for x, _ in seen], [y for _, y in seen], style.MARKS[at], color=shades[at], ms=5 + at % 2,
                  label=_bare(name), clip_on=False)  # fmt: skip
        if len(names) == 1:
            _numbers(axes, known, far)
        else:
            for _, y in (it for it in known if it[0] == 0 and far):
                zeros.setdefault(y, []).append(_bare(name))
    _zeros(axes, zeros)


def _numbers(axes: Any, known: list[tuple[Any, int]], far: bool) -> None:
    for value, y in known:
        place = (value, y) if value > 0 or not far else (axes.get_xlim()[0], y)
        axes.annotate(_short(value), place, (6, 0), textcoords="offset points", va="center", fontsize=7)


def _zeros(axes: Any, zeros: dict[int, list[str]]) -> None:
    """Says what is 0 in each line at the edge of a log axis, where a mark has no place."""
    for y, heads in zeros.items():
        axes.annotate(
            f"{', '.join(heads)}: 0", (axes.get_xlim()[0], y), (2, 0), textcoords="offset points", va="center", fontsize=7
        )


def _short(value: float) -> str:
    return f"{value:,}" if isinstance(value, int) else f"{value:.3g}"
