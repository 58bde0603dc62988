"""What all pictures share: colours, marks, panels, and the file."""

import io
import pathlib
from collections.abc import Sequence
from typing import Any

from xlab import files
from xlab.messages import Fault, Status

FORMS = (".png", ".svg", ".pdf")
MARKS = "osD^vPX*hd<>"
DASHES = ("-", "--", "-.", ":")
SETTINGS = {
    "font.size": 9,
    "axes.spines.top": False,
    "axes.spines.right": False,
    "axes.grid": True,
    "grid.alpha": 0.3,
    "grid.linewidth": 0.6,
    "legend.frameon": False,
    "legend.fontsize": 8,
    "svg.hashsalt": "xlab",
    "svg.fonttype": "none",
}


def pyplot() -> Any:
    """Matplotlib without a screen, in this style."""
    import matplotlib

    matplotlib.use("Agg")
    from matplotlib import pyplot as found

    found.rcParams.update(SETTINGS)
    return found


def colours(count: int) -> list[Any]:
    """So many colours, from dark to light: their order can be seen in grey."""
    import matplotlib

    scale = matplotlib.colormaps["viridis"]
    return [scale(0.85 * at / max(1, count - 1)) for at in range(count)]


def panels(count: int, width: float, height: float, **more: Any) -> tuple[Any, Sequence[Any]]:
    """A figure with so many panels side by side, and these; all have the same scales."""
    figure, axes = pyplot().subplots(1, count, figsize=(width, height), sharex=True, sharey=True, squeeze=False, **more)
    return figure, axes[0]


def log_axis(axes: Any, which: str, values: Sequence[float]) -> bool:
    """Makes an axis logarithmic where its values differ much, and says so of it; else it begins at 0."""
    positive = [value for value in values if value > 0]
    far = bool(positive) and max(positive) > 8 * min(positive)
    if far:
        getattr(axes, f"set_{which}scale")("log")
        getattr(axes, f"set_{which}lim")(min(positive) / 1.6, max(positive) * 1.8)
        plain_ticks(getattr(axes, f"{which}axis"), max(positive) / min(positive))
    else:
        getattr(axes, f"set_{which}lim")(0, 1.1 * max(positive, default=1))
    return far


def plain_ticks(axis: Any, span: float) -> None:
    """Numbers in place of powers; where there are few decades, also at 2 and 5."""
    from matplotlib import ticker

    axis.set_major_locator(ticker.LogLocator(10, subs=(1, 2, 5) if span < 300 else (1,)))
    axis.set_major_formatter(ticker.StrMethodFormatter("{x:,g}"))
    axis.set_minor_formatter(ticker.NullFormatter())


def legend(panels: Sequence[Any]) -> None:
    """The legend of all panels, to their right."""
    panels[-1].legend(*panels[0].get_legend_handles_labels(), loc="upper left", bbox_to_anchor=(1.02, 1.0))


def text_of(figure: Any, form: str) -> bytes:
    """The bytes of a picture; the same rows give the same bytes."""
    made = io.BytesIO()
    dateless = {".png": {"Software": None}, ".svg": {"Date": None}, ".pdf": {"CreationDate": None}}[form]
    figure.savefig(made, format=form[1:], dpi=130, bbox_inches="tight", metadata=dateless)
    pyplot().close(figure)
    return made.getvalue()


def write(figure: Any, out: str) -> None:
    """The file of a picture, whole or not at all."""
    form = pathlib.Path(out).suffix
    if form not in FORMS:
        raise Fault(f"--output {out}: its ending chooses the form: {', '.join(FORMS)}", Status.USAGE)
    data = text_of(figure, form)
    with files.written(out) as file:
        file.write(data)
