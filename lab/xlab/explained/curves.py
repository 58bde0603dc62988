"""What hit curves keep silent about: that nothing was looked up, or nothing found."""

from xlab import formats
from xlab.formrows import Curve


def explain(curves: list[Curve], script: str, trace: str) -> list[str]:
    """What a user may want to know of curves that ended well."""
    if not any(it.lookups for it in curves):
        file = f"{trace} holds no record of a canonical address" if trace else "no --trace is named"
        return [f"no row looked anything up: {file}"]
    if not any(it.hits[-1] for it in curves):
        file = f"{script} maps none that is touched again" if script else "without --script nothing is mapped"
        return [f"no look-up hit at any width: {file}; a script of this line maps each page when it is first touched:",
                f"    {formats.EVERYTHING}",
                "what was refused or found no page is told by the rows: the same words without `curve` and --sets"]  # fmt: skip
    return []
