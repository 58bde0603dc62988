"""Numbers as a user writes and reads them."""

import argparse

UNITS = {"k": 10**3, "M": 10**6, "G": 10**9}


def number(text: str) -> int:
    """A number of at least 0, as a word of a command: `120000000`, `120M`, `120_000_000`. For
    argparse."""
    unit = UNITS.get(text[-1:], 1)
    digits = text[:-1] if unit > 1 else text
    try:
        value = round(float(digits) * unit) if unit > 1 else int(digits)
    except ValueError:
        value = -1
    if value < 0:
        raise argparse.ArgumentTypeError(
            f"{text} is no number: digits, with k, M or G behind them or not"
        )
    return value


def positive(text: str) -> int:
    """A number of at least 1, as a word of a command. For argparse."""
    value = number(text)
    if value == 0:
        raise argparse.ArgumentTypeError("it is at least 1")
    return value


def counted(count: int, thing: str) -> str:
    """A count and its thing, in the plural where it is not one: `1 record`, `8,059,108 records`."""
    return f"{count:,} {thing}" if count == 1 else f"{count:,} {thing}s"
