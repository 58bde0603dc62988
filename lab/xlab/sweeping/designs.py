"""The designs of a sweep: each row of a template with each combination of the values of all lists."""

import copy
import itertools
import re
import tomllib
from collections.abc import Iterator
from dataclasses import dataclass
from typing import Any

from xlab import formats
from xlab.explained.said import nearest
from xlab.messages import Fault, Status

Table = dict[str, Any]
LEVEL = re.compile(r"tlb\.l([1-3])(?:\.(\w+))?")
ARRAY = re.compile(r"tlb\.([1-6])(?:\.(\w+))?")
NAME = re.compile(r"[a-z0-9_-]{1,16}")
NONE = "none"  # a value that takes the key away


@dataclass(frozen=True, eq=False)
class Axis:
    """A key of the rows, or of the row of one name, and the values that it takes."""

    key: str
    values: tuple[Any, ...]
    row: str | None = None


@dataclass(frozen=True)
class Design:
    """A row, the template's row that it is of, and the values that were set."""

    row: Table
    template: str
    values: dict[str, Any]


def axis(word: str) -> Axis:
    """The axis of a word `[ROW:]KEY=VALUE,VALUE..`; a value is TOML, or a text without quotes."""
    place, equals, values = word.partition("=")
    row, colon, key = place.partition(":") if ":" in place else ("", "", place)
    if not equals or not values:
        raise Fault(f"--set {word}: KEY=VALUE,VALUE.. is wanted, as tlb.2.sets=32,64", Status.USAGE)
    _known(key)
    return Axis(key, tuple(_value(part) for part in _parts(values)), row if colon else None)


def _known(key: str) -> None:
    place = LEVEL.fullmatch(key) or ARRAY.fullmatch(key)
    inner = place[2] if place else None
    if place and inner is not None and inner not in formats.ARRAY_KEYS:
        known = formats.listed(tuple(formats.ARRAY_KEYS))
        raise Fault(
            f"--set {key}: {inner} is no key of an array{nearest(inner, formats.ARRAY_KEYS)}: {known}", Status.USAGE
        )
    names = [it.name for it in formats.KEYS.values()]
    if not place and key not in names:
        forms = "a key of a row, tlb.N.KEY (array N) or tlb.lN.KEY (the arrays of level N) is wanted"
        raise Fault(f"--set {key}: no such key{nearest(key, names)}; {forms}", Status.USAGE)


def _parts(text: str) -> Iterator[str]:
    """The parts of a text between commas that are in no brackets, braces or quotes."""
    depth, start = 0, 0
    for token in re.finditer(r'"[^"]*"|[\[{]|[\]}]|,', text):
        depth += {"[": 1, "{": 1, "]": -1, "}": -1}.get(token[0], 0)
        if token[0] == "," and depth == 0:
            yield text[start : token.start()].strip()
            start = token.end()
    yield text[start:].strip()


def _value(text: str) -> Any:
    try:
        return tomllib.loads(f"v = {text}")["v"]
    except tomllib.TOMLDecodeError:
        if re.fullmatch(r"[\w-]+", text):
            return text
        raise Fault(f"--set: {text or 'an empty text'} is no value", Status.USAGE) from None


def designs(template: list[Table], axes: list[Axis]) -> list[Design]:
    """All designs. An axis whose key a row's table does not have, or whose array it lacks, is none of that row's."""
    found: list[Design] = []
    used: set[Axis] = set()
    for row in template:
        own = [it for it in axes if it.row in (None, row.get("name")) and _has(row, it.key)]
        used |= set(own)
        for values in itertools.product(*(it.values for it in own)):
            made = copy.deepcopy(row)
            for it, value in zip(own, values):
                _set(made, it.key, value)
            found.append(Design(made, str(row.get("name", "row")), {it.key: value for it, value in zip(own, values)}))
    for it in axes:
        if it not in used:
            where = f"the template has no row {it.row} with" if it.row else "no row of the template has"
            raise Fault(f"--set {it.key}: {where} such a key or array", Status.USAGE)
    return _named(found)


def _has(row: Table, key: str) -> bool:
    """Whether a row may have this key."""
    if ARRAY.fullmatch(key) or LEVEL.fullmatch(key):
        return bool(_arrays(row, key)) or bool((place := ARRAY.fullmatch(key)) and place[2] is None)
    return key in formats.keys_of(row.get("table")) or key == "table"


def _arrays(row: Table, key: str) -> list[Table]:
    """The arrays that a key speaks of."""
    arrays: list[Table] = row.get("tlb", [])
    if place := LEVEL.fullmatch(key):
        return [array for array in arrays if array.get("level") == int(place[1])]
    number = int(ARRAY.fullmatch(key)[1])  # type: ignore[index]
    return arrays[number - 1 : number]


def _set(row: Table, key: str, value: Any) -> None:
    """Sets a key of a row, or takes it away."""
    place = LEVEL.fullmatch(key) or ARRAY.fullmatch(key)
    if place is None:
        _put(row, key, value)
    elif place[2] is not None:
        for array in _arrays(row, key):
            _put(array, place[2], value)
    else:
        _put_arrays(row, _arrays(row, key), value)


def _put(table: Table, key: str, value: Any) -> None:
    if value == NONE:
        table.pop(key, None)
    else:
        table[key] = copy.deepcopy(value)


def _put_arrays(row: Table, old: list[Table], value: Any) -> None:
    """Puts one array, or none, in the place of others."""
    arrays: list[Table] = row.setdefault("tlb", [])
    at = next((at for at, array in enumerate(arrays) if any(array is it for it in old)), len(arrays))
    kept = [array for array in arrays if not any(array is it for it in old)]
    row["tlb"] = kept if value == NONE else [*kept[:at], copy.deepcopy(value), *kept[at:]]


def _named(found: list[Design]) -> list[Design]:
    """Gives each design a name of its own: the template's row and the values, or a number where that is too long."""
    spoken = [_spoken(it) for it in found]
    if len(set(spoken)) != len(spoken) or not all(map(NAME.fullmatch, spoken)):
        spoken = [f"{re.sub('[^a-z0-9_-]', '', it.template.lower())[:11]}-{at}" for at, it in enumerate(found, 1)]
    for it, name in zip(found, spoken):
        it.row["name"] = name
    return found


def _spoken(it: Design) -> str:
    parts = [it.template, *(str(value) for value in it.values.values())]
    return "-".join(re.sub("[^a-z0-9_]", "", part.lower()) if part != it.template else part for part in parts)
