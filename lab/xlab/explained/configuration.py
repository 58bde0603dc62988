"""What is wrong with a configuration (status 2): the line, what is written there, what is allowed."""

import itertools
import pathlib
import re
import tomllib
from typing import Any

from xlab import formats
from xlab.explained.places import Places
from xlab.explained.said import Content, exchanged, nearest, nearest_number, shown
from xlab.formats import KEYS, Key, Rule, Type

MESSAGE = re.compile(r"configuration row (\d+) key (\d+) rule (\d)")
MOST_BYTES = 65536
Table = dict[str, Any]


def explain(file: str, message: str) -> list[str]:
    """What the message means, for the configuration in this file."""
    if not pathlib.Path(file).is_file():
        return [f"{file} can't be read again; docs/FORMATS.md, Configuration, has the keys and rules by number"]
    raw = pathlib.Path(file).read_bytes()
    if "too long" in message:
        return [f"{file} has {len(raw)} bytes, and a configuration at most {MOST_BYTES}; `xlab sweep` makes many files"]
    found = MESSAGE.search(message)
    if found is None:
        return exchanged(file, Content.CONFIGURATION) + _not_toml(file, raw)
    row, key, rule = int(found[1]), int(found[2]), Rule(int(found[3]))
    text = raw.decode("utf-8", "replace")
    document, places = tomllib.loads(text), Places(file, text)
    if row == 0:
        return _top(document, places, rule)
    return _row(document["row"], row, key, rule, places)


def _not_toml(file: str, raw: bytes) -> list[str]:
    """What Python's reader of TOML says, with its line; or what else may be the matter."""
    if raw.startswith((b"\xff\xfe", b"\xfe\xff")):
        return [f"{file} is UTF-16, and UTF-8 is wanted: iconv -f UTF-16 -t UTF-8 {file} > new.toml"]
    if raw.startswith(b"\xef\xbb\xbf"):
        return [f"{file} begins with a byte order mark: save it as UTF-8 without one"]
    try:
        text = raw.decode("utf-8")
    except UnicodeDecodeError as fault:
        return [f"{file}:{raw[: fault.start].count(10) + 1}: byte {fault.start} is no UTF-8"]
    if text.lstrip().startswith("{"):
        return [f'{file} looks like JSON, and TOML is wanted: rows begin with [[row]], then lines as mode = "sv39"']
    try:
        tomllib.loads(text)
    except tomllib.TOMLDecodeError as fault:
        return _complaint(file, text, str(fault))
    return [f"{file}: Python's reader takes it; arrays and inline tables nest at most 80 deep"]


def _complaint(file: str, text: str, complaint: str) -> list[str]:
    lines = text.split("\n")
    at = re.search(r"at line (\d+)", complaint)
    number = int(at[1]) if at else len(lines)
    line = lines[number - 1] if number <= len(lines) else ""
    said = [f"{file}:{number}: TOML: {complaint}", f"    {shown(line)}"]
    bare = re.fullmatch(r"\s*([\w-]+)\s*=\s*([a-zA-Z][\w-]*)\s*(#.*)?", line)
    if bare:
        said.append(f'    a text is written in quotes: {bare[1]} = "{bare[2]}"')
    if re.search(r"overwrite|duplicate", complaint, re.I):
        said.append("    a key is written twice in one table; each row begins with its own [[row]]")
    if complaint.startswith("Expected newline"):
        said.append("    each key has a line of its own")
    return said


def _top(document: Table, places: Places, rule: Rule) -> list[str]:
    """What is wrong with the top of the document, which the message calls row 0."""
    rows = document.get("row")
    wanted = KEYS[formats.TOP].allowed
    match rule:
        case Rule.MISSING:
            near = [key for key in document if nearest(key, ["row"])]
            hint = f"; [[{near[0]}]] is there: meant [[row]]?" if near else ""
            return [places.at_top(near[0] if near else None, f"there is no `row`: {wanted}{hint}")]
        case Rule.WRONG_TYPE:
            return [places.at_top("row", "`row` is no array of tables: write [[row]] with two brackets above each row")]
        case Rule.OUTSIDE:
            count = len(rows) if isinstance(rows, list) else 0
            return [
                places.at_top("row", f"{count} rows, and {wanted.split(',')[0]} are allowed; `xlab sweep` splits more")
            ]
        case _:
            others = [key for key in document if key != "row"]
            return [places.at_top(key, f"`{key}` is outside the rows, where `row` is the only key") for key in others]


def _row(rows: list[Table], row: int, key: int, rule: Rule, places: Places) -> list[str]:
    table = rows[row - 1]
    if key == formats.UNKNOWN:
        return [line for name in table if name not in formats.keys_of(table.get("table"))
                for line in places.at(row, name, _unknown(table, name))]  # fmt: skip
    if key == formats.TLB:
        return _tlb(table.get("tlb"), row, rule, places)
    known = KEYS[key]
    if rule == Rule.MISSING:
        return places.at(row, None, f"{_name(table)} has no `{known.name}`; allowed: {known.allowed}") + _misspelt(
            table, row, known, places
        )
    if key == 1 and rule == Rule.AT_ODDS:
        first = next(at for at, it in enumerate(rows, 1) if it.get("name") == table["name"])
        return places.at(row, "name", f"row {first} has the name {table['name']} too; each row wants another")
    return places.at(row, known.name, f"`{known.name}` {_value(known, table[known.name], rule, table)}")


def _name(table: Table) -> str:
    """The row in words."""
    kind = table.get("table")
    return f"the {kind} row" if kind in formats.TABLES else "the row"


def _misspelt(table: Table, row: int, key: Key, places: Places) -> list[str]:
    """The keys of a row that don't belong there and may have been meant for the one that is missing."""
    foreign = [name for name in table if name not in formats.keys_of(table.get("table"))]
    said = []
    for name in foreign:
        if nearest(name, [key.name]):
            said += places.at(row, name, f"`{name}` is there: misspelt {key.name}?")
        elif name in formats.NUMBER_OF:
            said += places.at(row, name, _unknown(table, name))
    return said


def _unknown(table: Table, name: str) -> str:
    """That a key belongs to no row of this kind, whose it is, or what may be meant."""
    kind, own = table.get("table"), formats.keys_of(table.get("table"))
    if name in formats.NUMBER_OF:
        others = KEYS[formats.NUMBER_OF[name]].tables
        return f"`{name}` is a key of {formats.listed(others, 'and')} rows, and not of {kind} rows: {_only(own)}"
    return f"`{name}` is no key of a {kind} row{nearest(name, own, 2)}: {_only(own)}"


def _only(own: list[str]) -> str:
    return f"allowed: {formats.listed(tuple(own), 'and')}"


def _value(key: Key, value: object, rule: Rule, table: Table) -> str:
    """What is wrong with a value, and what is allowed."""
    if rule == Rule.WRONG_TYPE:
        return f"is {_said_type(value)}; wanted: {key.type.value}; allowed: {key.allowed}"
    said = f"is {_written(value)}; allowed: {_allowed(key, table)}"
    if isinstance(value, str):
        return said + (nearest(value, key.values, 2) if key.values else _name_fault(value))
    if isinstance(value, int) and key.values:
        return said + nearest_number(value, key.values)
    return said


def _allowed(key: Key, table: Table) -> str:
    """What is allowed, with the number of another key where it counts."""
    for other in ("spaces", "start_bits"):
        if f"`{other}`" in key.allowed and other in table:
            return f"{table[other]} (its `{other}`) {key.allowed[key.allowed.rindex('to ') :]}"
    if key.name == "walk_caches" and table.get("table") == "radix":
        count = formats.LEVELS[table["mode"]] - 1
        return f"{count} widths in {table['mode']} (one for each level but the root's, lowest first), each {formats.A_WIDTH}"
    return key.allowed


def _name_fault(value: str) -> str:
    if len(value) > 16:
        return f" (it has {len(value)} characters)"
    strange = sorted(set(re.sub(r"[a-z0-9_-]", "", value)))
    return f" (not {formats.listed(tuple(map(repr, strange)))})" if strange else ""


def _written(value: object) -> str:
    return f'"{value}"' if isinstance(value, str) else str(value)


def _said_type(value: object) -> str:
    kinds: list[tuple[type, str]] = [(bool, "a boolean"), (str, "a text"), (int, "a whole number"),
        (float, "a number with a point or an exponent"), (list, "an array"), (dict, "a table")]  # fmt: skip
    return f"{_written(value)}, {next((words for kind, words in kinds if isinstance(value, kind)), 'a date or time')}"


def _tlb(arrays: object, row: int, rule: Rule, places: Places) -> list[str]:
    """Which array of a row's `tlb` is at fault, and how; the tests are made as the program makes them."""
    if not isinstance(arrays, list):
        return places.at(row, "tlb", f"`tlb` is {_said_type(arrays)}; wanted: {Type.ARRAYS.value}")
    if len(arrays) > formats.MOST_ARRAYS:
        return places.at(row, "tlb", f"`tlb` has {len(arrays)} arrays; allowed: 0 to {formats.MOST_ARRAYS}")
    for at, array in enumerate(arrays, 1):
        fault = _array(array)
        if fault:
            return places.at(row, "tlb", f"array {at} of `tlb`: {fault}", array=at)
    fault, at = _together(arrays)
    return places.at(row, "tlb", f"`tlb`: {fault}", array=at)


def _array(array: object) -> str | None:
    """What is wrong with one array by itself."""
    if not isinstance(array, dict):
        return f'it is {_said_type(array)}; wanted: a table, as {{ level = 1, sets = 16, width = 4, orders = ["4k"] }}'
    for key in formats.ARRAY_KEYS.values():
        if key.name not in array:
            if key.name in formats.MAY_BE_LEFT_OUT:
                continue
            near = [name for name in array if name not in formats.ARRAY_KEYS and nearest(name, [key.name])]
            return f"it has no `{key.name}`; allowed: {key.allowed}" + (f"; `{near[0]}` is there" if near else "")
        fault = ARRAY_FAULTS.get(key.name, _number)(key, array[key.name])
        if fault:
            return f"`{key.name}` {fault}"
    if array["sets"] * array["width"] > formats.MOST_ENTRIES:
        entries = array["sets"] * array["width"]
        return f"`sets` times `width` is {entries}; allowed: at most {formats.MOST_ENTRIES}"
    others = [name for name in array if name not in formats.ARRAY_KEYS]
    known = formats.listed(tuple(formats.ARRAY_KEYS), "and")
    return (
        f"`{others[0]}` is none of its keys{nearest(others[0], formats.ARRAY_KEYS)}: allowed: {known}"
        if others
        else None
    )


def _number(key: Key, value: object) -> str | None:
    if not isinstance(value, int) or isinstance(value, bool):
        return f"is {_said_type(value)}; wanted: {key.type.value}; allowed: {key.allowed}"
    if key.values and value not in key.values:
        return f"is {value}; allowed: {key.allowed}{nearest_number(value, key.values)}"
    return None if key.values or 1 <= value <= formats.MOST_ENTRIES else f"is {value}; allowed: {key.allowed}"


def _orders(key: Key, value: object) -> str | None:
    allowed = key.allowed
    if not isinstance(value, list):
        return f"is {_said_type(value)}; wanted: an array of texts; allowed: {allowed}"
    if not 1 <= len(value) <= len(formats.ORDERS):
        return f"has {len(value)} values; allowed: {allowed}"
    for at, order in enumerate(value):
        if order not in formats.ORDERS:
            return f"holds {_written(order)}; allowed: {allowed}{nearest(order, formats.ORDERS)}"
        if order in value[:at]:
            return f"holds {_written(order)} twice; allowed: {allowed}"
    return None


def _serves(key: Key, value: object) -> str | None:
    if not isinstance(value, str):
        return f"is {_said_type(value)}; wanted: {key.type.value}; allowed: {key.allowed}"
    return None if value in key.values else f"is {_written(value)}; allowed: {key.allowed}{nearest(value, key.values)}"


# What is wrong with a value of an array, of keys that are no numbers.
ARRAY_FAULTS = {"orders": _orders, "serves": _serves}


def _together(arrays: list[Table]) -> tuple[str, int]:
    """What is wrong with arrays that are each well, and the array at which it shows."""
    level = 0
    held: dict[tuple[int, str, str], int] = {}
    for at, array in enumerate(arrays, 1):
        if array["level"] not in (level, level + 1) or array["level"] == 0:
            told = "the first array has" if at == 1 else f"behind level {level} array {at} has"
            return f"{told} level {array['level']}; levels begin at 1, rise, and none is left out", at
        level = array["level"]
        for order, kind in itertools.product(array["orders"], formats.SERVES[array.get("serves", "all")]):
            first = held.setdefault((level, order, kind), at)
            if first != at:
                told = f"arrays {first} and {at} of level {level} both hold {order} for {kind}"
                return f"{told}; in one level no order is held twice for one kind of access", at
    return "its arrays are at odds: levels begin at 1, none is left out, and in one level no order is held twice", 1
