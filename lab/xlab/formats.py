"""What `xlate` allows in its words, configuration, script and trace: the rules of docs/FORMATS.md, by their numbers."""

import enum
from dataclasses import dataclass

WIDTHS = (0, 1, 2, 4, 6, 8, 12, 16, 32, 64)
MODES = ("sv39", "sv48", "sv57")
TABLES = ("radix", "hashed", "clustered", "cuckoo", "range")
ORDERS = ("4k", "2m", "1g")
PURGES = ("page", "space", "all")
SERVES = {"all": ("fetches", "data"), "fetch": ("fetches",), "data": ("data",)}  # the accesses that a TLB array serves
LEVELS = {"sv39": 3, "sv48": 4, "sv57": 5}
MOST_ROWS = 16
MOST_ARRAYS = 6
MOST_ENTRIES = 16384  # of a TLB array: sets times width
EVERYTHING = "demand 0 0 67108864 4k rwxu"  # a script's line that maps what a program of Lackey's touches


def listed(values: tuple[object, ...], last: str = "or") -> str:
    """The values in words: `1, 2 or 4`."""
    shown = [str(value) for value in values]
    return shown[0] if len(shown) == 1 else f"{', '.join(shown[:-1])} {last} {shown[-1]}"


def quoted(values: tuple[str, ...]) -> str:
    """The texts in words, each in quotes."""
    return listed(tuple(f'"{value}"' for value in values))


A_WIDTH = listed(WIDTHS)


class Type(enum.Enum):
    """What a key's value is, with the words for it."""

    TEXT = "a text, in quotes"
    NUMBER = "a whole number, without quotes, point or exponent"
    NUMBERS = "an array of whole numbers, as [16, 4]"
    ARRAYS = 'an array of tables, as [{ level = 1, sets = 16, width = 4, orders = ["4k"] }]'
    ROWS = "an array of tables, each headed [[row]]"


class Rule(enum.IntEnum):
    """The rules of a configuration's keys, by the numbers of its message."""

    MISSING = 1
    WRONG_TYPE = 2
    OUTSIDE = 3
    NOT_ALLOWED = 4
    AT_ODDS = 5


@dataclass(frozen=True)
class Key:
    """A key of a configuration."""

    name: str
    type: Type
    allowed: str
    values: tuple[object, ...] = ()  # all that is allowed, where it is a list
    tables: tuple[str, ...] = TABLES  # the kinds of table whose rows have it


def _number(name: str, least: object, most: int, *tables: str) -> Key:
    return Key(name, Type.NUMBER, f"{least} to {most}", (), tables or TABLES)


TOP, TLB, UNKNOWN = 0, 22, 23
KEYS: dict[int, Key] = {
    TOP: Key("row", Type.ROWS, f"1 to {MOST_ROWS} tables, each headed [[row]]"),
    1: Key("name", Type.TEXT, "1 to 16 of a to z, 0 to 9, - and _, in each row another"),
    2: Key("mode", Type.TEXT, quoted(MODES), MODES),
    3: _number("frames", 1, 4194304),
    4: _number("spaces", 1, 64),
    5: Key("table", Type.TEXT, quoted(TABLES), TABLES),
    6: Key("purge", Type.TEXT, quoted(PURGES), PURGES),
    7: _number("table_frames", "from the row's `spaces`", 16384, "radix"),
    8: Key("walk_caches", Type.NUMBERS,
           "of a radix row a width for each level but the root's, lowest first (sv39 two, sv48 three, sv57 four); "
           f"of a cuckoo row two; a width is {A_WIDTH}", (), ("radix", "cuckoo")),
    9: _number("buckets", 1, 1048576, "hashed", "clustered"),
    10: _number("entries", 1, 1048576, "hashed"),
    11: _number("blocks", 1, 131072, "clustered"),
    12: _number("ways", 2, 4, "cuckoo"),
    13: _number("start_bits", 0, 18, "cuckoo"),
    14: _number("cap_bits", "from the row's `start_bits`", 18, "cuckoo"),
    15: _number("threshold", 1, 100, "cuckoo"),
    16: _number("kick_limit", 1, 64, "cuckoo"),
    17: _number("migrate", 1, 64, "cuckoo"),
    18: _number("sections_2m", 1, 262144, "cuckoo"),
    19: _number("sections_1g", 1, 4096, "cuckoo"),
    20: _number("ranges", 1, 65536, "range"),
    21: Key("range_tlb", Type.NUMBER, A_WIDTH, WIDTHS, ("range",)),
    TLB: Key("tlb", Type.ARRAYS, f"0 to {MOST_ARRAYS} tables of level, sets, width, orders and serves"),
}  # fmt: skip
NUMBER_OF = {key.name: number for number, key in KEYS.items()}
ARRAY_KEYS = {
    "level": Key("level", Type.NUMBER, "1 to 3", (1, 2, 3)),
    "sets": _number("sets", 1, 16384),
    "width": Key("width", Type.NUMBER, listed(WIDTHS[1:]), WIDTHS[1:]),
    "orders": Key("orders", Type.NUMBERS, f'1 to 3 of {quoted(ORDERS)}, each once, as ["4k", "2m"]', ORDERS),
    "serves": Key("serves", Type.TEXT, quoted(tuple(SERVES)), tuple(SERVES)),
}
MAY_BE_LEFT_OUT = ("serves",)  # of the keys of an array


def keys_of(table: object) -> list[str]:
    """The keys that a row of this kind of table may have; of an unknown kind, all."""
    known = table if table in TABLES else None
    return [key.name for number, key in KEYS.items() if number != TOP and (known is None or known in key.tables)]


# The forms of a script's lines: a verb, and its words by kind; N may be left out.
FORMS = {
    "map": ("SPACE", "ADDR", "ORDER", "PERM", "[N]"),
    "unmap": ("SPACE", "ADDR", "ORDER", "[N]"),
    "protect": ("SPACE", "ADDR", "ORDER", "PERM", "[N]"),
    "move": ("SPACE", "ADDR", "ADDR", "ORDER", "[N]"),
    "space": ("SPACE",),
    "fence all": (),
    "fence space": ("SPACE",),
    "fence addr": ("ADDR",),
    "fence page": ("SPACE", "ADDR"),
    "demand": ("SPACE", "ADDR", "PAGES", "ORDER", "PERM"),
    "run": ("COUNT",),
}
# Those of the forms `nested` and `harts`; the first of each is the head.
SCRIPTS = {
    "plain": FORMS,
    "nested": {
        "guest": ("BASE", "NODES", "FRAMES", "GNODES", "GCACHE"),
        "gmap": ("ADDR", "ORDER", "PERM", "[N]"),
        "gunmap": ("ADDR", "ORDER", "[N]"),
        "vmap": ("ADDR", "ORDER", "ADDR", "PERM", "[N]"),
        "vunmap": ("ADDR", "ORDER", "[N]"),
        "run": ("COUNT",),
    },
    "harts": {
        "harts": ("HARTS", "QUEUE", "FRAMES", "NODES", "SPACES", "SETS"),
        "hart": ("HART",),
        "take": ("HART",),
    }
    | {form: FORMS[form] for form in ("map", "unmap", "protect", "move", "space", "run")},
}
# Of words that are decimal, the least and the most.
LIMITS = {
    "SPACE": (0, 65535), "N": (1, 1048576), "COUNT": (1, 4294967295), "PAGES": (1, 2**45), "NODES": (1, 16384),
    "FRAMES": (1, 4194304), "GNODES": (4, 16384), "GCACHE": (0, 64), "HARTS": (1, 8), "QUEUE": (1, 64),
    "SPACES": (1, 64), "SETS": (1, 2048), "HART": (0, 65535),
}  # fmt: skip
WORDS = {
    "SPACE": "SPACE is decimal, 0 to 65535, without zeros in front",
    "ADDR": "an address is 1 to 16 hexadecimal digits, with or without 0x",
    "ORDER": "ORDER is 4k, 2m or 1g, in small letters",
    "PERM": "PERM has four characters, r or -, w or -, x or -, u or -, as rw-u or r-xu; w not without r, and one of r, w, x",
    "PAGES": "PAGES is decimal, 1 to 35184372088832 (pages of 4 KiB), without zeros in front",
    "N": "N is decimal, 1 to 1048576, without zeros in front",
    "COUNT": "run wants a decimal from 1 to 4294967295, or the word rest",
    "BASE": "BASE is the guest page of the guest's first node: 1 to 16 hexadecimal digits, with or without 0x",
    "GCACHE": f"the G cache's width is {A_WIDTH}",
} | {
    name: f"{name} is decimal, {LIMITS[name][0]} to {LIMITS[name][1]}, without zeros in front"
    for name in ("NODES", "FRAMES", "GNODES", "HARTS", "QUEUE", "SPACES", "SETS", "HART")
}
SCRIPT_REASONS = {
    1: "the first word is no command",
    2: "too few or too many words",
    3: "a number or an address can't be read, or passes its limits",
    4: "ORDER is none of the three",
    5: "PERM can't be read, or is not legal",
    6: "it passes the last address, 2^64 - 1; or a demand's address or pages are no whole number of its leaves "
    "(2m: 512 pages of 4 KiB, 1g: 262144)",
    7: f"a script has at most 256 areas: join neighbours, or let one line cover all: {EVERYTHING}",
    8: "the head must stand once, in the first line that is no comment",
}
TRACE_REASONS = {
    1: "no record: it begins with none of I, L, S and M",
    2: "no address: a blank behind the letter, 1 to 16 hexadecimal digits without 0x, and at once a comma are wanted",
    3: "no size: behind the comma 1 to 6 decimal digits up to 65536 are wanted",
    4: "something follows the size",
    5: "the access passes the last address, 2^64 - 1",
    6: "it has more than 256 bytes",
}
# What refused a mapping command, by cause; and what to do.
CAUSES = {
    1: "no such space",
    2: "the address is not canonical in the row's mode",
    3: "the address is no multiple of its page size",
    4: "nothing is mapped there",
    5: "a page of another size is mapped there",
    6: "something is mapped there already",
    7: "no free frames",
    8: "no room in the table",
    9: "every cuckoo way is at its cap",
}
CAUSES_OF = {
    "nested": {
        1: "a virtual address that is not canonical in Sv39, or a guest physical address of 2^41 or more",
        2: "an address is no multiple of its page size",
        3: "nothing of this first address and size is mapped",
        4: "something is mapped there already",
        5: "no free frames: raise FRAMES in the script's head",
        6: "no room in the table: raise NODES (vmap) or GNODES (gmap) in the script's head",
    },
    "harts": CAUSES
    | {
        7: "no free frames, or those that are free are held back until every hart takes: raise FRAMES, or take earlier",
        8: "no room in the table: raise NODES in the script's head",
        10: "a hart's queue is full: take earlier, or raise QUEUE in the script's head",
        11: "a take, and nothing waits for this hart",
        12: "no such hart: they are numbered from 0",
    },
}
REMEDIES = {
    2: "addresses above half of what the mode spans need their high bits set; or take a mode with more levels",
    3: "addresses in a script are hexadecimal: 4096 is 1000; a page of 2m begins at a multiple of 200000, of 1g of 40000000",
    4: "unmap, protect and move want a page that is mapped: was it mapped, in this space, and not unmapped before?",
    5: "the command's ORDER must be that of the page that is mapped",
    6: "unmap it first, or leave the second map out",
}
# The keys that make room in a table of each kind.
ROOM = {
    "radix": ("table_frames",),
    "hashed": ("entries",),
    "clustered": ("blocks",),
    "cuckoo": ("sections_2m", "sections_1g"),
    "range": ("ranges",),
}
