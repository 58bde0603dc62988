"""What is wrong with a mapping script (status 3): the line, its word at fault, what is allowed."""

import re

from xlab import formats
from xlab.explained.said import Content, exchanged, line_of, nearest
from xlab.formats import LIMITS, SCRIPT_REASONS, SCRIPTS, WIDTHS, WORDS

MESSAGE = re.compile(r"script line (\d+): reason (\d)")
SCOPES = ("all", "space", "addr", "page")
Forms = dict[str, tuple[str, ...]]
FOREIGN = {"mmap": "map", "munmap": "unmap", "mprotect": "protect", "mremap": "move", "flush": "fence all"}


def explain(file: str, message: str, kind: str = "plain") -> list[str]:
    """What the message means, for the script in this file, of this form of the program."""
    found = MESSAGE.search(message)
    if found is None:
        less = f"; demand lines take little: {formats.EVERYTHING}" if kind == "plain" else "; a line may map N pages"
        return [f"{file}: a script has at most 1048576 bytes{less}"]
    number, reason = int(found[1]), int(found[2])
    line = line_of(file, number)
    if line is None:
        return [f"{file}:{number}: {SCRIPT_REASONS[reason]}", "    it can't be read again to show the line"]
    said = exchanged(file, Content.SCRIPT) if number == 1 else []
    return [*said, f"{file}:{number}: {_why(line.split(), reason, kind)}", f"    {line}"]


def _why(words: list[str], reason: int, kind: str) -> str:
    """Why a line with these words is bad."""
    forms = SCRIPTS[kind]
    match reason:
        case 1:
            return _no_verb(words, kind)
        case 2:
            form = _form(words, forms)
            said = f"{SCRIPT_REASONS[2]}; the form is {_shown(form, forms)}" if form else SCRIPT_REASONS[2]
            return said + ("; a comment begins with #" if {"//", ";", "--"} & set(words) else "")
        case 3 | 4 | 5:
            return _bad_word(words, forms) or SCRIPT_REASONS[reason]
        case 6 if kind == "nested":
            return _passes(words)
        case 8:
            return f"{SCRIPT_REASONS[8]}: {_shown(next(iter(forms)), forms)}"
        case _:
            return SCRIPT_REASONS[reason]


def _passes(words: list[str]) -> str:
    """What passes a last place, in a script of two stages."""
    if words[0] == "guest":
        return "BASE + NODES passes 2^29 (hexadecimal 20000000), the number of guest pages"
    return "it passes the last address, 2^64 - 1"


def _no_verb(words: list[str], kind: str) -> str:
    forms = SCRIPTS[kind]
    verbs = _verbs(forms)
    if words[0] == "fence" and kind == "plain":
        return f"`fence {' '.join(words[1:2])}` is no fence; allowed: {_shown_all('fence', forms)}"
    if words[0].startswith(("//", ";", "--")):
        return "a comment begins with #"
    foreign = FOREIGN.get(words[0])
    meant = f" (meant {foreign}?)" if foreign in verbs else nearest(words[0], verbs)
    other = next((it for it, known in SCRIPTS.items() if words[0] in _verbs(known)), None)
    if other and not meant:
        meant = f" of {_script_of(kind)}, but of {_script_of(other)}"
    return f"`{words[0]}` is no command{meant}; allowed: {formats.listed(verbs, 'and')}; a comment begins with #"


def _verbs(forms: Forms) -> tuple[str, ...]:
    return tuple(dict.fromkeys(form.split()[0] for form in forms))


def _script_of(kind: str) -> str:
    return "a script of rows" if kind == "plain" else f"a script of `xlate {kind}`"


def _form(words: list[str], forms: Forms) -> str | None:
    """The form that a line has by its first words."""
    return next((form for form in forms if words[: len(form.split())] == form.split()), None)


def _shown(form: str, forms: Forms) -> str:
    if form == "run":
        return "run N, or run rest"
    return " ".join([form, *forms[form]])


def _shown_all(verb: str, forms: Forms) -> str:
    return "; ".join(_shown(form, forms) for form in forms if form.split()[0] == verb)


def _bad_word(words: list[str], forms: Forms) -> str | None:
    """The first word that is not what its place wants."""
    form = _form(words, forms)
    if form is None:
        return None
    for kind, word in zip(forms[form], words[len(form.split()) :]):
        kind = kind.strip("[]")
        if not _fits(kind, word):
            return f"`{word}` in the place of {kind}: {WORDS[kind]}; the form is {_shown(form, forms)}"
        if form == "gmap" and kind == "PERM" and word[3] != "u":
            return f"`{word}` in the place of PERM: the host's pages are for users, so u is needed: {word[:3]}u"
    if form == "harts" and int(words[4]) < int(words[5]):
        return f"NODES is {words[4]}: a table has a root for each of the {words[5]} SPACES at least"
    return None


def _fits(kind: str, word: str) -> bool:
    match kind:
        case "ADDR" | "BASE":
            return re.fullmatch(r"(0x)?[0-9a-fA-F]{1,16}", word) is not None
        case "ORDER":
            return word in formats.ORDERS
        case "PERM":
            return re.fullmatch(r"(?!-w)(?!---)[r-][w-][x-][u-]", word) is not None
        case _:
            least, most = LIMITS[kind]
            decimal = re.fullmatch(r"0|[1-9][0-9]*", word) is not None
            if kind == "GCACHE":
                return decimal and int(word) in WIDTHS
            return kind == "COUNT" and word == "rest" or decimal and least <= int(word) <= most
