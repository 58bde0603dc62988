"""Other tools' traces as lines in Lackey's form. Each converter takes pieces of whole lines, and
gives as many pieces; a line that it can't read stays as it is, so that the sieve counts it among
those that are no records."""

import re
from collections.abc import Callable, Iterable, Iterator

from xlab.messages import Fault

# a mnemonic's width in RISC-V: lb, lhu, c.lwsp, fld, amoadd.w, lr.d and so on
RISCV_WIDTHS = {b"b": 1, b"h": 2, b"w": 4, b"d": 8, b"q": 16}
RISCV_PLAIN = re.compile(rb"(?:c\.)?f?[ls](b|h|w|d|q)u?(?:sp)?")
RISCV_ATOMIC = re.compile(rb"(?:lr|sc|amo\w+)\.(w|d)(?:\.\w+)*")

EXECLOG = re.compile(rb'\d+, 0x([0-9a-f]+), 0x([0-9a-f]+), "([^"]*)"((?:, [^,]+)*)')
EXECLOG_ACCESS = re.compile(rb", (load|store), 0x([0-9a-f]+)(, (?!load|store)[^,]+)?")
OPCODE = re.compile(rb"[0-9a-f]{4}(?:[0-9a-f]{4})?[ \t]+")  # stands before RISC-V's mnemonic
VIEW = re.compile(
    rb".*?[: ](ifetch|read|write)(?: +|\(\w*\) *)(\d+) byte\(s\) @ (?:0x)?0*([0-9a-f]+).*"
)
VIEW_LETTERS = {b"ifetch": b"I  ", b"read": b" L ", b"write": b" S "}
PINATRACE = re.compile(rb"(?:0x)?[0-9a-f]+: ([RW]) +(?:0x)?([0-9a-f]+)(?: +(\d+)(?: .*)?)?")
PIN_LETTERS = {b"R": b" L ", b"W": b" S "}


def riscv_size(disassembly: bytes) -> int:
    """The bytes that an instruction of RISC-V loads or stores, by its mnemonic; 1 where that is
    none."""
    mnemonic = (OPCODE.sub(b"", disassembly, count=1).split(None, 1) or [b""])[0]
    found = RISCV_PLAIN.fullmatch(mnemonic) or RISCV_ATOMIC.fullmatch(mnemonic)
    return RISCV_WIDTHS[found[1]] if found else 1


def fetched(opcode: int) -> int:
    """The bytes of an instruction of RISC-V, by its first ones: two where its low bits are not
    both set."""
    return 4 if opcode & 3 == 3 else 2


def of_execlog(line: bytes) -> bytes:
    """Of QEMU's plugin execlog: `cpu, 0xPC, 0xOPCODE, "disassembly"[, load|store, 0xADDRESS[,
    DEVICE]]..`. Raises a fault where there is a device: then QEMU emulates a whole system, and
    the address is a physical one."""
    found = EXECLOG.fullmatch(line)
    if not found:
        return line
    accesses = EXECLOG_ACCESS.findall(found[4])
    if any(device for _, _, device in accesses):
        raise Fault(
            "the log is of a whole system, and has physical addresses: trace a program by qemu-riscv64 or such"
        )
    size = riscv_size(found[3]) if accesses else 0
    data = [
        b" %b %b,%d" % (b"L" if kind == b"load" else b"S", address, size)
        for kind, address, _ in accesses
    ]
    return b"\n".join([b"I  %b,%d" % (found[1], fetched(int(found[2], 16))), *data])


def of_view(line: bytes) -> bytes:
    """Of drmemtrace's tool view: `.. ifetch|read|write N byte(s) @ 0xADDRESS ..`."""
    found = VIEW.fullmatch(line)
    return b"%b%b,%b" % (VIEW_LETTERS[found[1]], found[3], found[2]) if found else line


def of_pinatrace(line: bytes) -> bytes:
    """Of Pin's pinatrace: `0xPC: R|W 0xADDRESS [SIZE [VALUE]]`; without a size it is 1."""
    found = PINATRACE.fullmatch(line)
    return b"%b%b,%b" % (PIN_LETTERS[found[1]], found[2], found[3] or b"1") if found else line


def _each_line(convert: Callable[[bytes], bytes]) -> Callable[[Iterable[bytes]], Iterator[bytes]]:
    """A converter of pieces from one of lines."""

    def converted(pieces: Iterable[bytes]) -> Iterator[bytes]:
        for piece in pieces:
            ended = piece.endswith(b"\n")
            yield b"\n".join(map(convert, piece.splitlines())) + (b"\n" if ended else b"")

    return converted


CONVERTERS = {
    "execlog": _each_line(of_execlog),
    "drmemtrace": _each_line(of_view),
    "pinatrace": _each_line(of_pinatrace),
}
