"""A guest of QEMU's riscv64 (mmu.s) that makes accesses as a user would, and what came of each.

Wants Debian's qemu-system-misc and binutils-riscv64-unknown-elf.
"""

import shutil
import struct
import subprocess
import sys
from pathlib import Path
from typing import NamedTuple

DONE = 8  # the code of a call by user mode
GUEST, MEMORY = 0x10000000, 4 << 30
NEEDS = {"qemu-system-riscv64": "qemu-system-misc", "riscv64-unknown-elf-as": "binutils-riscv64-unknown-elf"}
LOAD, STORE, FETCH, GUEST_LOAD, GUEST_STORE, GUEST_FETCH = range(6)  # kinds of accesses; the last three over two stages


class Request(NamedTuple):
    satp: int
    address: int
    kind: int
    awaited: int | None  # the physical address at which it should end; None where it should fault


class End(NamedTuple):
    code: int
    value: int
    instruction: int  # what mtinst says of a guest-page fault


def assemble(folder):
    """The guest's bytes; requests lie behind them."""
    for name, package in NEEDS.items():
        if not shutil.which(name):
            sys.exit(f"{name} is not there: apt-get install {package}")
    for words in (["as", "-march=rv64g", "-mno-relax", "-o", "mmu.o", Path(__file__).parent.resolve() / "mmu.s"],
                  ["ld", f"-Ttext={GUEST:#x}", "-o", "mmu.elf", "mmu.o"],
                  ["objcopy", "-O", "binary", "mmu.elf", "mmu.bin"]):
        subprocess.run([f"riscv64-unknown-elf-{words[0]}", *words[1:]], cwd=folder, check=True)
    return (folder / "mmu.bin").read_bytes()


def code_at(address):
    """The 16 bytes at a physical address: lui a0, its frame; addi a0, a0, its place in the page; ecall; and the number
    that they leave in a0."""
    frame, place = address >> 12, (address & 4095) >> 4
    left = ((frame << 12 ^ 1 << 31) - (1 << 31)) + place & (1 << 64) - 1
    return struct.pack("<IIII", frame << 12 | 10 << 7 | 0x37, place << 20 | 10 << 15 | 10 << 7 | 0x13, 0x73, 0), left


def value_of(at, request):
    """What a request should leave: what its load reads, the token that it stored, or what the fetched code left."""
    code, left = code_at(request.awaited)
    return {LOAD: struct.unpack_from("<Q", code)[0], STORE: at + 1, FETCH: left}[request.kind % 3]


def accessed(folder, guest, words, requests, hgatp=0, vsatp=0):
    """Makes the accesses in QEMU over tables whose words are (physical address, word); answers how each ended."""
    with open(folder / "memory", "wb") as memory:
        def put(address, text):
            memory.seek(address)
            memory.write(text)
        memory.truncate(MEMORY)
        for address, word in words:
            put(address, struct.pack("<Q", word))
        put(GUEST, guest + struct.pack("<QQQ", len(requests), hgatp, vsatp))
        for at, request in enumerate(requests):
            awaited = GUEST if request.awaited is None else request.awaited
            if request.awaited is not None:
                put(awaited, code_at(awaited)[0])
            put(GUEST + len(guest) + 64 * (at + 1),
                struct.pack("<QQQQQ", request.satp, request.address, request.kind, awaited, at + 1))
    subprocess.run(["qemu-system-riscv64", "-cpu", "rv64,h=true", "-M", "none,memory-backend=ram", "-m",
                    f"{MEMORY >> 20}M", "-object",
                    f"memory-backend-file,id=ram,size={MEMORY},mem-path={folder}/memory,share=on",
                    "-device", f"loader,addr={GUEST:#x},cpu-num=0", "-display", "none", "-serial", "none",
                    "-monitor", "none", "-semihosting-config", "enable=on,target=native"],
                   check=True, timeout=300, stdin=subprocess.DEVNULL)
    with open(folder / "memory", "rb") as memory:
        memory.seek(GUEST + len(guest) + 64)
        return [End(*struct.unpack_from("<QQQ", memory.read(64), 40)) for _ in requests]
