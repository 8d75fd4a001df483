"""Makes files at random, of each kind that the program reads."""

from __future__ import annotations

import random
import struct
from typing import List

OPCODES = [0x37, 0x17, 0x6F, 0x67, 0x63, 0x03, 0x23, 0x13, 0x33, 0x0F, 0x73]
CLASSES = ["add", "logic", "shift", "compare", "branch", "jump", "memory", "mul", "div"]
KINDS = ["emit", "access", "leave", "exit", "serve"]
STAGE_KINDS = ["climb", "fall", "meet", "execute", "send", "launch", "recover"]
RULES = ["issue:LaneFull", "climb:NotMet", "fall:NotMet", "execute:Dead", "launch:NotMet", "recover:NotDone", "leave:NotDone"]
RULES += ["exit:NotMet", "meet:die", "meet:garner", "meet:kill", "meet:update", "layout:ControlAboveMemory"]
STATEMENTS = [
    "add x1, x2, x3", "addi x1, x1, 2047", "addi a0, a0, -2049", "lui x5, 0x12345", "lw x1, 4(x2)", "sw x1, 8(x2", "sw x1, -4(sp)",
    "beq x1, x2, near", "j near", "call near", "la x7, far", "li x5, 4294967295", "li t0, -2147483649", "jal x1, 0x00010010",
    "fence", "fence x1, x2, 15", "ecall", "ebreak", "nop", "ret", "bnez a0, near", ".word 1, near, 3", ".half 65536", ".byte -128",
    '.ascii "a\\n\\x"', '.asciz "text"', ".space 1048576", ".space 1048577", ".align 12", ".globl near", ".data", ".text", ".frob",
    "near:", "far: nop", "mul x1, x2, x3", "# a comment", "fence.i", "",
]  # fmt: skip


def instruction(draw: random.Random) -> int:
    """A word: any, or one whose opcode is one, or an environment call."""
    kind = draw.randrange(8)
    if kind == 0:
        return draw.getrandbits(32)
    if kind == 1:
        return 0x73
    if kind == 2:
        number = draw.choice([63, 64, 93, 94, 214, draw.getrandbits(7)])
        return number << 20 | 17 << 7 | 0x13
    if kind == 3:
        return draw.getrandbits(12) << 20 | 10 + draw.randrange(3) << 7 | 0x13
    return draw.getrandbits(25) << 7 | draw.choice(OPCODES)


def image(draw: random.Random) -> bytes:
    words = [instruction(draw) for _ in range(draw.randint(0, 60))]
    return struct.pack(f"<{len(words)}I", *words) + draw.randbytes(draw.choice([0, 0, 1, 3]))


def number(draw: random.Random, usual: int) -> int:
    """A field of an ELF file: what is usual in most cases."""
    return usual if draw.random() < 0.9 else draw.choice([0, 1, usual + 1, usual * 2 & 0xFFFF, 0xFFFF])


def elf(draw: random.Random) -> bytes:
    """A file with up to seventeen segments, whose fields are mostly sound."""
    text = image(draw)
    count = draw.choice([1, 1, 2, 3, 16, 17])
    start = 52 + 32 * count
    header = b"\x7fELF" + bytes([number(draw, 1) & 0xFF, number(draw, 1) & 0xFF, 1]) + bytes(9)
    fields = [2, 243, 1, 0x10000, 52, 0, 0, 52, 32, count, 40, 0, 0]
    header += struct.pack("<HHIIIIIHHHHHH", *(number(draw, field) for field in fields))
    for place in range(count):
        size = len(text) if place == 0 else draw.choice([0, 4, len(text)])
        room = size if draw.random() < 0.7 else draw.choice([size + 100, 0x1000, 0x4000000, 0xFFFFFFFF, 0])
        address = 0x10000 * (1 + place) if draw.random() < 0.9 else draw.getrandbits(32)
        kind = draw.choice([1, 1, 1, 1, 0, 2, 3, 0x6474E551])
        header += struct.pack("<IIIIIIII", kind, start, address, address, size, room, draw.randrange(8), 4)
    return header + text


def layout(draw: random.Random) -> bytes:
    stages = draw.choice([2, 3, 8, 16, 32, 33])
    lines = [f"format = {draw.choice([1, 1, 2])}", f"stages = {stages}", f"lane = {draw.choice([1, 2, 4, 64, 65])}"]
    cache: List[List[str]] = [[], ["cache = true"], ["cache = 1"]]
    lines += [*draw.choice(cache), "[units]"]
    low = draw.randint(1, stages)
    names = [name for name in CLASSES[:6] if draw.random() < 0.9]
    lines += [f"{name} = {[draw.randint(1, low) for _ in range(draw.randint(1, 3))]}" for name in names]
    for name in draw.choice([["memory"], ["memory"], ["memory", "shift"], ["memory", "mul", "div"]]):
        up = draw.randint(low, stages)
        lines += ["[[siding]]", f'classes = ["{name}"]', f"launch = {low}", f"recover = {up}", f"cells = {draw.randint(0, 9)}"]
    return "\n".join(lines).encode() + b"\n"


def move(draw: random.Random) -> str:
    kind = draw.randrange(4)
    if kind == 0:
        return f"issue {draw.choice(['next', 'next', 'taken', 'wait', 'to 00010004', 'to', 'foo'])}"
    if kind == 1:
        return draw.choice(KINDS)
    if kind == 2:
        return f"{draw.choice(STAGE_KINDS)} {draw.choice([1, 1, 2, 2, 3, 9, 1000000000])}"
    return f"slide {draw.randrange(2)} {draw.randrange(3)}"


def script(draw: random.Random) -> bytes:
    return "".join(f"{move(draw)}\n" for _ in range(draw.randint(0, 30))).encode()


def source(draw: random.Random) -> bytes:
    lines = ["near:"] * draw.randrange(2) + draw.choices(STATEMENTS, k=draw.randint(0, 30))
    return "\n".join(lines).encode()


def delay(draw: random.Random) -> str:
    ticks = draw.choice([1, 2, 10, 999, 1000, 1001, 0])
    return draw.choice([f"{ticks}", f"{ticks}-{draw.choice([1, 10, 1000])}"])


def delays(draw: random.Random) -> bytes:
    kinds = ["issue", *KINDS, *STAGE_KINDS, "slide", "frob", "execute add", "execute div", "launch memory", "recover mul", "climb add"]
    return "".join(f"{kind} {delay(draw)}\n" for kind in draw.sample(kinds, draw.randint(0, 8))).encode()


def command(draw: random.Random) -> str:
    return draw.choice([
        f"move {move(draw)}", move(draw), "moves", f"why {move(draw)}", f"list {draw.choice([0x10000, 0x10002, 0x7F000000]):08x}",
        f"auto {draw.choice([0, 1, 20, 1000, 1000001])}", "show", "regs", "bound", "help", "end",
        "back", f"back {draw.choice([0, 1, 5, 1024, 1025])}",
        f"mem {draw.choice([0x10000, 0x7F000000, 0x7F0FFFF8, draw.getrandbits(32)]):08x} {draw.choice([0, 1, 4, 16, 17])}",
        f"break {draw.choice(['none', '00010004', '1'])}", "frob", "", "x" * draw.choice([10, 256, 257]),
    ])  # fmt: skip


def commands(draw: random.Random) -> bytes:
    return "".join(f"{command(draw)}\n" for _ in range(draw.randint(0, 40))).encode()


def observation(draw: random.Random) -> str:
    """A line that says what a part of the processor holds, mostly as it is at the beginning."""
    stage, register = draw.choice([0, 1, 2, 8, 33]), draw.randrange(34)
    return draw.choice([
        "fetch 00010000", "fetch 00010004", "fetch wait", "lane -", "lane x02", "cache -", f"stage {stage} empty", f"stage {stage}",
        f"stage {stage} instruction | 00010000 next new - - x10=? -", f"siding {draw.randrange(3)} -", f"x{register:02}=00000000",
        f"x{register:02}=7f0ffff0", "retire 1 00010000 00700513 x10=00000007", "ended exit 0", "# a comment", "",
        "y" * draw.choice([511, 512, 513]),
    ])  # fmt: skip


def log_line(draw: random.Random, at: int) -> str:
    """A line of a log, perhaps with a time, and if it is a move with its number."""
    said = draw.choice([move(draw), f"move {draw.choice([at, 1])} {move(draw)}", observation(draw), observation(draw)])
    return draw.choice([said, said, f"@{at} {said}", f"@{draw.choice([0, 5, 10**18 - 1, 10**18])} {said}"])


def log(draw: random.Random) -> bytes:
    return "".join(f"{log_line(draw, at)}\n" for at in range(1, draw.randint(1, 30))).encode()


def words(draw: random.Random) -> List[str]:
    """Arguments that mostly are not those of a command."""
    known = ["run", "machine", "check", "asm", "list", "debug", "gen", "moves", "time", "rounds", "audit", "help", "--help"]
    known += ["conform", "orders", "-h", "-V", "--every", "--guess", "--input", "--issues", "--states", "--without", "edges", "any"]
    known += ["--version", "plain", "program", "missing", "--limit", "--seed", "--script", "--show", "--mul", "--run", "moves"]
    known += ["report", "retired", "sites", "0", "1", "1000000000", "1000000001", "4294967296", "20k", "1001G", "", "-", "a/b", "\u00e9"]
    return [draw.choice(known) for _ in range(draw.randint(0, 7))]
