"""Changes the bytes of a file at random: some bytes, fields, lines, or where it ends."""

from __future__ import annotations

import random

# Numbers at borders, as little-endian fields of four bytes.
FIELDS = [0, 1, 2, 3, 4, 0x7F, 0x80, 0xFF, 0x100, 0x7FFF, 0xFFFF, 0x10000, 0x7EFFFFFF, 0x7F000000, 0x7FFFFFFF]
FIELDS += [0x80000000, 0xFFFFFFFE, 0xFFFFFFFF]

# The same, as they are written in texts.
NUMBERS = [b"0", b"1", b"2", b"-1", b"31", b"32", b"33", b"64", b"255", b"256", b"1000", b"1001", b"4095", b"2048"]
NUMBERS += [b"65535", b"999999999", b"1000000000", b"4294967295", b"4294967296", b"-2147483649", b"0x", b"0xffffffff"]
NUMBERS += [b"9223372036854775807", b"9223372036854775808", b"99999999999999999999", b"00000000", b"ffffffff", b"1e9"]


def flip(draw: random.Random, data: bytearray) -> None:
    for _ in range(draw.randint(1, 8)):
        data[draw.randrange(len(data))] ^= 1 << draw.randrange(8)


def put_byte(draw: random.Random, data: bytearray) -> None:
    data[draw.randrange(len(data))] = draw.choice([0, 9, 10, 13, 32, 35, 127, 128, 255, draw.randrange(256)])


def put_field(draw: random.Random, data: bytearray) -> None:
    at = draw.randrange(len(data)) & ~1
    width = draw.choice([1, 2, 4, 4])
    data[at : at + width] = draw.choice(FIELDS).to_bytes(4, "little")[:width]


def cut(draw: random.Random, data: bytearray) -> None:
    del data[draw.randrange(len(data)) :]


def drop(draw: random.Random, data: bytearray) -> None:
    at = draw.randrange(len(data))
    del data[at : at + draw.randint(1, 40)]


def repeat(draw: random.Random, data: bytearray) -> None:
    at = draw.randrange(len(data))
    piece = data[at : at + draw.randint(1, 40)]
    data[at:at] = piece * draw.choice([1, 1, 2, 20])


def insert(draw: random.Random, data: bytearray) -> None:
    at = draw.randrange(len(data) + 1)
    data[at:at] = draw.randbytes(draw.randint(1, 12))


def swap_lines(draw: random.Random, data: bytearray) -> None:
    lines = bytes(data).split(b"\n")
    one, other = (draw.randrange(len(lines)) for _ in range(2))
    lines[one], lines[other] = lines[other], lines[one]
    data[:] = b"\n".join(lines)


def put_number(draw: random.Random, data: bytearray) -> None:
    words = bytes(data).split(b" ")
    words[draw.randrange(len(words))] = draw.choice(NUMBERS)
    data[:] = b" ".join(words)


CHANGES = [flip, put_byte, put_field, cut, drop, repeat, insert, swap_lines, put_number]


def changed(draw: random.Random, given: bytes) -> bytes:
    """The file with one to five changes, or as it is."""
    data = bytearray(given)
    for _ in range(draw.choice([0, 1, 1, 1, 2, 3, 5])):
        if data:
            draw.choice(CHANGES)(draw, data)
    return bytes(data)
