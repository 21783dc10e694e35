#!/usr/bin/env python3
"""Writes the blocks that the program `blocks` is run on, and what it must print: one good block and damaged ones.

    python3 tools/blocks.py crates/blocks

It writes below that folder data/NAME for each block, args (the names) and stdout (a line for each). It follows
document 01, "The case block" and "Codes", and nothing of the code, so the two can be held against each other.
"""
import pathlib
import sys


def put(block, at, value):
    """A two-byte number, low byte first."""
    block[at] = value % 256
    block[at + 1] = value // 256


def signed(block):
    """The block with the check that its bytes 0 to 509 ask for."""
    put(block, 510, sum((i + 1) * block[i] for i in range(510)) % 65521)
    return block


def instruction(block, processor, number, op, d=0, a=0, b=0, constant=0):
    at = 92 + 72 * processor + 6 * number
    block[at : at + 4] = bytes([op, d, a, b])
    put(block, at + 4, constant)


def shape_h():
    """Processor 0 writes 1 to x, then 1 to y; processor 1 reads y into register 2, then x into register 3."""
    block = bytearray(512)
    block[0], block[1] = 2, 2
    for processor in range(2):
        block[4 + processor] = 2
        block[8 + processor] = 0b11
        put(block, 12 + 16 * processor + 2 * 1, 1)
    instruction(block, 0, 0, 2, a=0, b=1)
    instruction(block, 0, 1, 2, a=1, b=1)
    instruction(block, 1, 0, 1, d=2, a=1)
    instruction(block, 1, 1, 1, d=3, a=0)
    return block


def changed(*stores):
    """H with bytes changed, and the check made right again."""
    block = shape_h()
    for at, value in stores:
        block[at] = value
    return signed(block)


def every_kind():
    """All ten ops, the largest sizes and the highest legal values."""
    block = bytearray(512)
    block[0], block[1] = 4, 8
    for processor in range(4):
        block[8 + processor] = 255
        for register in range(8):
            put(block, 12 + 16 * processor + 2 * register, 65535 - 257 * register)
    for location in range(8):
        put(block, 76 + 2 * location, 513 * location)
    program = [
        dict(op=1, d=7, a=6),
        dict(op=2, a=7, b=5),
        dict(op=3, d=4, constant=65534),
        dict(op=4, d=1, a=2, b=3),
        dict(op=5, d=3, a=2, b=1),
        dict(op=6, d=7, a=7, b=7),
        dict(op=7, a=7, constant=12),
        dict(op=8, constant=0),
        dict(op=9, a=1),
        dict(op=10, a=7),
        dict(op=3, d=0, constant=255),
        dict(op=8, constant=12),
    ]
    for processor in range(4):
        block[4 + processor] = 12
        for number, fields in enumerate(program):
            instruction(block, processor, number, **fields)
    return signed(block)


def second(*stores):
    """H whose second instruction of processor 1 is a goto to the end, with bytes changed."""
    slot = 92 + 72 + 6
    return changed((slot, 8), (slot + 1, 0), (slot + 2, 0), (slot + 4, 2), *((slot + k, v) for k, v in stores))


def damaged(block):
    """The block with another check, and a byte too many."""
    return block[:510] + bytes([block[510] ^ 1]) + block[511:] + b"\0"


H = signed(shape_h())
WRITE = 92  # processor 0, instruction 0: write
READ = 92 + 72  # processor 1, instruction 0: read
GOTO = 92 + 72 + 6  # processor 1, instruction 1, of `second`
SPARE = 92 + 72 * 3  # the first slot of an absent processor

# name, block, code, position
BLOCKS = [
    ("h", H, 0, 0),
    ("every-kind", every_kind(), 0, 0),
    ("goto", second(), 0, 0),
    ("bound-1", changed((2, 1)), 0, 0),
    ("bound-8", changed((2, 8)), 0, 0),
    ("bound-96", changed((2, 96)), 0, 0),
    ("empty", b"", 1, 0),
    ("short", H[:511], 1, 0),
    ("long", H + b"\0", 1, 0),
    ("check", H[:511] + bytes([H[511] ^ 1]), 2, 0),
    ("no-processor", changed((0, 0)), 3, 0),
    ("five-processors", changed((0, 5)), 3, 0),
    ("no-location", changed((1, 0)), 3, 1),
    ("nine-locations", changed((1, 9)), 3, 1),
    ("bound-97", changed((2, 97)), 3, 2),
    ("byte-3", changed((3, 1)), 3, 3),
    ("count-13", changed((5, 13)), 4, 5),
    ("count-absent", changed((6, 1)), 4, 6),
    ("mask-absent", changed((10, 1)), 5, 10),
    ("preset-unset", changed((12 + 2 * 2, 1)), 5, 16),
    ("preset-unset-high", changed((12 + 2 * 2 + 1, 7)), 5, 17),
    ("preset-absent", changed((12 + 16 * 2 + 1, 1)), 5, 45),
    ("word-absent", changed((76 + 2 * 2, 1)), 5, 80),
    ("word-absent-high", changed((76 + 2 * 7 + 1, 1)), 5, 91),
    ("op-0", changed((WRITE, 0)), 6, WRITE),
    ("op-11", changed((WRITE, 11)), 6, WRITE),
    ("register-d", changed((READ + 1, 8)), 6, READ + 1),
    ("register-a", changed((WRITE + 2, 8)), 6, WRITE + 2),
    ("register-b", changed((WRITE + 3, 255)), 6, WRITE + 3),
    ("label-past", second((4, 3)), 6, GOTO + 4),
    ("label-high", second((4, 0), (5, 1)), 6, GOTO + 4),
    ("label-branch", second((0, 7), (4, 3)), 6, GOTO + 4),
    ("unused-d", changed((WRITE + 1, 1)), 6, WRITE + 1),
    ("unused-a", second((2, 1)), 6, GOTO + 2),
    ("unused-b", changed((READ + 3, 1)), 6, READ + 3),
    ("unused-constant", changed((READ + 4, 1)), 6, READ + 4),
    ("unused-constant-high", changed((READ + 5, 1)), 6, READ + 5),
    ("slot-unused", changed((WRITE + 6 * 2, 1)), 7, WRITE + 12),
    ("slot-absent", changed((SPARE + 5, 1)), 7, SPARE + 5),
    ("byte-381", changed((381, 1)), 7, 381),
    ("byte-509", changed((509, 1)), 7, 509),
    ("unset-read", changed((READ + 2, 5)), 19, READ + 2),
    ("unset-write-a", changed((WRITE + 2, 5)), 19, WRITE + 2),
    ("unset-write-b", changed((WRITE + 3, 5)), 19, WRITE + 3),
    ("unset-sum-a", second((0, 4), (2, 5), (4, 0)), 19, GOTO + 2),
    ("unset-difference-b", second((0, 5), (3, 5), (4, 0)), 19, GOTO + 3),
    ("unset-equal-b", second((0, 6), (3, 7), (4, 0)), 19, GOTO + 3),
    ("unset-branch", second((0, 7), (2, 5)), 19, GOTO + 2),
    ("unset-acquire", second((0, 9), (2, 5), (4, 0)), 19, GOTO + 2),
    ("unset-release", second((0, 10), (2, 5), (4, 0)), 19, GOTO + 2),
    ("set-elsewhere", changed((WRITE + 3, 2)), 19, WRITE + 3),
    ("set-unused", changed((READ + 2, 3), (5, 1), *((READ + 6 + k, 0) for k in range(6))), 19, READ + 2),
    ("set-late", changed((READ + 2, 3)), 0, 0),
    ("set-by-its-reader", changed((READ + 2, 2)), 0, 0),
    ("bad-for-6-and-19", changed((READ + 2, 5), (READ + 9, 1)), 6, READ + 9),
    ("bad-for-7-and-19", changed((READ + 2, 5), (509, 1)), 7, 509),
    ("two-bad-for-19", changed((READ + 2, 5), (WRITE + 3, 6)), 19, WRITE + 3),
    ("two-bad-for-6", changed((READ + 3, 1), (WRITE + 5, 1)), 6, WRITE + 5),
    ("bad-for-5-6-7", changed((500, 1), (WRITE, 11), (11, 1)), 5, 11),
    ("bad-for-3-to-7", changed((500, 1), (WRITE, 11), (11, 1), (7, 1), (2, 97)), 3, 2),
    ("bad-for-all", damaged(changed((500, 1), (3, 1))), 1, 0),
]


def line(name, block, code, position):
    if code:
        return f"{name} code {code} at {position}"
    if block[2]:
        return f"{name} code 0, usual bound dropped, written again another"
    return f"{name} code 0, written again the same"


def main():
    crate = pathlib.Path(sys.argv[1])
    data = crate / "data"
    data.mkdir(exist_ok=True)
    for old in data.iterdir():
        old.unlink()
    for name, block, _, _ in BLOCKS:
        (data / name).write_bytes(bytes(block))
    (crate / "args").write_text("".join(name + "\n" for name, _, _, _ in BLOCKS))
    (crate / "stdout").write_text("".join(line(*entry) + "\n" for entry in BLOCKS))


main()
