"""Random programs of RV32IM, each for recall and for Linux: the same instructions at the same addresses, which dump
their registers after each block. What they put out in the end must be the same."""

import os
import random
import struct
import sys

sys.path.insert(0, os.path.join(os.path.dirname(os.path.abspath(__file__)), "..", "programs"))

from assembler import (
    A0,
    A1,
    A2,
    A7,
    BRANCHES,
    HEADER,
    IMMEDIATES,
    LOADS,
    OPERATIONS,
    SHIFTS,
    STORES,
    T0,
    T1,
    T2,
    T3,
    T4,
    ZERO,
    Code,
    encode,
)

BASE, DATA, DUMPS, HEX = 0x10000, 0x28400, 0x2C000, 0x37000
BLOCKS, PER_BLOCK, PER_OUTPUT = 200, 25, 1280
CORNERS = [
    0,
    1,
    2,
    3,
    31,
    32,
    33,
    0x7F,
    0x80,
    0xFF,
    0x7FFF,
    0x8000,
    0xFFFF,
    0x7FFFFFFF,
    0x80000000,
    0x80000001,
    0xFFFFFFFE,
    0xFFFFFFFF,
]
POINTER, DUMP = 8, 9  # (the registers that point to the data and to where the next dump goes)
FREE = [register for register in range(1, 32) if register not in (POINTER, DUMP)]


class Program(Code):
    def __init__(self, seed):
        super().__init__()
        self.here, self.chance, self.count = BASE, random.Random(seed), 0

    def any(self):
        return self.chance.choice([*FREE, ZERO])

    def constant(self):
        self.li(
            self.chance.choice(FREE),
            self.chance.choice(CORNERS) if self.chance.random() < 0.5 else self.chance.getrandbits(32),
        )

    def new_label(self):
        self.count += 1
        return f"l{self.count}"

    def skipped(self, name, *operands):
        """A jump or branch over some instructions."""
        label = self.new_label()
        self.put(name, *operands, label)
        for _ in range(self.chance.randrange(4)):
            self.put(self.chance.choice([*OPERATIONS]), self.any(), self.any(), self.any())
        self.label(label)

    def jump_by_register(self):
        """One to an odd address, whose lowest bit is cleared."""
        label, register = self.new_label(), self.chance.choice(FREE)
        self.la(register, label).put("jalr", self.any(), 1, register).put("addi", self.any(), self.any(), 1).label(
            label
        )

    def instruction(self):
        kind, chance = self.chance.randrange(100), self.chance
        if kind < 45:
            self.put(chance.choice([*OPERATIONS]), self.any(), self.any(), self.any())
        elif kind < 58:
            self.put(chance.choice([*IMMEDIATES]), self.any(), self.any(), chance.randrange(-2048, 2048))
        elif kind < 66:
            self.put(chance.choice([*SHIFTS]), self.any(), self.any(), chance.randrange(32))
        elif kind < 86:
            name = chance.choice([*LOADS, *STORES])
            self.put(name, self.any(), chance.randrange(-1024, 1024, {"b": 1, "h": 2, "w": 4}[name[1]]), POINTER)
        elif kind < 92:
            self.skipped(chance.choice([*BRANCHES]), self.any(), self.any())
        elif kind < 94:
            self.skipped("jal", self.any())
        elif kind < 95:
            self.jump_by_register()
        elif kind < 99:
            self.put(chance.choice(["lui", "auipc"]), self.any(), chance.getrandbits(20))
        else:
            self.put("fence")

    def block(self):
        for _ in range(4):
            self.constant()
        for _ in range(PER_BLOCK):
            self.instruction()
        for register in FREE:
            self.put("sw", register, 4 * register, DUMP)
        self.put("addi", DUMP, DUMP, 128)

    def body(self):
        self.li(POINTER, DATA).li(DUMP, DUMPS)
        for register in FREE:
            self.li(register, self.chance.getrandbits(32))
        for _ in range(BLOCKS):
            self.block()

    def tell(self, call):
        """Puts all dumps out in hexadecimal digits, by a call of these instructions."""
        self.li(POINTER, DUMPS)
        self.label("part").li(T3, HEX).li(T4, PER_OUTPUT).label("byte").put("lbu", T0, 0, POINTER)
        for shift in (4, 0):
            ready = self.new_label()
            self.put("srli", T1, T0, shift).put("andi", T1, T1, 15).put("slti", T2, T1, 10).put("addi", T1, T1, 48).put(
                "bne", T2, ZERO, ready
            ).put("addi", T1, T1, 39)
            self.label(ready).put("sb", T1, 0, T3).put("addi", T3, T3, 1)
        self.put("addi", POINTER, POINTER, 1).put("addi", T4, T4, -1).put("bne", T4, ZERO, "byte")
        self.li(A1, 2 * PER_OUTPUT)
        for instruction in call:
            self.put(*instruction)
        self.li(T0, DUMPS + 128 * BLOCKS - PER_OUTPUT + 1).put("blt", POINTER, T0, "part")

    def bytes(self):
        return b"".join(part() for part in self.parts)


# Linux's `write` has the address in a1, the length in a2, and a file in a0.
LINUX = [("addi", A2, A1, 0), ("lui", A1, HEX >> 12), ("addi", A0, ZERO, 1), ("addi", A7, ZERO, 64), ("ecall",)]
RECALL = [("lui", A0, HEX >> 12), ("addi", A7, ZERO, 1), ("addi", ZERO, ZERO, 0), ("addi", ZERO, ZERO, 0), ("ecall",)]


def for_recall(seed):
    """An image: at address 4 it goes to where the program is."""
    code = Program(seed)
    code.body()
    code.tell(RECALL)
    code.put("addi", T0, ZERO, -16).put("jalr", ZERO, 0, T0)
    return (HEADER + struct.pack("<I", encode("jal", ZERO, BASE - 4))).ljust(BASE, b"\0") + code.bytes()


def for_linux(seed):
    """An ELF file that writes and exits."""
    code = Program(seed)
    code.body()
    code.tell(LINUX)
    code.put("addi", A7, ZERO, 93).put("addi", A0, ZERO, 0).put("ecall")
    body = code.bytes()
    ident = b"\x7fELF\x01\x01\x01" + bytes(9)
    header = ident + struct.pack("<HHIIIIIHHHHHH", 2, 243, 1, BASE, 52, 0, 0, 52, 32, 1, 0, 0, 0)
    return (header + struct.pack("<8I", 1, 0x1000, BASE, BASE, len(body), 0x40000 - BASE, 7, 0x1000)).ljust(
        0x1000, b"\0"
    ) + body
