"""An assembler for RV32IM, from the tables of the RISC-V manual (volume I, instruction set listings), and the image of
a program."""

import struct

HEADER = b"RV1\x01"
ENTRY = 4
RETURN_AT = 0xFFFFFFF0
TEXT_AT = 0x3F000
MEMORY = 0x40000
MOST = 0x3F000  # (bytes of an image)
BUDGET = 1_000_000

ZERO, RA, SP, GP, TP, T0, T1, T2, S0, S1, A0, A1, A2, A3, A4, A5, A6, A7 = range(18)
S2, S3, S4, S5, S6, S7, S8, S9, S10, S11, T3, T4, T5, T6 = range(18, 32)

# funct7, funct3 of the operations on two registers
OPERATIONS = {
    "add": (0x00, 0),
    "sub": (0x20, 0),
    "sll": (0x00, 1),
    "slt": (0x00, 2),
    "sltu": (0x00, 3),
    "xor": (0x00, 4),
    "srl": (0x00, 5),
    "sra": (0x20, 5),
    "or": (0x00, 6),
    "and": (0x00, 7),
    "mul": (0x01, 0),
    "mulh": (0x01, 1),
    "mulhsu": (0x01, 2),
    "mulhu": (0x01, 3),
    "div": (0x01, 4),
    "divu": (0x01, 5),
    "rem": (0x01, 6),
    "remu": (0x01, 7),
}
IMMEDIATES = {"addi": 0, "slti": 2, "sltiu": 3, "xori": 4, "ori": 6, "andi": 7}
SHIFTS = {"slli": (0x00, 1), "srli": (0x00, 5), "srai": (0x20, 5)}
BRANCHES = {"beq": 0, "bne": 1, "blt": 4, "bge": 5, "bltu": 6, "bgeu": 7}
LOADS = {"lb": 0, "lh": 1, "lw": 2, "lbu": 4, "lhu": 5}
STORES = {"sb": 0, "sh": 1, "sw": 2}
WORDS = {"fence": 0x0FF0000F, "ecall": 0x00000073, "ebreak": 0x00100073}
ALL = [*OPERATIONS, *IMMEDIATES, *SHIFTS, *BRANCHES, *LOADS, *STORES, *WORDS, "lui", "auipc", "jal", "jalr"]


def i_type(opcode, funct3, rd, rs1, immediate):
    return (immediate & 0xFFF) << 20 | rs1 << 15 | funct3 << 12 | rd << 7 | opcode


def r_type(funct7, funct3, rd, rs1, rs2):
    return funct7 << 25 | rs2 << 20 | rs1 << 15 | funct3 << 12 | rd << 7 | 0x33


def s_type(funct3, rs2, rs1, offset):
    return (offset >> 5 & 0x7F) << 25 | rs2 << 20 | rs1 << 15 | funct3 << 12 | (offset & 0x1F) << 7 | 0x23


def b_type(funct3, rs1, rs2, offset):
    high = (offset >> 12 & 1) << 6 | offset >> 5 & 0x3F
    low = (offset >> 1 & 0xF) << 1 | offset >> 11 & 1
    return high << 25 | rs2 << 20 | rs1 << 15 | funct3 << 12 | low << 7 | 0x63


def j_type(rd, offset):
    bits = (offset >> 20 & 1) << 19 | (offset >> 1 & 0x3FF) << 9 | (offset >> 11 & 1) << 8 | offset >> 12 & 0xFF
    return bits << 12 | rd << 7 | 0x6F


def encode(name, *operands):
    """The word of an instruction: operands as an assembler has them, a load and a store as (register, offset, base)."""
    if name in OPERATIONS:
        return r_type(*OPERATIONS[name], *operands)
    if name in IMMEDIATES:
        return i_type(0x13, IMMEDIATES[name], *operands)
    if name in SHIFTS:
        funct7, funct3 = SHIFTS[name]
        rd, rs1, amount = operands
        return i_type(0x13, funct3, rd, rs1, funct7 << 5 | amount & 31)
    if name in BRANCHES:
        return b_type(BRANCHES[name], *operands)
    if name in LOADS:
        rd, offset, base = operands
        return i_type(0x03, LOADS[name], rd, base, offset)
    if name in STORES:
        source, offset, base = operands
        return s_type(STORES[name], source, base, offset)
    if name in ("lui", "auipc"):
        rd, upper = operands
        return (upper & 0xFFFFF) << 12 | rd << 7 | (0x37 if name == "lui" else 0x17)
    if name == "jal":
        return j_type(*operands)
    if name == "jalr":
        rd, offset, base = operands
        return i_type(0x67, 0, rd, base, offset)
    return WORDS[name]


class Code:
    """A program that is being written: instructions, labels and data, from address 4 on."""

    def __init__(self):
        self.parts, self.labels, self.here = [], {}, ENTRY

    def put(self, name, *operands):
        """An instruction; the last operand of a branch or `jal` may be a label."""
        at, self.here = self.here, self.here + 4
        if operands and isinstance(operands[-1], str):
            self.parts.append(lambda: struct.pack("<I", encode(name, *operands[:-1], self.labels[operands[-1]] - at)))
        else:
            self.word(encode(name, *operands), counted=True)
        return self

    def word(self, word, counted=False):
        self.here += 0 if counted else 4
        self.parts.append(lambda: struct.pack("<I", word))
        return self

    def data(self, data):
        self.here += len(data)
        self.parts.append(lambda: data)
        return self

    def align(self):
        return self.data(bytes(-self.here % 4))

    def label(self, name):
        self.labels[name] = self.here
        return self

    def li(self, register, value):
        """A constant, always in two instructions."""
        value &= 0xFFFFFFFF
        low = (value & 0xFFF) - ((value & 0x800) << 1)
        return self.put("lui", register, (value - low) >> 12).put("addi", register, register, low)

    def la(self, register, label):
        """The address of a label, in two instructions."""
        at, self.here = self.here, self.here + 8

        def words():
            value = self.labels[label]
            low = (value & 0xFFF) - ((value & 0x800) << 1)
            return struct.pack(
                "<II", encode("lui", register, (value - low) >> 12), encode("addi", register, register, low)
            )

        self.parts.append(words)
        return self

    def ret(self):
        return self.put("jalr", ZERO, 0, RA)

    def call(self, number):
        """A call of recall: its number goes into a7."""
        return self.put("addi", A7, ZERO, number).put("ecall")

    def output(self, label, length):
        return self.la(A0, label).li(A1, length).call(1)

    def image(self):
        return HEADER + b"".join(part() for part in self.parts)
