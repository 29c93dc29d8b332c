"""Each instruction of RV32IM at its corner values: a program for each computes them, and puts the results out in
hexadecimal digits. What is wanted is computed in `arithmetic`, from the manual."""

import struct

from arithmetic import DIVISIONS, FULL, TAKEN, VALUE, loaded
from assembler import (
    A0,
    A1,
    A2,
    A7,
    ALL,
    BRANCHES,
    IMMEDIATES,
    LOADS,
    MEMORY,
    OPERATIONS,
    RA,
    S0,
    S1,
    S2,
    S3,
    SHIFTS,
    STORES,
    T0,
    T1,
    T2,
    T3,
    T4,
    T5,
    T6,
    ZERO,
    Code,
    encode,
)
from host import loading_texts

CORNERS = [
    0,
    1,
    2,
    3,
    31,
    32,
    0x7F,
    0x80,
    0x7FFF,
    0x8000,
    0x12345678,
    0x7FFFFFFF,
    0x80000000,
    0x80000001,
    0xFFFFFFFE,
    0xFFFFFFFF,
]
SMALL = [-2048, -2047, -1, 0, 1, 2, 31, 0x555, 2047]
UPPER = [0, 1, 2, 0x12345, 0x7FFFF, 0x80000, 0xFFFFF]
AMOUNTS = [0, 1, 2, 15, 16, 30, 31]
BUFFER, SCRATCH, PLANTED = 0x3A000, 0x38000, 0x20000


class Table(Code):
    """A program that computes one result after another. `wanted` are the results, `names` what each is of, and `before`
    what it puts out before them."""

    def __init__(self):
        super().__init__()
        self.wanted, self.names, self.before = [], [], []
        self.put("addi", S1, RA, 0).li(S0, BUFFER)

    def result(self, what, value, register=A0):
        """The number in a register is one more result, and should be this one."""
        self.put("addi", A0, register, 0).put("jal", RA, "hex")
        self.wanted.append(value % FULL)
        self.names.append(what)

    def end(self):
        """Puts out what was collected, and returns. The routine behind it writes a0 in hexadecimal digits where s0
        points."""
        self.li(A0, BUFFER).put("sub", A1, S0, A0).call(1).put("jalr", ZERO, 0, S1)
        self.label("hex").put("addi", T0, ZERO, 28).label("digit").put("srl", T1, A0, T0).put("andi", T1, T1, 15)
        self.put("addi", T2, ZERO, 10).put("blt", T1, T2, "decimal").put("addi", T1, T1, 39).label("decimal").put(
            "addi", T1, T1, 48
        )
        self.put("sb", T1, 0, S0).put("addi", S0, S0, 1).put("addi", T0, T0, -4).put("bge", T0, ZERO, "digit").ret()
        return self

    def plant(self, at, words):
        """Writes instructions into memory."""
        self.li(T5, at)
        for number, word in enumerate(words):
            self.li(T6, word).put("sw", T6, 4 * number, T5)

    def go(self, at):
        """Calls what was planted."""
        self.li(T5, at).put("jalr", RA, 0, T5)

    def texts(self):
        return [*loading_texts(self.end().image()), "go"]

    def wrong(self, outputs):
        """The first result that isn't the wanted one."""
        *before, got = outputs[-1] or [""]
        if any(outputs[:-1]) or before != self.before or len(got) != 8 * len(self.wanted):
            return f"{outputs!r:.300} for {len(self.wanted)} results"
        for number, (what, value) in enumerate(zip(self.names, self.wanted)):
            if (is_so := got[8 * number : 8 * number + 8]) != "%08x" % value:
                return f"{what} is {is_so}, not {value:08x}"
        return None


def aliased(table, name, one, other):
    """The same where registers coincide, and where the result goes into x0."""
    value = VALUE[name]
    for what, words, wanted in (
        (f"{name} a0, a0, a2", (A0, A0, A2), value(one, other)),
        (f"{name} a0, a2, a0", (A0, A2, A0), value(other, one)),
        (f"{name} a0, a0, a0", (A0, A0, A0), value(one, one)),
        (f"{name} a0, x0, a2", (A0, ZERO, A2), value(0, other)),
        (f"{name} a0, a0, x0", (A0, A0, ZERO), value(one, 0)),
    ):
        table.li(A0, one).li(A2, other).put(name, *words)
        table.result(what, wanted)
    table.li(A0, one).li(A2, other).put(name, ZERO, A0, A2)
    table.result(f"x0 after {name} x0, a0, a2", 0, ZERO)


def operation(name):
    table = Table()
    pairs = [(a, b, VALUE[name](a, b)) for a in CORNERS for b in CORNERS] + [
        (a, b, wanted) for one, a, b, wanted in DIVISIONS if one == name
    ]
    for a, b, wanted in pairs:
        table.li(T3, a).li(T4, b).put(name, A0, T3, T4)
        table.result(f"{name} of {a:x} and {b:x}", wanted)
    aliased(table, name, 0x80000003, 0xFFFFFFFD)
    return table


def immediate(name):
    table, of = (
        Table(),
        {"addi": "add", "slti": "slt", "sltiu": "sltu", "xori": "xor", "ori": "or", "andi": "and"}[name],
    )
    for a in CORNERS:
        for b in SMALL:
            table.li(T3, a).put(name, A0, T3, b)
            table.result(f"{name} of {a:x} and {b}", VALUE[of](a, b % FULL))
    table.put(name, ZERO, ZERO, 5)
    table.result(f"x0 after {name}", 0, ZERO)
    table.li(A0, 0x7FF).put(name, A0, A0, -7)
    table.result(f"{name} a0, a0", VALUE[of](0x7FF, -7 % FULL))
    return table


def shift(name):
    table, of = Table(), name[:-1]
    for a in CORNERS:
        for amount in AMOUNTS:
            table.li(T3, a).put(name, A0, T3, amount)
            table.result(f"{name} of {a:x} by {amount}", VALUE[of](a, amount))
    return table


def upper(name):
    table = Table()
    for part in UPPER:
        at = table.here
        table.put(name, A0, part)
        table.result(f"{name} of {part:x} at {at:x}", (part << 12) + (at if name == "auipc" else 0))
        table.put(name, ZERO, part)
        table.result(f"x0 after {name}", 0, ZERO)
    return table


def branch(name):
    table = Table()
    for a in CORNERS:
        for b in CORNERS:
            table.li(T3, a).li(T4, b).put("addi", A0, ZERO, 1).put(name, T3, T4, 8).put("addi", A0, ZERO, 0)
            table.result(f"{name} of {a:x} and {b:x}", int(TAKEN[name](a, b)))
    pair = (S2, S2) if TAKEN[name](1, 1) else (ZERO, S2) if TAKEN[name](0, 1) else (S2, ZERO)
    table.put("addi", S2, ZERO, 1)
    for offset in [sign * (1 << bit) for bit in range(4, 12) for sign in (1, -1)] + [-4096, 4092, -8 - 2048]:
        table.plant(PLANTED, [encode(name, *pair, offset), encode("addi", A0, ZERO, 0), encode("jalr", ZERO, 0, RA)])
        table.plant(PLANTED + offset, [encode("addi", A0, ZERO, 1), encode("jalr", ZERO, 0, RA)])
        table.go(PLANTED)
        table.result(f"{name} by {offset}", 1)
    return table


def jump_and_link():
    table = Table()
    for offset in [sign * (1 << bit) for bit in range(4, 17) for sign in (1, -1)] + [0x17FFC, -0x1F000, 0x155AC]:
        there = PLANTED + offset
        table.plant(PLANTED, [encode("jal", A2, offset), encode("jalr", ZERO, 0, RA)])
        table.plant(there, [encode("jal", S3, 4 - offset)])
        table.put("addi", S3, ZERO, 0)
        table.go(PLANTED)
        table.result(f"the link of jal by {offset}", PLANTED + 4, A2)
        table.result(f"the link of jal by {4 - offset}", there + 4, S3)
    table.put("jal", ZERO, 8).put("addi", ZERO, ZERO, 0)
    table.result("x0 after jal x0", 0, ZERO)
    return table


def jump_and_link_register():
    """Also where the register of the target is that of the link, and where the lowest bit of the target is set: it is
    cleared."""
    table = Table()
    for offset in (-2048, -1024, -4, -1, 0, 1, 4, 5, 1024, 2047):
        table.plant(PLANTED, [encode("jalr", A2, offset, A2), encode("addi", ZERO, ZERO, 0)])
        target = PLANTED + 0x4000
        table.plant(target, [encode("addi", S3, ZERO, 7), encode("jalr", ZERO, 0, RA)])
        table.put("addi", S3, ZERO, 0).li(A2, target + (offset & 1) - offset)
        table.go(PLANTED)
        table.result(f"the link of jalr by {offset}", PLANTED + 4, A2)
        table.result(f"where jalr by {offset} goes", 7, S3)
    table.la(T5, "next").put("jalr", ZERO, 1, T5).label("next")
    table.result("x0 after jalr x0", 0, ZERO)
    return table


BYTES = bytes([0x80, 0x7F, 0xFF, 0x01, 0x00, 0x80, 0xFE, 0x7F, 0x12, 0x34, 0x56, 0x78, 0xFF, 0xFF, 0xFF, 0xFF])


def load(name):
    table, size = Table(), {"b": 1, "h": 2, "w": 4}[name[1]]
    table.plant(SCRATCH, struct.unpack("<4I", BYTES))
    for at in range(0, len(BYTES), size):
        for offset in (-2048, -size, 0, size, 2048 - size):
            table.li(T3, SCRATCH + at - offset).put(name, A0, offset, T3)
            table.result(f"{name} of byte {at} by {offset}", loaded(name, BYTES, at))
    table.li(A0, SCRATCH).put(name, A0, 0, A0)
    table.result(f"{name} into its base", loaded(name, BYTES, 0))
    table.li(T3, SCRATCH).put(name, ZERO, 0, T3)
    table.result(f"x0 after {name}", 0, ZERO)
    table.li(T3, MEMORY - size).put(name, A0, 0, T3)
    table.result(f"{name} of the last bytes of memory", 0)
    return table


def store(name):
    table, size = Table(), {"b": 1, "h": 2, "w": 4}[name[1]]
    for value in (0, 0x89ABCDEF, 0xFFFFFFFF):
        for at in range(4, 8, size):
            for offset in (-2048, 0, 2044):
                memory = bytearray(struct.pack("<3I", 0x11223344, 0x55667788, 0x99AABBCC))
                table.plant(SCRATCH, struct.unpack("<3I", memory))
                table.li(T3, SCRATCH + at - offset).li(T4, value).put(name, T4, offset, T3).li(T3, SCRATCH)
                memory[at : at + size] = (value % (1 << 8 * size)).to_bytes(size, "little")
                for word in range(3):
                    table.put("lw", A0, 4 * word, T3)
                    table.result(
                        f"word {word} after {name} of {value:x} at {at} by {offset}",
                        struct.unpack_from("<I", memory, 4 * word)[0],
                    )
    table.li(T3, MEMORY - size).li(T4, 0x81).put(name, T4, 0, T3).put("lbu", A0, 0, T3)
    table.result(f"{name} to the last bytes of memory", 0x81)
    return table


def fence():
    """Whatever its fields say, reserved ones among them: a machine of one thread does nothing."""
    table = Table()
    for word in (0x0FF0000F, 0x8330000F, 0x0100000F, 0x0000000F, 0xFFF08F8F | 0xF8000, 0x12345F8F & ~0x7000):
        table.li(T6, 5).li(S3, 9).word(word)
        table.result(f"x31 after {word:08x}", 5, T6)
        table.result(f"x19 after {word:08x}", 9, S3)
    return table


def environment_call():
    """An output and a send leave all registers as they are."""
    table = Table()
    table.before = [""]
    wanted = {register: register + 100 for register in range(2, 32) if register not in (S0, S1)} | {A0: 2, A1: 0, A2: 0}
    for call in (1, 2):
        for register, value in (wanted | {A7: call}).items():
            table.put("addi", register, ZERO, value)
        table.put("ecall")
        # What writes a result changes a0 and t0 to t2, so these are looked at first, by way of others.
        for register, copy in ((A0, S2), (T0, S3), (T1, T3), (T2, T4)):
            table.put("sub", copy, register, copy)
        for register, copy in ((A0, S2), (T0, S3), (T1, T3), (T2, T4)):
            table.result(f"x{register} and x{copy} after call {call}", wanted[register] - wanted[copy], copy)
        for register in sorted(set(wanted) - {A0, T0, T1, T2, S2, S3, T3, T4} | {A7}):
            table.result(f"x{register} after call {call}", (wanted | {A7: call})[register], register)
    return table


class Break(Code):
    """EBREAK is a trap, and tells where."""

    def texts(self):
        return [*loading_texts(self.put("addi", A0, ZERO, 1).put("ebreak").ret().image()), "go"]

    def wrong(self, outputs):
        return None if outputs[-1] == ["trap: breakpoint at 8"] else f"{outputs!r}"


def table_of(name):
    for names, make in (
        (OPERATIONS, operation),
        (IMMEDIATES, immediate),
        (SHIFTS, shift),
        (BRANCHES, branch),
        (LOADS, load),
        (STORES, store),
        (("lui", "auipc"), upper),
    ):
        if name in names:
            return make(name)
    return {
        "jal": jump_and_link,
        "jalr": jump_and_link_register,
        "fence": fence,
        "ecall": environment_call,
        "ebreak": Break,
    }[name]()


def checks():
    """All are run at once, and each is looked at by itself."""
    tables = {name: table_of(name) for name in ALL}
    told = {}

    def check(name):
        def look(host):
            if not told:
                told.update(zip(tables, host.outputs([table.texts() for table in tables.values()])))
            return tables[name].wrong(told[name])

        return look

    return [(f"instruction {name}", check(name)) for name in ALL]
