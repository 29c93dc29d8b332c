"""What each operation of RV32IM gives, in Python's whole numbers, from the words of the RISC-V manual (volume I,
chapters RV32I and "M"). Registers are numbers from 0 to 2^32 - 1."""

FULL = 1 << 32


def signed(n):
    """The number in two's complement."""
    return n - FULL if n >> 31 else n


def truncated(dividend, divisor):
    """A quotient, rounded towards zero."""
    quotient = abs(dividend) // abs(divisor)
    return quotient if (dividend < 0) == (divisor < 0) else -quotient


def div(a, b):
    """Division by zero has all bits set. The only overflow is of the least number by -1, which gives the least
    number."""
    return FULL - 1 if b == 0 else truncated(signed(a), signed(b)) % FULL


def rem(a, b):
    """The remainder has the sign of the dividend; by zero it is the dividend, and where the quotient overflows it is
    0."""
    return a if b == 0 else (signed(a) - signed(b) * truncated(signed(a), signed(b))) % FULL


VALUE = {
    "add": lambda a, b: (a + b) % FULL,
    "sub": lambda a, b: (a - b) % FULL,
    "sll": lambda a, b: (a << b % 32) % FULL,
    "slt": lambda a, b: int(signed(a) < signed(b)),
    "sltu": lambda a, b: int(a < b),
    "xor": lambda a, b: a ^ b,
    "srl": lambda a, b: a >> b % 32,
    "sra": lambda a, b: (signed(a) >> b % 32) % FULL,
    "or": lambda a, b: a | b,
    "and": lambda a, b: a & b,
    "mul": lambda a, b: a * b % FULL,
    "mulh": lambda a, b: (signed(a) * signed(b) >> 32) % FULL,
    "mulhsu": lambda a, b: (signed(a) * b >> 32) % FULL,
    "mulhu": lambda a, b: a * b >> 32,
    "div": div,
    "divu": lambda a, b: FULL - 1 if b == 0 else a // b,
    "rem": rem,
    "remu": lambda a, b: a if b == 0 else a % b,
}

TAKEN = {
    "beq": lambda a, b: a == b,
    "bne": lambda a, b: a != b,
    "blt": lambda a, b: signed(a) < signed(b),
    "bge": lambda a, b: signed(a) >= signed(b),
    "bltu": lambda a, b: a < b,
    "bgeu": lambda a, b: a >= b,
}


def loaded(name, memory, at):
    """What a load gives of these bytes: little-endian, extended by the sign or by zeros."""
    size = {"b": 1, "h": 2, "w": 4}[name[1]]
    value = int.from_bytes(memory[at : at + size], "little")
    is_negative = not name.endswith("u") and value >> (8 * size - 1)
    return (value - (1 << 8 * size) if is_negative else value) % FULL


# Rows of the manual's table of division, apart from the functions above: operation, dividend, divisor, result.
LEAST, ONES = 0x80000000, 0xFFFFFFFF
DIVISIONS = [
    ("divu", 7, 0, ONES),
    ("remu", 7, 0, 7),
    ("div", 7, 0, ONES),
    ("rem", 7, 0, 7),
    ("div", LEAST, ONES, LEAST),
    ("rem", LEAST, ONES, 0),
    ("div", 7, -2 % FULL, -3 % FULL),
    ("rem", 7, -2 % FULL, 1),
    ("div", -7 % FULL, 2, -3 % FULL),
    ("rem", -7 % FULL, 2, ONES),
    ("divu", LEAST, ONES, 0),
    ("remu", LEAST, ONES, LEAST),
    ("mulh", LEAST, LEAST, 0x40000000),
    ("mulhsu", ONES, ONES, ONES),
    ("mulhu", ONES, ONES, 0xFFFFFFFE),
    ("mulhsu", LEAST, ONES, LEAST),
]
