"""RV32IM in Python alone: what code does to registers and memory, written from the unprivileged standard of RISC-V (version 20191213,
chapters 2, 7 and 24), and not from crates/riscv. Slow and plain: about a million instructions a second. `run` is what a caller needs.
"""

ALL = 0xffffffff  # the greatest word, which is -1 where words have a sign

# What a run answers: where it goes on, or why it does not.
AT, ENDED, TRAPPED = "At", "Ended", "Trapped"
MISALIGNED, NO_CODE, ILLEGAL, BREAKPOINT, NO_LOAD, NO_STORE = (
    "InstructionAddressMisaligned", "InstructionAccessFault", "IllegalInstruction", "Breakpoint", "LoadAccessFault", "StoreAccessFault")


class Trap(Exception):
    """An instruction that can't be carried out; its argument is the reason."""


def signed(word):
    """The number that a word stands for in two's complement."""
    return word - 2**32 if word >= 2**31 else word


def bits(word, high, low):
    return word >> low & (1 << high - low + 1) - 1


def extended(number, width):
    """A number of so many bits, as a word whose upper bits are as its highest."""
    return (number - (1 << width) if number >> width - 1 else number) & ALL


def immediates(w):
    """The immediates of the formats I, S, B, U and J."""
    return (extended(bits(w, 31, 20), 12),
            extended(bits(w, 31, 25) << 5 | bits(w, 11, 7), 12),
            extended(bits(w, 31, 31) << 12 | bits(w, 7, 7) << 11 | bits(w, 30, 25) << 5 | bits(w, 11, 8) << 1, 13),
            bits(w, 31, 12) << 12,
            extended(bits(w, 31, 31) << 20 | bits(w, 19, 12) << 12 | bits(w, 20, 20) << 11 | bits(w, 30, 21) << 1, 21))


def toward_zero(a, b):
    """The quotient and the remainder, rounded toward zero."""
    quotient = abs(a) // abs(b)
    if (a < 0) != (b < 0):
        quotient = -quotient
    return quotient, a - quotient * b


BASE = {  # by funct3, with funct7 0
    0: lambda a, b: a + b,
    1: lambda a, b: a << (b & 31),
    2: lambda a, b: int(signed(a) < signed(b)),
    3: lambda a, b: int(a < b),
    4: lambda a, b: a ^ b,
    5: lambda a, b: a >> (b & 31),
    6: lambda a, b: a | b,
    7: lambda a, b: a & b,
}
OTHER = {  # with funct7 0100000: sub and sra
    0: lambda a, b: a - b,
    5: lambda a, b: signed(a) >> (b & 31),
}
TIMES = {  # with funct7 0000001: the extension M
    0: lambda a, b: a * b,
    1: lambda a, b: signed(a) * signed(b) >> 32,
    2: lambda a, b: signed(a) * b >> 32,
    3: lambda a, b: a * b >> 32,
    4: lambda a, b: toward_zero(signed(a), signed(b))[0] if b else -1,
    5: lambda a, b: a // b if b else ALL,
    6: lambda a, b: toward_zero(signed(a), signed(b))[1] if b else a,
    7: lambda a, b: a % b if b else a,
}
TABLES = {0b0000000: BASE, 0b0000001: TIMES, 0b0100000: OTHER}
BRANCHES = {
    0: lambda a, b: a == b, 1: lambda a, b: a != b,
    4: lambda a, b: signed(a) < signed(b), 5: lambda a, b: signed(a) >= signed(b),
    6: lambda a, b: a < b, 7: lambda a, b: a >= b,
}
LOADS = {0: (1, True), 1: (2, True), 2: (4, False), 4: (1, False), 5: (2, False)}  # how many bytes, and whether with their sign
STORES = {0: 1, 1: 2, 2: 4}


def entry(table, key):
    if key not in table:
        raise Trap(ILLEGAL)
    return table[key]


def aligned(target):
    if target % 4:
        raise Trap(MISALIGNED)
    return target


def step(w, pc, x, memory):
    """Carries out the word w at the place pc; gives the next place, or None after `ecall`. A trap comes before any change."""
    opcode, rd, funct3, funct7 = bits(w, 6, 0), bits(w, 11, 7), bits(w, 14, 12), bits(w, 31, 25)
    a, b = x[bits(w, 19, 15)], x[bits(w, 24, 20)]
    imm_i, imm_s, imm_b, imm_u, imm_j = immediates(w)
    value, after = None, pc + 4 & ALL
    if opcode == 0b0110111:  # lui
        value = imm_u
    elif opcode == 0b0010111:  # auipc
        value = pc + imm_u
    elif opcode == 0b1101111:  # jal
        value, after = after, aligned(pc + imm_j & ALL)
    elif opcode == 0b1100111 and funct3 == 0:  # jalr
        value, after = after, aligned(a + imm_i & ALL & ~1)
    elif opcode == 0b1100011:
        if entry(BRANCHES, funct3)(a, b):
            after = aligned(pc + imm_b & ALL)
    elif opcode == 0b0000011:
        size, with_sign = entry(LOADS, funct3)
        at = a + imm_i & ALL
        if at + size > len(memory):
            raise Trap(NO_LOAD)
        value = int.from_bytes(memory[at:at + size], "little", signed=with_sign)
    elif opcode == 0b0100011:
        size = entry(STORES, funct3)
        at = a + imm_s & ALL
        if at + size > len(memory):
            raise Trap(NO_STORE)
        memory[at:at + size] = (b & (1 << 8 * size) - 1).to_bytes(size, "little")
    elif opcode == 0b0010011 and funct3 in (1, 5):  # slli, srli, srai
        value = entry(entry({0: BASE, 0b0100000: {5: OTHER[5]}}, funct7), funct3)(a, bits(w, 24, 20))
    elif opcode == 0b0010011:
        value = BASE[funct3](a, imm_i)
    elif opcode == 0b0110011:
        value = entry(entry(TABLES, funct7), funct3)(a, b)
    elif w == 0x00000073:
        return None
    elif w == 0x00100073:
        raise Trap(BREAKPOINT)
    elif not (opcode == 0b0001111 and funct3 == 0):  # fence
        raise Trap(ILLEGAL)
    if value is not None and rd:
        x[rd] = value & ALL
    return after


def run(image, pc, fuel, x, memory):
    """Runs the words of the image from the place pc on, for at most so many instructions. Changes x, a list of 32 words, and memory, a
    bytearray. Gives (AT, place), (ENDED,) or (TRAPPED, reason, place), and the fuel that is left. What is stored does not change the code."""
    words = [int.from_bytes(image[at:at + 4], "little") for at in range(0, len(image) - 3, 4)]
    while fuel:
        fuel -= 1
        try:
            if pc % 4:
                raise Trap(MISALIGNED)
            if pc // 4 >= len(words):
                raise Trap(NO_CODE)
            after = step(words[pc // 4], pc, x, memory)
        except Trap as trap:
            return (TRAPPED, trap.args[0], pc), fuel
        if after is None:
            return (ENDED,), fuel
        pc = after
    return (AT, pc), fuel
