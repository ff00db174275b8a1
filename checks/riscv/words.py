"""Code of RV32IM for the trials of run.py: words by the formats of the standard, programs for qemu-riscv32, and random cases."""
import struct

BASE = 0x10000  # where programs begin: Linux maps nothing below it
DATA = 0x80000  # what loads and stores of streams reach, 4 KiB, and behind it what programs tell
TOLD = 0x81000
SIZE = 0x100000  # the memory
EDGES = [0, 1, 2, 3, 31, 32, 0x7ff, 0x800, 0x8000, 0x10000, 0x7fffffff, 0x80000000, 0x80000001, 0xffff8000, 0xfffffffe, 0xffffffff]
OPERATIONS = [(0, f) for f in range(8)] + [(1, f) for f in range(8)] + [(32, 0), (32, 5)]
IMMEDIATES = [0, 2, 3, 4, 6, 7]
BRANCHES = [0, 1, 4, 5, 6, 7]


def R(funct7, rs2, rs1, funct3, rd):
    return funct7 << 25 | rs2 << 20 | rs1 << 15 | funct3 << 12 | rd << 7 | 0x33


def I(opcode, imm, rs1, funct3, rd):
    return (imm & 0xfff) << 20 | rs1 << 15 | funct3 << 12 | rd << 7 | opcode


def S(imm, rs2, rs1, funct3):
    return (imm >> 5 & 0x7f) << 25 | rs2 << 20 | rs1 << 15 | funct3 << 12 | (imm & 31) << 7 | 0x23


def B(imm, rs2, rs1, funct3):
    return (imm >> 12 & 1) << 31 | (imm >> 5 & 63) << 25 | rs2 << 20 | rs1 << 15 | funct3 << 12 | (imm >> 1 & 15) << 8 | (imm >> 11 & 1) << 7 | 0x63


def U(opcode, imm, rd):
    return (imm & 0xfffff) << 12 | rd << 7 | opcode


def J(imm, rd):
    return (imm >> 20 & 1) << 31 | (imm >> 1 & 1023) << 21 | (imm >> 11 & 1) << 20 | (imm >> 12 & 255) << 12 | rd << 7 | 0x6f


def shift(other, count, rs1, right, rd):
    return I(0x13, (32 if other else 0) << 5 | count, rs1, 5 if right else 1, rd)


def li(rd, number):
    """Two words that put the number into the register."""
    low = number & 0xfff
    low -= 0x1000 if low >= 0x800 else 0
    return [U(0x37, (number - low & 0xffffffff) >> 12, rd), I(0x13, low, rd, 0, rd)]


def ending(end):
    """Tells the bytes from DATA to `end`, by `write` of Linux, and exits."""
    return li(17, 64) + li(10, 1) + li(11, DATA) + li(12, end - DATA) + [0x73] + li(17, 93) + li(10, 0) + [0x73]


class Program:
    """Bytes at BASE, which begin with code."""

    def __init__(self, code, entry=BASE):
        self.code, self.entry = code, entry

    @classmethod
    def of_elf(cls, text):
        entry, heads = struct.unpack_from("<II", text, 24)
        size, count = struct.unpack_from("<HH", text, 42)
        memory = bytearray(SIZE)
        end = 0
        for n in range(count):
            kind, at, place, _, length = struct.unpack_from("<5I", text, heads + size * n)
            if kind == 1:
                memory[place:place + length] = text[at:at + length]
                end = max(end, place + length)
        return cls(bytes(memory[BASE:end]), entry)

    def image(self):
        """From place 0 on: a jump to the entry, and the program."""
        return struct.pack("<2I", U(0x37, self.entry >> 12, 1), I(0x67, self.entry & 0xfff, 1, 0, 0)).ljust(BASE, b"\0") + self.code

    def elf(self):
        head = b"\x7fELF" + bytes([1, 1, 1]) + bytes(9) + struct.pack("<HHIIIIIHHHHHH", 2, 243, 1, self.entry, 52, 0, 0, 52, 32, 1, 0, 0, 0)
        part = struct.pack("<8I", 1, 0x1000, BASE, BASE, len(self.code), SIZE - BASE, 7, 0x1000)
        return (head + part).ljust(0x1000, b"\0") + self.code


def program_of(words):
    return Program(struct.pack("<%dI" % len(words), *words))


def edge_program():
    """Each instruction on edge values: what it gives is stored one behind the other, from TOLD on."""
    code, told = li(31, TOLD), 0

    def tell(*words):
        nonlocal told
        code.extend(words + (S(0, 3, 31, 2), I(0x13, 4, 31, 0, 31)))
        told += 4

    for a in EDGES:
        code += li(1, a)
        for immediate in [-2048, -1, 0, 1, 2047]:
            for funct3 in IMMEDIATES:
                tell(I(0x13, immediate, 1, funct3, 3))
        for count in [0, 1, 15, 31]:
            tell(shift(False, count, 1, False, 3))
            tell(shift(False, count, 1, True, 3))
            tell(shift(True, count, 1, True, 3))
        for b in EDGES:
            code += li(2, b)
            for funct7, funct3 in OPERATIONS:
                tell(R(funct7, 2, 1, funct3, 3))
            for funct3 in BRANCHES:
                tell(*li(3, 1), B(8, 2, 1, funct3), I(0x13, 1, 3, 0, 3))
    code += li(4, DATA)
    for a in EDGES:
        code += li(1, a)
        for funct3 in 0, 1, 2:
            for at in range(8):
                code += [S(16 + at, 1, 4, funct3)]
                for load in 0, 1, 2, 4, 5:
                    tell(I(0x03, 15 + at, 4, load, 3))
    for imm in [0, 1, 0x7ffff, 0x80000, 0xfffff]:
        tell(U(0x37, imm, 3))
        tell(U(0x17, imm, 3))
    tell(J(8, 3), 0)
    tell(J(12, 5), I(0x13, 1, 5, 0, 3), J(8, 0), I(0x67, 1, 5, 0, 6))
    tell(I(0x13, 7, 0, 0, 0), R(0, 0, 0, 0, 3))
    tell(0x0ff0000f, 0x8330000f, 0x0100000f, R(0, 31, 0, 0, 3))
    return program_of(code + ending(TOLD + told))


def drawn(r):
    return r.choice(EDGES) if r.random() < .5 else r.randrange(2**32)


def stream_item(r):
    """Some words, or ('branch', ..), ('jal', ..), ('jalr', ..), whose target is chosen later."""
    kind = r.random()
    rd, rs1, rs2 = r.randrange(31), r.randrange(32), r.randrange(32)
    if kind < .40:
        funct7, funct3 = r.choice(OPERATIONS)
        return [R(funct7, rs2, rs1, funct3, rd)]
    if kind < .52:
        return [I(0x13, r.randrange(-2048, 2048), rs1, r.choice(IMMEDIATES), rd)]
    if kind < .59:
        right = r.random() < .7
        return [shift(right and r.random() < .5, r.randrange(32), rs1, right, rd)]
    if kind < .65:
        return [U(r.choice([0x37, 0x17]), r.randrange(2**20), rd)]
    if kind < .74:
        return [I(0x03, r.randrange(-2048, 2044), 31, r.choice([0, 1, 2, 4, 5]), rd)]
    if kind < .83:
        return [S(r.randrange(-2048, 2044), rs2, 31, r.choice([0, 1, 2]))]
    if kind < .93:
        return ("branch", rs1, rs2, r.choice(BRANCHES))
    if kind < .96:
        return ("jal", rd)
    if kind < .99:
        return ("jalr", r.randrange(1, 31), rd)
    return [0x0ff0000f]


def stream(r, slot, length=60):
    """Registers are filled, random instructions follow, and what the registers are then is stored at the slot."""
    code = [word for x in range(1, 32) for word in li(x, DATA + 2048 if x == 31 else drawn(r))]
    items = [stream_item(r) for _ in range(length)]
    places = [0]
    for item in items:
        places.append(places[-1] + 4 * (len(item) if isinstance(item, list) else 2 if item[0] == "jalr" else 1))
    for n, item in enumerate(items):
        ahead = places[min(n + r.randrange(1, 6), length)] - places[n]
        if isinstance(item, list):
            code += item
        elif item[0] == "branch":
            code.append(B(ahead, item[1], item[2], item[3]))
        elif item[0] == "jal":
            code.append(J(ahead, item[1]))
        else:
            code += [U(0x17, 0, item[1]), I(0x67, ahead + r.randrange(2), item[1], 0, item[2])]
    return code + li(31, slot) + [S(4 * x, x, 31, 2) for x in range(31)]


def stream_program(r, count):
    code = []
    for n in range(count):
        code += stream(r, TOLD + 124 * n)
    return program_of(code + ending(TOLD + 124 * count))


def wild_word(r):
    kind = r.random()
    if kind < .7:
        return r.choice([word for item in [stream_item(r)] if isinstance(item, list) for word in item] or [J(r.choice([-8, -4, 2, 4, 6, 8, 400]), r.randrange(32))])
    if kind < .8:
        return B(r.choice([-8, -4, 2, 4, 8, 4094]), r.randrange(32), r.randrange(32), r.randrange(8))
    if kind < .86:
        return I(r.choice([0x67, 0x03, 0x0f]), r.randrange(-2048, 2048), r.randrange(32), r.randrange(8), r.randrange(32))
    if kind < .9:
        return S(r.randrange(-2048, 2048), r.randrange(32), r.randrange(32), r.randrange(4))
    if kind < .95:
        return r.randrange(2**32) & ~0x7f | r.choice([0x33, 0x13, 0x73, 0x63])
    return r.choice([0x73, 0x100073, 0, 0xffffffff, r.randrange(2**32)])


def near_word(r):
    """A word that may be an instruction: mostly of an opcode of RV32IM, often with a funct7 of it."""
    word = r.randrange(2**32)
    if r.random() < .9:
        word = word & ~0x7f | r.choice([0x33, 0x13, 0x03, 0x23, 0x63, 0x37, 0x17, 0x6f, 0x67, 0x0f, 0x73])
    if r.random() < .6:
        word = word & 0x01ffffff | r.choice([0, 1, 2, 32, 33]) << 25
    return r.choice([0x73, 0x100073, 0x0ff0000f, 0x0000100f]) if r.random() < .01 else word


def wild_case(r):
    """An image, a memory's size, a place to begin at, fuel and registers."""
    words = [wild_word(r) for _ in range(r.randrange(1, 60))]
    image = struct.pack("<%dI" % len(words), *words) + bytes(r.randrange(4))
    size = r.choice([0, 1, 3, 4, 64, 256, 1000, 4096])
    near = [size - 4, size - 3, size - 2, size - 1, size, 2048, 2**32 - 1, 2**32 - 2, 4]
    registers = [0] + [r.choice(near) % 2**32 if r.random() < .4 else r.randrange(4096) if r.random() < .4 else drawn(r) for _ in range(31)]
    pc = 0 if r.random() < .8 else r.choice([1, 2, 4, 8, 400, 2**32 - 4, 4 * len(words)])
    return image[:max(size, 0)] if size < len(image) and r.random() < .1 else image, size, pc, r.choice([0, 1, 2, 10, 100, 300]), registers
