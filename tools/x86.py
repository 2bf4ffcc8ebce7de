"""The instructions of a program for x86-64, read one behind another: how long each is, and whether it divides. No
command: tools/divides imports it. Machines that run the gate have no disassembler in common, and to know lengths and
divisions no more is needed than this.
"""
import struct


class Unknown(Exception):
    """A file or an instruction that is not known here."""


# One-byte instructions: those with a ModRM byte, and how many bytes of constants follow (z: 4, or 2 behind 66 hex)
PLAIN = {0x63: "", 0x69: "z", 0x6B: "b", 0x80: "b", 0x81: "z", 0x83: "b", 0xC0: "b", 0xC1: "b", 0xC6: "b", 0xC7: "z"}
PLAIN |= {op: "" for op in (*range(0x84, 0x90), *range(0xD0, 0xD4), *range(0xD8, 0xE0), 0xFE, 0xFF)}
PLAIN |= {8 * row + op: "" for row in range(8) for op in range(4)}
BARE = {8 * row + 4: "b" for row in range(8)} | {8 * row + 5: "z" for row in range(8)}
BARE |= {op: "" for op in (*range(0x50, 0x60), *range(0x90, 0x9A), *range(0x9B, 0xA0))}
BARE |= {op: "" for op in (*range(0xA4, 0xA8), *range(0xAA, 0xB0))}
BARE |= {op: "b" for op in (*range(0x70, 0x80), *range(0xB0, 0xB8), 0x6A, 0xA8, 0xCD, 0xE3, 0xEB)}
BARE |= {op: "" for op in (0xC3, 0xC9, 0xCC, 0xF4, 0xF5, 0xF8, 0xF9, 0xFC, 0xFD)}
BARE |= {0x68: "z", 0xA9: "z", 0xC2: "w", 0xE8: "d", 0xE9: "d"}
# Two-byte ones, behind 0F hex: those without a ModRM byte, and those with a byte behind it; every other known one has
# ModRM alone
BARE_0F = {op: "" for op in (0x05, 0x0B, 0x31, 0x77, 0xA2, *range(0xC8, 0xD0))} | {op: "d" for op in range(0x80, 0x90)}
BYTE_0F = {0x70, 0x71, 0x72, 0x73, 0xA4, 0xAC, 0xBA, 0xC2, 0xC4, 0xC5, 0xC6}
KNOWN_0F = {0x0D, *range(0x10, 0x19), 0x1E, 0x1F, *range(0x28, 0x30), *range(0x40, 0x80), *range(0x90, 0xA0)}
KNOWN_0F |= {*range(0xA3, 0xA6), 0xAB, *range(0xAC, 0xB0), *range(0xB0, 0xB9), *range(0xBA, 0xC8), *range(0xD0, 0xFF)}
PREFIXES = {0x26, 0x2E, 0x36, 0x3E, 0x64, 0x65, 0x66, 0x67, 0xF0, 0xF2, 0xF3}


def modrm_end(code, at):
    """Behind a ModRM byte, its SIB byte and its offset."""
    mode, low = code[at] >> 6, code[at] & 7
    at += 1
    if mode == 3:
        return at
    if low == 4:
        base = code[at] & 7
        at += 1
        if mode == 0 and base == 5:
            return at + 4
    if mode == 0 and low == 5:
        return at + 4
    return at + (0, 1, 4)[mode]


def step(code, at):
    """Behind the instruction here, and whether it divides."""
    start, narrow, wide = at, False, False
    while code[at] in PREFIXES:
        narrow |= code[at] == 0x66
        at += 1
    if code[at] & 0xF0 == 0x40:
        wide = bool(code[at] & 8)
        at += 1
    op = code[at]
    at += 1
    sizes = {"": 0, "b": 1, "w": 2, "d": 4, "z": 2 if narrow and not wide else 4}
    if op == 0x0F:
        return two_byte(code, start, at, sizes)
    field = code[at] >> 3 & 7 if at < len(code) else 0
    if op in (0xF6, 0xF7):
        return modrm_end(code, at) + (sizes["b" if op == 0xF6 else "z"] if field < 2 else 0), field in (6, 7)
    if op in PLAIN:
        floats = op in (0xD8, 0xDA, 0xDC, 0xDE) and field in (6, 7) or op == 0xD9 and code[at] in (0xF5, 0xF8)
        return modrm_end(code, at) + sizes[PLAIN[op]], floats
    if op in BARE:
        return at + sizes[BARE[op]], False
    if 0xB8 <= op <= 0xBF:
        return at + (8 if wide else sizes["z"]), False
    raise Unknown(f"an instruction that tools/x86.py does not know, {code[start:start + 12].hex(' ')}")


def two_byte(code, start, at, sizes):
    op = code[at]
    at += 1
    if op in BARE_0F:
        return at + sizes[BARE_0F[op]], False
    if op in (0x38, 0x3A):
        return modrm_end(code, at + 1) + (op == 0x3A), False
    if op in KNOWN_0F:
        return modrm_end(code, at) + (op in BYTE_0F), op == 0x5E
    raise Unknown(f"an instruction that tools/x86.py does not know, {code[start:start + 12].hex(' ')}")


def text_at(table, at):
    return table[at:table.index(b"\0", at)].decode()


class Program:
    """A program's sections of code, and its symbols."""

    def __init__(self, data):
        if data[:6] != b"\x7fELF\2\1" or struct.unpack_from("<H", data, 18)[0] != 62:
            raise Unknown("no program for x86-64")
        offset, size, count = *struct.unpack_from("<Q", data, 40), *struct.unpack_from("<HH", data, 58)
        heads = [struct.unpack_from("<IIQQQQIIQQ", data, offset + size * i) for i in range(count)]
        part = [data[head[4]:head[4] + head[5]] if head[1] != 8 else b"" for head in heads]
        self.code = [(head[3], part[i]) for i, head in enumerate(heads) if head[1] == 1 and head[2] & 4]
        self.symbols = []
        for i, head in enumerate(heads):
            for place in range(0, len(part[i]), 24) if head[1] in (2, 11) else []:
                name, info, _, section, value, length = struct.unpack_from("<IBBHQQ", part[i], place)
                self.symbols.append((text_at(part[head[6]], name), info & 15, section, value, length))
        if not self.code or not self.symbols:
            raise Unknown("no code, or no symbols to tell of what it takes")

    def wanted(self):
        """What the program takes from elsewhere."""
        return sorted({name.split("@")[0] for name, _, section, _, _ in self.symbols if section == 0 and name})

    def owner(self, place):
        """The function that a place lies in, as far as symbols tell."""
        functions = [(value, name) for name, kind, section, value, _ in self.symbols if kind == 2 and section]
        return max([one for one in functions if one[0] <= place], default=(0, "no function"))[1]

    def divides(self):
        """Each place of a divide instruction, with the function that has it."""
        for base, code in self.code:
            at = 0
            while at < len(code):
                try:
                    end, divides = step(code, at)
                except (Unknown, IndexError) as fault:
                    raise Unknown(f"at {base + at:#x}: {fault}") from None
                if end > len(code):
                    raise Unknown(f"at {base + at:#x}: an instruction that its section cuts short")
                if divides:
                    yield base + at, self.owner(base + at)
                at = end
