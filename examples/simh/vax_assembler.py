"""Assembles programs for the VAX: of MACRO-32's language the part that the programs of this folder use.

Numbers are decimal, or hexadecimal after `^x`. A name as an operand is relative to the PC. A program begins at a page
of memory that it doesn't know, so `.` and its labels count from there."""
import re

# Per instruction its opcode, and for each operand its length: b, w or l for an operand, B or W for a branch.
INSTRUCTIONS = {
    "halt": (0x00, ""), "rei": (0x02, ""), "rsb": (0x05, ""),
    "bsbb": (0x10, "B"), "brb": (0x11, "B"), "bneq": (0x12, "B"), "beql": (0x13, "B"), "bgeq": (0x18, "B"),
    "blss": (0x19, "B"), "bsbw": (0x30, "W"), "brw": (0x31, "W"), "bbc": (0xE1, "lbB"), "sobgtr": (0xF5, "lB"),
    "ashl": (0x78, "bll"), "rotl": (0x9C, "bll"), "extzv": (0xEF, "lbbl"),
    "movzbl": (0x9A, "bl"), "movzwl": (0x3C, "wl"), "movab": (0x9E, "bl"), "cmpw": (0xB1, "ww"), "movw": (0xB0, "ww"), "bitw": (0xB3, "ww"),
    "clrw": (0xB4, "w"), "tstw": (0xB5, "w"), "addw2": (0xA0, "ww"), "addl2": (0xC0, "ll"), "bisl2": (0xC8, "ll"),
    "movl": (0xD0, "ll"), "cmpl": (0xD1, "ll"), "clrl": (0xD4, "l"), "tstl": (0xD5, "l"), "incl": (0xD6, "l"),
    "decl": (0xD7, "l"), "mtpr": (0xDA, "ll"), "mfpr": (0xDB, "ll"),
}
REGISTERS = {**{f"r{n}": n for n in range(12)}, "ap": 12, "fp": 13, "sp": 14, "pc": 15}
SIZES = {"b": 1, "w": 2, "l": 4}
DATA = {".byte": 1, ".word": 2, ".long": 4}


class Assembler:
    def __init__(self, given):
        self.given = given
        self.names = dict(given)
        self.bytes = bytearray()
        self.last_pass = False

    def value(self, text):
        total = 0
        for sign, term in re.findall(r"([+-]?)\s*([^+\s-]+)", text):
            if term == ".":
                number = len(self.bytes)
            elif term.startswith("^x"):
                number = int(term[2:], 16)
            elif term.isdigit():
                number = int(term)
            elif term in self.names or not self.last_pass:
                number = self.names.get(term, 0)
            else:
                raise ValueError(f"nothing is called {term}")
            total += -number if sign == "-" else number
        return total

    def put(self, number, size):
        self.bytes += (number & (1 << 8 * size) - 1).to_bytes(size, "little")

    def put_distance(self, target, size):
        distance = target - (len(self.bytes) + size)
        if self.last_pass and not -(1 << 8 * size - 1) <= distance < 1 << 8 * size - 1:
            raise ValueError("the distance is too long")
        self.put(distance, size)

    def operand(self, text, size):
        match = re.fullmatch(r"(.+)\[(\w+)\]", text)
        if match:
            self.put(0x40 + REGISTERS[match[2]], 1)
            text = match[1]
        match = re.fullmatch(r"(-?)([^()]*)\((\w+)\)(\+?)", text)
        if text in REGISTERS:
            self.put(0x50 + REGISTERS[text], 1)
        elif match and match[2]:
            self.put(0xC0 + REGISTERS[match[3]], 1)
            self.put(self.value(match[1] + match[2]), 2)
        elif match:
            self.put((0x70 if match[1] else 0x80 if match[4] else 0x60) + REGISTERS[match[3]], 1)
        elif text.startswith("@#"):
            self.put(0x9F, 1)
            self.put(self.value(text[2:]), 4)
        elif re.fullmatch(r"#[0-9]+", text) and int(text[1:]) < 64:
            self.put(int(text[1:]), 1)
        elif text.startswith("#"):
            self.put(0x8F, 1)
            self.put(self.value(text[1:]), size)
        else:
            self.put(0xCF, 1)
            self.put_distance(self.value(text), 2)

    def instruction(self, name, rest):
        code, operands = INSTRUCTIONS[name]
        texts = [text.strip() for text in rest.split(",")] if rest else []
        if len(texts) != len(operands):
            raise ValueError(f"{name} has {len(operands)} operands")
        self.put(code, 1)
        for text, kind in zip(texts, operands):
            if kind in "BW":
                self.put_distance(self.value(text), 1 if kind == "B" else 2)
            else:
                self.operand(text, SIZES[kind])

    def fill(self, length):
        if length < len(self.bytes):
            raise ValueError("this place is taken")
        self.bytes += bytes(length - len(self.bytes))

    def line(self, text):
        text = re.sub(r";[^\"]*$", "", text).strip()
        match = re.match(r"(\w+):\s*(.*)", text)
        if match:
            self.names[match[1]] = len(self.bytes)
            text = match[2]
        if not text:
            return
        name, _, rest = text.partition(" ")
        match = re.fullmatch(r"(\.|\w+)\s*=\s*(.*)", text)
        if match and match[1] == ".":
            self.fill(self.value(match[2]))
        elif match:
            self.names[match[1]] = self.given.get(match[1], self.value(match[2]))
        elif name == ".align":
            unit = self.value(rest)
            self.fill(-(-len(self.bytes) // unit) * unit)
        elif name == ".ascii":
            self.bytes += rest.strip()[1:-1].encode().decode("unicode_escape").encode("latin-1")
        elif name in DATA:
            for number in rest.split(","):
                self.put(self.value(number), DATA[name])
        else:
            self.instruction(name, rest.strip())

    def assemble(self, source):
        for last in (False, True):
            self.bytes, self.last_pass = bytearray(), last
            for number, text in enumerate(source.splitlines(), 1):
                try:
                    self.line(text)
                except (KeyError, ValueError) as error:
                    raise SystemExit(f"line {number}: {text.strip()}: {error}") from error
        return bytes(self.bytes)
