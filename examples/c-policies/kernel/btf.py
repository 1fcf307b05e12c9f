"""Reads what clang says of types and lines in the sections .BTF and .BTF.ext of an object."""
import struct

INTEGER, POINTER, ARRAY, STRUCT, UNION, ENUM, VARIABLE, LARGE_ENUM = 1, 2, 3, 4, 5, 6, 14, 19
PASSED_OVER = (8, 9, 10, 11, 18)	# names of types, and what says how they are used


class Types:
    def __init__(self, data):
        head, types, size, texts, length = struct.unpack_from("<IIIII", data, 4)
        self.texts = data[head + texts:head + texts + length]
        self.all = [(0, "", 0, [])]	# kind, name, size or type, and the parts
        self.at, end = head + types, head + types + size
        self.data = data
        while self.at < end:
            self.all.append(self.read())

    def take(self, form):
        found = struct.unpack_from("<" + form, self.data, self.at)
        self.at += struct.calcsize("<" + form)
        return found

    def read(self):
        name, info, size = self.take("III")
        kind, count = info >> 24 & 31, info & 0xffff
        parts = []
        if kind == INTEGER:
            parts = [self.take("I")]
        elif kind in (VARIABLE, 17):
            self.take("I")
        elif kind == ARRAY:
            parts = [self.take("III")]
        elif kind in (STRUCT, UNION):
            parts = [self.member(info >> 31) for _ in range(count)]
        elif kind == ENUM:
            parts = [(self.text(part), number) for part, number in (self.take("II") for _ in range(count))]
        elif kind == LARGE_ENUM:
            parts = [(self.text(part), low | high << 32) for part, low, high in (self.take("III") for _ in range(count))]
        elif kind in (13, 15):
            self.take("II" * count if kind == 13 else "III" * count)
        return kind, self.text(name), size, parts

    def member(self, has_bits):
        name, of, offset = self.take("III")
        return self.text(name), of, (offset & 0xffffff if has_bits else offset) // 8

    def text(self, offset):
        return self.texts[offset:self.texts.index(b"\0", offset)].decode()

    def plain(self, number):
        """The type without names and qualifiers."""
        while self.all[number][0] in PASSED_OVER:
            number = self.all[number][2]
        return self.all[number]

    def of_variable(self, name):
        return next((size for kind, text, size, _ in self.all if kind == VARIABLE and text == name), None)

    def is_integer(self, name):
        """Whether a variable is an integer."""
        number = self.of_variable(name)
        return number is not None and self.plain(number)[0] == INTEGER

    def members(self, number):
        return self.plain(number)[3]

    def struct(self, name):
        return next((at for at, (kind, text, _, _) in enumerate(self.all) if kind == STRUCT and text == name), None)

    def size(self, number):
        kind, _, size, parts = self.plain(number)
        if kind == POINTER:
            return 8
        if kind == ARRAY:
            return self.size(parts[0][0]) * parts[0][2]
        return size if kind in (INTEGER, STRUCT, UNION, ENUM, LARGE_ENUM) else 0

    def is_signed(self, number):
        kind, _, _, parts = self.plain(number)
        return kind == INTEGER and bool(parts[0][0] >> 24 & 1)

    def numbers(self, of, name="", start=0):
        """Each number in a value of a type: its name, its offset, its size, whether it is signed, and how many there are."""
        kind, _, _, parts = self.plain(of)
        if kind in (STRUCT, UNION):
            for member, inner, offset in parts:
                dot = "." * bool(name and member)
                yield from self.numbers(inner, f"{name}{dot}{member}", start + offset)
        elif kind == ARRAY and self.plain(parts[0][0])[0] in (ARRAY, STRUCT, UNION):
            for at in range(parts[0][2]):
                yield from self.numbers(parts[0][0], f"{name}[{at}]", start + at * self.size(parts[0][0]))
        elif kind == ARRAY:
            yield name, start, self.size(parts[0][0]), self.is_signed(parts[0][0]), parts[0][2]
        else:
            yield name, start, self.size(of), self.is_signed(of), 1

    def fields(self, number, before="", start=0):
        """Each member that holds no others, as its offset, its size and its name with those around it."""
        for name, of, offset in self.members(number):
            if self.plain(of)[0] in (STRUCT, UNION):
                yield from self.fields(of, f"{before}{name}.", start + offset)
            else:
                yield start + offset, self.size(of), before + name


def read_lines(data, types):
    """Of each section of code: slots from which on a line counts, in their order, each with its file and line."""
    head, _, _, start, length = struct.unpack_from("<IIIII", data, 4)
    at, end = head + start, head + start + length
    (width,) = struct.unpack_from("<I", data, at)
    at += 4
    lines = {}
    while at < end:
        name, count = struct.unpack_from("<II", data, at)
        at += 8
        for _ in range(count):
            offset, file, _, place = struct.unpack_from("<IIII", data, at)
            at += width
            if place >> 10:
                lines.setdefault(types.text(name), []).append((offset // 8, types.text(file), place >> 10))
    return lines
