"""Reads an object that clang made for BPF: sections, symbols and relocations."""
import struct
from dataclasses import dataclass

NO_BITS = 8		# a section that holds zeros, and no bytes in the file
FUNCTION, OBJECT = 2, 1


@dataclass
class Section:
    name: str
    kind: int
    content: bytes
    alignment: int
    info: int


@dataclass
class Symbol:
    name: str
    kind: int
    section: object		# a Section, or None where another file would have it
    value: int
    size: int


class Elf:
    def __init__(self, data):
        self.data = data
        (self.start,) = struct.unpack_from("<Q", data, 40)
        self.entry, self.count, names = struct.unpack_from("<HHH", data, 58)
        headers = [struct.unpack_from("<IIQQQQIIQQ", data, self.start + self.entry * at) for at in range(self.count)]
        texts = self.part(headers[names])
        self.sections = [self.section(header, texts) for header in headers]
        self.symbols, self.relocations = [], {}
        for header in headers:
            if header[1] == 2:
                self.symbols = self.read_symbols(self.part(header), self.part(headers[header[6]]))
        for header in headers:
            if header[1] == 9:
                self.read_relocations(self.sections[header[7]].name, self.part(header))

    def part(self, header):
        return self.data[header[4]:header[4] + header[5]]

    def section(self, header, texts):
        content = bytes(header[5]) if header[1] == NO_BITS else self.part(header)
        return Section(text_at(texts, header[0]), header[1], content, header[8], header[7])

    def read_symbols(self, content, texts):
        symbols = []
        for name, info, _, index, value, size in struct.iter_unpack("<IBBHQQ", content):
            section = self.sections[index] if 0 < index < self.count else None
            symbol = Symbol(text_at(texts, name), info & 15, section, value, size)
            symbol.name = symbol.name or (section.name if section else "")
            symbols.append(symbol)
        return symbols

    def read_relocations(self, section, content):
        for offset, info in struct.iter_unpack("<QQ", content):
            self.relocations[section, offset] = self.symbols[info >> 32]

    def named(self, name):
        """The section of that name, or None."""
        return next((section for section in self.sections if section.name == name), None)

    def objects_in(self, section):
        """Variables of a section, in their order."""
        inside = [symbol for symbol in self.symbols if symbol.section is section and symbol.kind == OBJECT]
        return sorted(inside, key=lambda symbol: symbol.value)


def text_at(texts, offset):
    return texts[offset:texts.index(b"\0", offset)].decode()
