"""The assembler: canonical text, with labels, into slots."""
import re
import struct

OPERATORS = {"+": 0x00, "-": 0x10, "*": 0x20, "/": 0x30, "s/": 0x30, "|": 0x40, "&": 0x50, "<<": 0x60, ">>": 0x70,
             "%": 0x90, "s%": 0x90, "^": 0xA0, "s>>": 0xC0}
CONDITIONS = {"==": 0x10, ">": 0x20, ">=": 0x30, "&": 0x40, "!=": 0x50, "s>": 0x60, "s>=": 0x70, "<": 0xA0,
              "<=": 0xB0, "s<": 0xC0, "s<=": 0xD0}
SIZES = {"32": 0x00, "16": 0x08, "8": 0x10, "64": 0x18}
SWAPS = {"le": 0xD4, "be": 0xDC, "bswap": 0xD7}
NUMBER_OR_REGISTER = r"(?:[rw](\d+)|(-?\d+))"


def slot(opcode, destination=0, source=0, offset=0, immediate=0):
    return struct.pack("<BBhI", opcode, destination | source << 4, offset, immediate & 0xFFFFFFFF)


def wide(destination, source, number):
    return slot(0x18, destination, source, 0, number) + slot(0, 0, 0, 0, number >> 32)


def distance(target, position, labels):
    if target[0] in "+-":
        return int(target, 16 if "0x" in target else 10)
    return labels[target] - position - 1


def arithmetic_slot(match):
    width, destination, operator, source, number = match.groups()
    opcode = (7 if width == "r" else 4) | (8 if source else 0) | OPERATORS[operator]
    return slot(opcode, int(destination), int(source or 0), operator in ("s/", "s%"), int(number or 0))


def move_slot(match):
    width, destination, extended, source, number = match.groups()
    opcode = (0xB7 if width == "r" else 0xB4) | (8 if source else 0)
    return slot(opcode, int(destination), int(source or 0), int(extended or 0), int(number or 0))


def load_slot(match):
    destination, sign, bits, source, offset = match.groups()
    opcode = (0x61 if sign == "u" else 0x81) | SIZES[bits]
    return slot(opcode, int(destination), int(source), int(offset.replace(" ", "")))


def store_slot(match):
    bits, destination, offset, source, number = match.groups()
    opcode = (0x63 if source else 0x62) | SIZES[bits]
    return slot(opcode, int(destination), int(source or 0), int(offset.replace(" ", "")), int(number or 0))


FORMS = [(re.compile(form + "$"), make) for form, make in [
    (r"([rw])(\d+) (s?[-+*/|&<>%^]+)= " + NUMBER_OR_REGISTER, arithmetic_slot),
    (r"([rw])(\d+) = (?:\(s(\d+)\))?" + NUMBER_OR_REGISTER, move_slot),
    (r"([rw])(\d+) = -[rw]\d+", lambda match: slot(0x87 if match[1] == "r" else 0x84, int(match[2]))),
    (r"r(\d+) = (le|be|bswap)(\d+) r\d+",
     lambda match: slot(SWAPS[match[2]], int(match[1]), immediate=int(match[3]))),
    (r"r(\d+) = (-?\d+) ll", lambda match: wide(int(match[1]), 0, int(match[2]))),
    (r"r(\d+) = map (-?\d+)", lambda match: wide(int(match[1]), 5, int(match[2]) & 0xFFFFFFFF)),
    (r"r(\d+) = \*\(([us])(\d+) \*\)\(r(\d+) ([-+] \d+)\)", load_slot),
    (r"\*\(u(\d+) \*\)\(r(\d+) ([-+] \d+)\) = " + NUMBER_OR_REGISTER, store_slot),
    (r"call (-?\d+)", lambda match: slot(0x85, immediate=int(match[1]))),
    (r"exit", lambda match: slot(0x95)),
]]
IF = re.compile(r"if ([rw])(\d+) (\S+) " + NUMBER_OR_REGISTER + r" goto (\S+)$")
GOTO = re.compile(r"goto(l?) (\S+)$")


def jump_slot(line, position, labels):
    match = GOTO.match(line)
    if match:
        far = distance(match[2], position, labels)
        return slot(0x06, immediate=far) if match[1] else slot(0x05, offset=far)
    match = IF.match(line)
    if not match:
        return None
    opcode = (5 if match[1] == "r" else 6) | CONDITIONS[match[3]] | (8 if match[4] else 0)
    return slot(opcode, int(match[2]), int(match[4] or 0), distance(match[6], position, labels), int(match[5] or 0))


def encoded(line, position, labels):
    for form, make in FORMS:
        match = form.match(line)
        if match:
            return make(match)
    return jump_slot(line, position, labels)


def length_of(line):
    return 2 if line.endswith(" ll") or " = map " in line else 1


def slots_of(lines):
    """The bytes of a program in canonical text with labels; none where a line isn't of that form."""
    labels, position = {}, 0
    for line in lines:
        if line.endswith(":"):
            labels[line[:-1]] = position
        else:
            position += length_of(line)
    found, position = [], 0
    try:
        for line in lines:
            if not line.endswith(":"):
                found.append(encoded(line, position, labels))
                position += length_of(line)
        return b"".join(found)
    except (KeyError, TypeError, struct.error):
        return None
