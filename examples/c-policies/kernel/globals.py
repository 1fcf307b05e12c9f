"""Variables of a policy as one element of a map, and their values at the start."""
import struct

from . import names, slots

GREATEST = 4096		# bytes of an element


def holds_variables(section):
    """Whether a section has variables or constants; messages are something else."""
    is_one = section.name.split(".")[1:2] in (["bss"], ["data"], ["rodata"])
    return is_one and not section.name.startswith(".rodata.str")


class Globals:
    def __init__(self, elf):
        self.elf, self.starts, self.size = elf, {}, 0
        self.contents = {one.name: bytearray(one.content) for one in elf.sections if holds_variables(one)}

    def add(self, section):
        """Gives a section its place in the element, if it has none yet."""
        if section.name not in self.starts:
            self.starts[section.name] = self.size
            self.size += -(-len(section.content) // 8) * 8

    def variables(self):
        for section in self.elf.sections:
            if holds_variables(section):
                yield from self.elf.objects_in(section)

    def set(self, name, number):
        """Another value at the start. Answers why there can't be one, or None."""
        symbol = next((one for one in self.variables() if one.name == name), None)
        if symbol is None:
            likely = names.likely(name, [one.name for one in self.variables()], "declare it 'const volatile'")
            return f"--set {name}: no such variable, or none that clang kept; {likely}"
        if symbol.size not in (1, 2, 4, 8) or not -(1 << 8 * symbol.size - 1) <= number < 1 << 8 * symbol.size:
            return f"--set {name}: {number} is no number of {symbol.size} bytes"
        value = (number % (1 << 8 * symbol.size)).to_bytes(symbol.size, "little")
        self.contents[symbol.section.name][symbol.value:symbol.value + symbol.size] = value
        return None

    def numbers(self, types):
        """Each number in the variables, as `Types.numbers` gives them."""
        for one in self.variables():
            if one.section.name in self.starts and (of := types.of_variable(one.name)):
                yield from types.numbers(of, one.name, self.starts[one.section.name] + one.value)

    def stores(self):
        """What writes the values that aren't 0, in eight bytes each; r0 is the element."""
        for name, start in self.starts.items():
            content = bytes(self.contents[name]) + bytes(7)
            for at in range(0, len(content) - 7, 8):
                (number,) = struct.unpack_from("<Q", content, at)
                if number:
                    yield slots.wide_number(1, number)
                    yield slots.store(0, start + at, 1)
