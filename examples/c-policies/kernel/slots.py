"""Instructions of a callback, with their places in C, to which others are added."""
import struct
from dataclasses import dataclass, replace

WIDE, GOTO, LONG_GOTO, CALL, EXIT = 0x18, 0x05, 0x06, 0x85, 0x95
ATOMIC = (0xc3, 0xdb)


class JumpToNothing(Exception):
    """A jump leads to where no instruction begins."""


@dataclass
class Instruction:
    code: int
    dst: int = 0
    src: int = 0
    offset: int = 0
    number: int = 0
    place: str = ""
    target: int = None	# of a jump: which of the instructions as they were read, counted from 0
    note: str = ""	# what the listing has in place of the line of C

    def is_jump(self):
        return self.code & 7 in (5, 6) and self.code & 0xf0 not in (0x80, 0x90)

    def size(self):
        return 2 if self.code == WIDE else 1

    def bytes(self):
        low = signed(self.number, 32)
        first = struct.pack("<BBhi", self.code, self.dst | self.src << 4, self.offset, low)
        if self.code != WIDE:
            return first
        return first + struct.pack("<BBhi", 0, 0, 0, signed(self.number >> 32, 32))


def signed(number, bits):
    number &= (1 << bits) - 1
    return number - (1 << bits) if number >> (bits - 1) else number


def read(code):
    """Instructions of a function, and the slot of each."""
    found, slots, at = [], [], 0
    while at < len(code):
        op, registers, offset, number = struct.unpack_from("<BBhi", code, at)
        slots.append(at // 8)
        if op == WIDE:
            number = number & 0xffffffff | struct.unpack_from("<I", code, at + 12)[0] << 32
        found.append(Instruction(op, registers & 15, registers >> 4, offset, number))
        at += 8 * found[-1].size()
    numbers = {slot: number for number, slot in enumerate(slots)}
    for slot, instruction in zip(slots, found):
        if instruction.is_jump() and not (instruction.code == GOTO and instruction.offset == 0):
            distance = instruction.number if instruction.code == LONG_GOTO else instruction.offset
            if slot + 1 + distance not in numbers:
                raise JumpToNothing(slot)
            instruction.target = numbers[slot + 1 + distance]
    return found, slots


def successors(instructions, at):
    """Where control goes after an instruction: what it jumps to first, what comes next last."""
    one = instructions[at]
    to = [] if one.target is None else [one.target]
    ends = one.code == EXIT or one.target is not None and one.code in (GOTO, LONG_GOTO)
    return to if ends or at + 1 == len(instructions) else to + [at + 1]


def forward_order(instructions):
    """The instructions that control reaches, by their numbers, so that each comes before those that follow it; and the
    number of one that leads back in a loop, or None. What comes next is kept next where that can be."""
    finished, under_way = [], set()
    state, todo = {0: "open"}, [(0, successors(instructions, 0))]
    while todo:
        at, left = todo[-1]
        under_way.add(at)
        if not left:
            todo.pop()
            under_way.discard(at)
            finished.append(at)
            continue
        next_one = left.pop(0)
        if next_one in under_way:
            return [], at
        if next_one not in state:
            state[next_one] = "open"
            todo.append((next_one, successors(instructions, next_one)))
    return finished[::-1], None


def forward(pairs):
    """The same instructions, each with its symbol, without jumps back; and the one that leads back in a loop, or None."""
    instructions = [one for one, _ in pairs]
    if all(one.target is None or one.target > at for at, one in enumerate(instructions)):
        return pairs, None
    order, loop = forward_order(instructions)
    if loop is not None:
        return pairs, instructions[loop]
    starts, turned = {}, []
    for number, at in enumerate(order):
        starts[at] = len(turned)
        turned.append((replace(instructions[at]), pairs[at][1]))
        follows = successors(instructions, at)
        goes_on = follows and follows[-1] == at + 1
        if goes_on and order[number + 1:number + 2] != [at + 1]:
            turned.append((Instruction(GOTO, place=instructions[at].place, target=at + 1), None))
    for one, _ in turned:
        one.target = None if one.target is None else starts[one.target]
    return turned, None


def moved(lists, distance):
    """The lists for a place `distance` lists further on."""
    turned = []
    for instructions in lists:
        turned.append([replace(one, target=None if one.target is None else one.target + distance) for one in instructions])
    return turned


def written(before, lists):
    """The slots of what comes first and of the lists in the places of what was read, with the instruction of each."""
    at, starts = sum(one.size() for one in before), []
    for instructions in lists:
        starts.append(at)
        at += sum(one.size() for one in instructions)
    code, instructions = b"", []
    for one in [*before, *(one for instructions in lists for one in instructions)]:
        if one.target is not None:
            distance = starts[one.target] - len(code) // 8 - 1
            one = replace(one, number=distance) if one.code == LONG_GOTO else replace(one, offset=distance)
        code += one.bytes()
        instructions += [one] * one.size()
    return code, instructions


def noted(note, instructions):
    """The same instructions, with what the listing says of them."""
    return [replace(one, note=note) for one in instructions]


def move(dst, src):
    return Instruction(0xbf, dst, src)


def move_number(dst, number):
    return Instruction(0xb7, dst, 0, 0, number)


def sign_extended(dst):
    """The lower half of a register, with its sign."""
    return [Instruction(0x67, dst, 0, 0, 32), Instruction(0xc7, dst, 0, 0, 32)]


def add_number(dst, number):
    return Instruction(0x07, dst, 0, 0, number)


def wide_number(dst, number, src=0):
    return Instruction(WIDE, dst, src, 0, number)


def load(dst, src, offset):
    return Instruction(0x79, dst, src, offset)


def store(dst, offset, src):
    return Instruction(0x7b, dst, src, offset)


def call(number):
    return Instruction(CALL, 0, 0, 0, number)


def skip_if_not_zero(dst, slots):
    return Instruction(0x55, dst, 0, slots, 0)
