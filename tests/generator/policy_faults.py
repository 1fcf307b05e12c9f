"""Faults of policy files. Each function changes the values of a policy."""
from .host import CALLBACKS
from .assembler import slot
from .texts import hexadecimal, put_somewhere
from .file_faults import BAD_NAMES, NO_INTEGERS, NO_TEXTS, some_of


def with_map(random, values):
    return some_of(random, values, "map", {"entries": random.choice([1, 8]), "value_size": 8})


def program_tables(values):
    """The tables of programs, which are made where there are none."""
    for name in ("code", "slots"):
        if not isinstance(values.get(name), dict):
            values[name] = {}
    return values["code"], values["slots"]


def unknown_in_policy(random, values):
    for _ in range(random.choice([1, 1, 2, 3])):
        where = random.randrange(4)
        if where == 0:
            values[random.choice(["tick", "Name", "maps", "x", '"a b"'])] = random.choice([1, "x", [], {}])
        elif where == 1:
            name = random.choice(["tick", "Enqueue", "exit", "plain"])
            program_tables(values)[0][name] = random.choice(["exit", 1])
        elif where == 2:
            program_tables(values)[1][random.choice(["tick", "queue"])] = random.choice(["95", 7])
        else:
            with_map(random, values)[random.choice(["name", "key_size", "entrie"])] = 1


def unknown_in_many_maps(random, values):
    values["map"] = [{"entries": 1, "value_size": 8} for _ in range(12)]
    for number in random.sample([0, 1, 2, 10, 11], 2):
        values["map"][number]["x"] = 1


def missing_in_policy(random, values):
    with_map(random, values).pop(random.choice(["entries", "value_size"]), None)


def wrong_type_in_policy(random, values):
    where = random.randrange(8)
    if where == 0:
        values["name"] = random.choice(NO_TEXTS)
    elif where == 1:
        values["timeout_ms"] = random.choice(NO_INTEGERS)
    elif where == 2:
        values["map"] = random.choice([3, "x", {"entries": 1, "value_size": 8}, [5], ["a"],
                                       [{"entries": 1, "value_size": 1}, 7]])
    elif where == 3:
        with_map(random, values)[random.choice(["entries", "value_size"])] = random.choice(NO_INTEGERS)
    elif where in (4, 5):
        values[random.choice(["code", "slots"])] = random.choice([5, "exit", [], ["exit"], [{"init": "exit"}]])
    else:
        random.choice(program_tables(values))[random.choice(CALLBACKS)] = random.choice(NO_TEXTS)


def out_of_range_in_policy(random, values):
    where = random.randrange(4)
    if where == 0:
        values["timeout_ms"] = random.choice([0, 30001, -1, 2**63 - 1, -(2**63)])
    elif where == 1:
        with_map(random, values)["entries"] = random.choice([0, 65537, -1, 2**32])
    elif where == 2:
        with_map(random, values)["value_size"] = random.choice([0, 4097, -8, 2**40])
    else:
        values["map"] = random.choice([[{"entries": 65536, "value_size": 4096}],
                                       [{"entries": 65536, "value_size": 256}, {"entries": 1, "value_size": 1}],
                                       [{"entries": 4096, "value_size": 4096}] * 2])


def bad_name_in_policy(random, values):
    values["name"] = random.choice(BAD_NAMES)


def twice_in_policy(random, values):
    code, slots = program_tables(values)
    callback = random.choice(CALLBACKS)
    code.setdefault(callback, "r0 = 0\nexit\n")
    slots[callback] = random.choice(["", "9500000000000000", "zz"])


def too_many_maps(random, values):
    values["map"] = [{"entries": 1, "value_size": 8} for _ in range(random.choice([17, 18, 40]))]


def place_slots(random, values, text):
    """Puts the slots of one callback into the file, and takes its text out."""
    code, slots = program_tables(values)
    callback = random.choice(CALLBACKS)
    code.pop(callback, None)
    slots[callback] = text


def place_code(random, values, text):
    code, slots = program_tables(values)
    callback = random.choice(CALLBACKS)
    slots.pop(callback, None)
    code[callback] = text


def bad_hex(random, values):
    place_slots(random, values, random.choice(["950", "9500 0000 0000 000g", "0x95", "95-00", "é5", "9 5 0",
                                               "b7010000:95000000"]))


GOOD_SLOTS = [slot(0xB7, 0), slot(0x95)]
BAD_SLOTS = {
    "UnknownOpcode": [bytes(8), slot(0xFF), slot(0x8D), slot(0x9D), slot(0x86), slot(0xE7, 1), slot(0x99, 1, 2),
                      slot(0x18, 1, 7) + slot(0),
                      slot(0x85, 0, 3), slot(0xE5), slot(0x96)],
    "NotInProfile": [slot(0xC3, 1, 2), slot(0xDB, 1, 2), slot(0x30, immediate=4), slot(0x20), slot(0x28),
                     slot(0x50, 0, 1), slot(0x48, 0, 2),
                     slot(0x85, 0, 1, 0, -1), slot(0x85, 0, 2, 0, 1),
                     *[slot(0x18, 1, source) + slot(0) for source in (1, 2, 3, 4, 6)]],
    "BadRegister": [slot(0xBF, 0, 11), slot(0xBF, 15, 1), slot(0xB7, 11), slot(0x61, 1, 12), slot(0x1D, 14, 1),
                    slot(0x18, 11) + slot(0)],
    "UnusedField": [slot(0x95, immediate=1), slot(0x95, 1), slot(0x0F, 1, 2, 0, 5), slot(0x07, 1, 2),
                    slot(0x85, 1, 0, 0, 5), slot(0x05, 1),
                    slot(0x05, 0, 0, 0, 7), slot(0x18, 1) + slot(0, 1), slot(0x18, 1) + slot(5),
                    slot(0x87, 1, 0, 0, 3), slot(0x61, 1, 2, 0, 9),
                    slot(0x06, 0, 0, 4, 0), slot(0x18, 1, 5) + slot(0, 0, 0, 0, 1)],
    "BadOffset": [slot(0xB7, 0, 0, 1), slot(0x3F, 1, 2, 2), slot(0x97, 1, 0, -1), slot(0xBF, 1, 2, 7),
                  slot(0xBC, 1, 2, 32), slot(0xB4, 1, 0, 8)],
    "BadWidth": [slot(0xDC, 0, 0, 0, 8), slot(0xD4, 1, 0, 0, 0), slot(0xD7, 2, 0, 0, 48), slot(0xD4, 1, 0, 0, -16)],
}


def slots_with(random, name):
    """Slots, one of which has that fault."""
    good = [slot(0xB7, random.randrange(10), 0, 0, 5) for _ in range(random.randrange(6))]
    return b"".join(good) + random.choice(BAD_SLOTS[name]) + b"".join(random.sample(GOOD_SLOTS, random.randrange(3)))


def undecodable_bytes(random):
    choice = random.randrange(10)
    if choice < 6:
        return slots_with(random, list(BAD_SLOTS)[choice])
    return random.choice([b"", slot(0x95) * 4097, slot(0x95) * 4096 + b"\x95", slot(0x95)[:4],
                          slot(0xB7) + slot(0x95)[:7],
                          slot(0xB7) + slot(0x18, 1, 0, 0, 5), slot(0x18, 1), slot(0x95) * 4096])


def undecodable(random, values):
    place_slots(random, values, hexadecimal(random, undecodable_bytes(random)))


BAD_LINES = ["r0 = = 1", "r0 =", "r0 = -r1", "r0 = - 5", "r0 = 0X10", "r11 = 0", "r1 += w1", "goto + 1", "goto 1",
             "a: exit", "r0 == 1",
             "*(s8 *)(r1 + 0) = 1", "r0 = le16 r1", "call f", "callx r1", "exit exit", "exit;", "r1 = 5 l",
             "r0 = *(u8)(r1 + 0)", "mov r0, 1",
             "if r0 = 1 goto a", "if r0 == 1 goto", "if r0 == w1 goto +1", "r0 = *(u8 *)(r1)", "w0 = *(u8 *)(r1 + 0)",
             "r01 = 1", "r0 = 1é",
             "r1 = w2", "goto +1 <x>", "é", "r0 = map", "r0 = map r1", "lock *(u32 *)(r1 + 0) += w2", "r0 s+= 1",
             "w1 = (s32)w2", "r0 = \r5", "@",
             "r0 += +5", "*(u32 *)(r10 - 4) = w1", "call -0x", "_a:", "9a:", "r0 = 'a'", "w0 = 5 ll"]
OUT_OF_RANGE_LINES = ["r0 = 2147483648", "r0 = -2147483649", "r0 = 18446744073709551616 ll",
                      "r0 = -9223372036854775809 ll", "r1 = map 2147483648",
                      "call 4294967296", "r0 = *(u8 *)(r1 + 32768)", "*(u8 *)(r1 - 32769) = 1", "goto +32768",
                      "goto -32769", "gotol +2147483648",
                      "if r0 == 1 goto +40000", "if r0 == 99999999999999999999999999 goto +1",
                      "*(u64 *)(r10 - 8) = 0x80000000", "w0 += 0xffffffffffff"]


def faulty_text(random):
    """A text that doesn't assemble."""
    lines = ["r0 = 5", "r1 = 7", "a:", "r0 += r1", "if r0 > 3 goto b", "r0 = 1 ll", "b:", "exit"]
    choice = random.randrange(8)
    if choice < 3:
        put_somewhere(random, lines, BAD_LINES)
    elif choice == 3:
        put_somewhere(random, lines, OUT_OF_RANGE_LINES)
    elif choice == 4:
        put_somewhere(random, lines, ["goto end", "if r0 != 0 goto B", "gotol c", "goto exit"])
    elif choice == 5:
        put_somewhere(random, lines, ["a:", "b:", "\tb :  # again"])
    elif choice == 6:
        lines = random.choice([["exit"] * 4097, ["r0 = 1 ll"] * 2048 + ["exit"], ["exit"] * 4095 + ["r0 = 1 ll"],
                               ["exit"] * 4096,
                               ["goto far"] + ["r0 = 0"] * 4094 + ["far:", "exit"]])
    else:
        lines = random.choice([[], ["a:"], ["# nothing", ""], ["", "", "a:", "a:"]])
    for _ in range(random.choice([0, 0, 0, 1])):
        put_somewhere(random, lines, BAD_LINES + OUT_OF_RANGE_LINES)
    return "\n".join(lines) + random.choice(["", "\n"])


def not_assembled(random, values):
    place_code(random, values, faulty_text(random))


POLICY_FAULTS = {  # the weight of a sort, and what changes the file
    "unknown": (7, [unknown_in_policy, unknown_in_policy, unknown_in_many_maps]),
    "missing": (7, [missing_in_policy]),
    "wrong type": (10, [wrong_type_in_policy]),
    "out of range": (7, [out_of_range_in_policy]),
    "bad name": (7, [bad_name_in_policy]),
    "twice": (7, [twice_in_policy]),
    "too many": (7, [too_many_maps]),
    "bad hex": (7, [bad_hex]),
    "decode": (30, [undecodable]),
    "asm": (25, [not_assembled]),
}
