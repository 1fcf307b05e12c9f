"""Spellings of programs and of values in TOML."""
import re

from .assembler import slots_of


def hex_digits(random, number):
    return f"{int(number):{random.choice('xX')}}"


def respelled(random, line):
    """The line in another spelling of the same."""
    if random.random() < 0.3:
        line = re.sub(r"(?<=[ (])(-?)(\d+)\b", lambda match: match[1] + "0x" + hex_digits(random, match[2]), line)
    if random.random() < 0.3:
        line = re.sub(r" ([-+*/|&^]?=) ", r"\1", line)
    if random.random() < 0.2:
        line = line.replace(" ", random.choice([" ", "  "]))
        line = random.choice([" ", "\t", "    "]) + line + random.choice(["", " ", "\t"])
    if random.random() < 0.2:
        line += random.choice(["# a comment", " # r0 = 5; exit", "  # naïve → ok", " #"])
    return line


def text_of(random, lines):
    """The assembler text of a program: as it is, or in many spellings."""
    if random.random() < 0.6:
        return "\n".join(lines) + "\n"
    found = []
    for line in lines:
        found.append(respelled(random, line) + random.choice(["", "", "", "\r"]))
        if random.random() < 0.1:
            found.append(random.choice(["", "# alone", "  ", "\t# tab"]))
    return "\n".join(found) + ("\n" if found[-1].endswith("\r") else random.choice(["", "\n"]))


def put_somewhere(random, lines, choices):
    """Puts one of the choices between two lines."""
    lines.insert(random.randrange(len(lines) + 1), random.choice(choices))


def hexadecimal(random, slots):
    """The slots as pairs of digits, with blanks in between."""
    digits = slots.hex()
    if random.random() < 0.2:
        digits = digits.upper()
    between = random.choice(["", " ", "\n", "\r\n", "\t "])
    return between.join(digits[at:at + 16] for at in range(0, len(digits), 16)) + random.choice(["", between])


class Raw(str):
    """A value that the file has as it is."""


def written(random, value):
    """The value as TOML."""
    if isinstance(value, Raw):
        return value
    if isinstance(value, bool):
        return "true" if value else "false"
    if isinstance(value, int):
        return written_number(random, value)
    if isinstance(value, float):
        return repr(value)
    if isinstance(value, str):
        return written_text(random, value)
    if isinstance(value, list):
        return "[" + ", ".join(written(random, each) for each in value) + "]"
    return "{ " + ", ".join(f"{key} = {written(random, each)}" for key, each in value.items()) + " }"


def written_number(random, number):
    choice = random.random()
    if number < 0 or choice < 0.94:
        return str(number)
    return random.choice([f"0x{number:x}", f"0x{number:X}", f"0o{number:o}", f"0b{number:b}", f"+{number}",
                          f"{number:_}"])


def written_text(random, text):
    if "\n" not in text and "\r" not in text:
        return random.choice(['"{}"', '"{}"',
                              "'{}'"]).format(text) if "'" not in text and '"' not in text else escaped(text)
    if '"' in text or "'" in text or "\\" in text or "\r" in text:
        return escaped(text)
    return random.choice([f'"""\n{text}"""', f'"""\n{text}"""', f"'''\n{text}'''", escaped(text)])


def escaped(text):
    marks = {"\\": "\\\\", '"': '\\"', "\n": "\\n", "\r": "\\r", "\t": "\\t"}
    return '"' + "".join(marks.get(letter, letter) for letter in text) + '"'


def assigned(random, key, value):
    equals = random.choice([" = "] * 9 + ["="])
    return f"{key}{equals}{written(random, value)}" + random.choice([""] * 9 + ["   # so it is"])


def tables(random, name, elements):
    """An array of tables, as such or in one line."""
    if len(elements) < 9 and random.random() < 0.1 or any(not isinstance(each, dict) for each in elements):
        return [], [assigned(random, name, elements)]
    lines = []
    for element in elements:
        lines += ["", f"[[{name}]]"] + [assigned(random, key, value) for key, value in element.items()]
    return lines, []


def document(random, values):
    """The text of a file with these values: keys first, then tables."""
    top, below = [], []
    for key, value in values.items():
        if isinstance(value, list) and value:
            lines, more = tables(random, key, value)
            below += lines
            top += more
        elif isinstance(value, dict) and value:
            if random.random() < 0.15:
                top += [assigned(random, f"{key}.{inner}", each) for inner, each in value.items()]
            else:
                below += ["", f"[{key}]"] + [assigned(random, inner, each) for inner, each in value.items()]
        else:
            top.append(assigned(random, key, value))
    return "\n".join(top + below) + "\n"


NAMES = ["two_ms", "a", "policy", "abcdefghijklmnop", "z9_", "fair_share_2"]


def policy_values(random, policy):
    """What the file of a policy says."""
    values = {}
    if random.random() < 0.3:
        values["name"] = random.choice(NAMES)
    if policy.timeout or random.random() < 0.1:
        values["timeout_ms"] = policy.timeout or random.choice([30000, 1000, 50])
    if policy.maps:
        values["map"] = [{"entries": entries, "value_size": size} for entries, size in policy.maps]
    if policy.keeps_idle is not None:
        values["keep_idle"] = int(policy.keeps_idle)
    if policy.timers:
        values["timer"] = [random.choice([{}, {}, {"name": f"timer{number}"}]) for number in range(policy.timers)]
    values["code"], values["slots"] = programs_values(random, policy.programs())
    return {key: value for key, value in values.items() if value != {} or random.random() < 0.1}


def programs_values(random, programs):
    """The programs as texts, and the others as slots."""
    code, slots, part = {}, {}, random.choice([0, 0, 0.3, 1])
    for callback, lines in programs.items():
        encoded_slots = slots_of(lines) if random.random() < part else None
        if encoded_slots:
            slots[callback] = hexadecimal(random, encoded_slots)
        else:
            code[callback] = text_of(random, lines)
    return code, slots
