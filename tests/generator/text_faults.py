"""Faults of the text of a file."""
import re

from .texts import put_somewhere

NOT_TOML = ["timeout_ms =", "= 5", "[code", "[[map]", "name = \"a", "x = 99999999999999999999", "x = 007",
            "x = \"\\q\"", "a.b = 1\na = 2", "x = 1 2",
            "x = 1\nx = 2", "[code]\n[code]", "x = [1, 2", "x = {a = 1", "x = 0x", "x = 1__0", "x = 2026-13-45",
            "x = \"a\u0001b\"", "x = 'a\nb'", "x y = 1",
            "x = \"\"\"a", "[a]\nb = 1\n[a.b]", "x = +0x1", "x = tru", "\ufeffx = 1", "x = .5", "x = 5.", "[]",
            "[map]\n[[map]]", "x = \"\\uD800\"", "x = 1\r y = 2"]


def spoil(random, text):
    """A text that is no TOML, most likely."""
    lines = text.split("\n")
    choice = random.randrange(5)
    if choice < 2:
        put_somewhere(random, lines, NOT_TOML)
        return "\n".join(lines)
    if choice == 2:
        return text[:random.randrange(len(text) + 1)]
    if choice == 3:
        at = random.randrange(len(text) + 1)
        return text[:at] + random.choice(["\x00", "\x7f", "=", '"', "[", "\\", "\r", "é", "'", "{"]) + text[at:]
    put_somewhere(random, lines, lines)
    return "\n".join(lines)


def nested_arrays(random, text):
    depth = random.choice([10, 60, 100, 128, 200, 1000])
    return random.choice([f"x = {'[' * depth}{']' * depth}\n",
                          "x = " + "{a = " * depth + "1" + "}" * depth + "\n"]) + text


def not_utf8(random, text):
    data = text.encode()
    at = random.randrange(len(data) + 1)
    return data[:at] + random.choice([b"\xff", b"\xe9", b"\xc0\x80", b"\xed\xa0\x80", b"\xf5"]) + data[at:]


MOST_BYTES = 1048576


def padded(random, text):
    """The text with as many bytes as a file may have, or more."""
    room = MOST_BYTES - len(text.encode()) + random.choice([0, 0, 1, 1, 1000])
    return text + "#" * room if room > 0 else text


def changed_letter(random, text):
    """One letter of the text is another, or missing, or there twice."""
    for _ in range(random.choice([1, 1, 2, 5])):
        if text:
            at = random.randrange(len(text))
            text = text[:at] + random.choice(["", text[at] * 2,
                                              random.choice("0123456789abrw=+-*()[]\"' \n\t#.,_ugo")]) + text[at + 1:]
    return text


def changed_number(random, text):
    """One number of the text is another."""
    numbers = list(re.finditer(r"\d+", text))
    if not numbers:
        return text
    match = random.choice(numbers)
    new = random.choice([0, 1, 2, 3, 5, 7, 8, 10, 16, 32, 64, 65, 512, 1001, 1002, 1003, 1004, int(match[0]) + 1,
                         int(match[0]) * 2])
    return text[:match.start()] + str(new) + text[match.end():]


def changed_line(random, text):
    """A line is gone, there twice, or elsewhere."""
    lines = text.split("\n")
    at, to = random.randrange(len(lines)), random.randrange(len(lines))
    choice = random.randrange(3)
    if choice == 0:
        del lines[at]
    elif choice == 1:
        lines.insert(to, lines[at])
    else:
        lines[at], lines[to] = lines[to], lines[at]
    return "\n".join(lines)


def changed_word(random, text):
    """A register, an operator or a width is another."""
    words = [(r"\br\d+\b", [f"r{number}" for number in range(11)]),
             (r"(?<= )[-+*/|&^]=", ["+=", "-=", "*=", "/=", "&=", "<<=", "="]),
             (r"\bu(8|16|32|64)\b", ["u8", "u16", "u32", "u64", "s8"]),
             (r"==|!=|s?>=|s?<=", ["==", "!=", ">", "<", "s>=", "&"])]
    pattern, others = random.choice(words)
    found = list(re.finditer(pattern, text))
    if not found:
        return text
    match = random.choice(found)
    return text[:match.start()] + random.choice(others) + text[match.end():]


CHANGES = [changed_letter, changed_number, changed_line, changed_word, changed_word, changed_number]
