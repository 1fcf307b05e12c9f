"""The programs of a policy file as assembler text, where each instruction has its line of C in a comment."""
import subprocess
import tempfile
from functools import lru_cache

LARGEST = 1000000	# characters of all programs; the host reads files of 1,048,576 bytes
WIDE = 0x18		# the code of an instruction of two slots
COLUMN = 24		# comments begin here, or after a longer instruction


@lru_cache(None)
def lines_of(path):
    try:
        with open(path, errors="replace") as file:
            return file.read().splitlines()
    except OSError:
        return []


def text_of(place):
    """The text of a line of C, by its place `FILE:LINE`; nothing where there is none."""
    path, _, number = place.rpartition(":")
    lines = lines_of(path) if path and number.isdecimal() else []
    return lines[int(number) - 1].strip() if lines and 0 < int(number) <= len(lines) else ""


def with_text(place):
    """A place `FILE:LINE` with the text of that line."""
    text = text_of(place)
    return f"{place}: {text}" if text else place


def as_comment(text):
    """The text without what a literal string of TOML can't hold."""
    return "".join(one if one.isprintable() else " " for one in text).replace("'''", "' ' '")


def disassembled(code, program):
    """The instructions of a program as lines, or None where the disassembler refuses it."""
    with tempfile.NamedTemporaryFile() as file:
        file.write(code)
        file.flush()
        done = subprocess.run([program, "dis", file.name], capture_output=True, text=True)
    return done.stdout.splitlines() if done.returncode == 0 else None


def listing(code, lines, comment):
    """Each instruction with its comment; `comment` gives that of a slot."""
    width, slot = max([0, *(len(line) for line in lines if len(line) < COLUMN)]), 0
    for line in lines:
        said = as_comment(comment(slot))
        yield f"{line:{width}}  # {said}" if said else line
        slot += 2 if code[8 * slot] == WIDE else 1


def as_slots(callback, code):
    hexadecimal = code.hex()
    return f'{callback} = """\n' + "\n".join(hexadecimal[at:at + 16] for at in range(0, len(hexadecimal), 16)) + '\n"""'


def tables(codes, comment, program):
    """The tables of a policy file: `code`, and `slots` for what the disassembler refuses and for very long texts."""
    texts, slots = [], []
    for callback, code in codes.items():
        lines = disassembled(code, program)
        text = "" if lines is None else "\n".join(listing(code, lines, lambda slot: comment(callback, slot)))
        if lines is None or len(text) + sum(len(one) for one in texts) > LARGEST:
            slots.append(as_slots(callback, code))
        else:
            texts.append(f"{callback} = '''\n{text}\n'''")
    return (["[code]", *texts] if texts else []) + (["[slots]", *slots] if slots else [])
