"""Maps of C in the kernel's form, as maps of a policy file."""
from dataclasses import dataclass

from . import names

MOST_BYTES, CPUS = 16_777_216, 64	# of all maps; the copies of a map for each CPU
KINDS = {"HASH": "hash", "QUEUE": "queue", "STACK": "stack", "PERCPU_ARRAY": "percpu"}	# by Linux rules


@dataclass(frozen=True)
class Map:
    """A map: how many elements it has, and of how many bytes; its kind, and the bytes of its keys."""
    name: str
    entries: int
    size: int
    kind: str = "array"
    key: int = 4

    def text(self):
        """Its lines in a policy file."""
        lines = ["", "[[map]]", f"entries = {self.entries}", f"value_size = {self.size}"]
        lines += [f'kind = "{self.kind}"'] * (self.kind != "array")
        lines += [f"key_size = {self.key}"] * (self.kind == "hash")
        return "\n".join(lines)


def ring(name, entries, size):
    """A queue or a stack in an array, whose element 0 has the counts."""
    return Map(name, entries + 1, max(8, -(-size // 8) * 8))


def is_one_copy(kind, entries, size, rules):
    """Whether an array for each CPU is one that all share."""
    return kind == "PERCPU_ARRAY" and (rules == "plain" or CPUS * entries * size > MOST_BYTES)


def refusal(one):
    """What is wrong in a map, or nothing."""
    if one.kind == "hash" and one.key not in (4, 8):
        return f"the key of a hash has 4 or 8 bytes, not {one.key}"
    if one.kind in ("array", "percpu") and one.key != 4:
        return f"the key of an array has 4 bytes, not {one.key}"
    if not 1 <= one.entries <= 65536 or not 1 <= one.size <= 4096:
        return f"{one.entries} elements of {one.size} bytes; a map has 1 to 65536, of 1 to 4096 bytes"
    return None


def unknown(kind):
    return f"a map of type {kind} isn't here: {names.NO_MAP.get(kind, 'use an array map')}"
