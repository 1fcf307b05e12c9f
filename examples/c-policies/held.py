"""Names of what maps hold: the comments that build writes of them, and lines of `scxsim maps` with these names."""
import re

MOST = 256	# names of one map
COMMENT = re.compile(r"# map (\d+) (\w+)(?: by (pid))?:(.*)$", re.M)
NAME = re.compile(r"(?:([\w.\[\]]+) )?(\d+) (s?)(\d+)(?: x (\d+))?$")
LINE = re.compile(r"map (\d+)(?: cpu (\d+))?(?: (key|pop) (\d+)) value .* bytes((?: [0-9a-f]{2})+)(?: zeros \d+)?$")


def comment_of(number, name, parts, is_by_pid=False):
    """The comment of a map: of each number in a value its name, offset, size with s if it is signed, and count."""
    names = [f"{part} {offset} {'s' * signed}{size}{f' x {count}' * (count != 1)}".lstrip() for part, offset, size, signed, count in parts]
    return f"# map {number} {name}{' by pid' * is_by_pid}: {', '.join(names[:MOST])}"


class Named:
    """A map of C: its name, whether its keys are pids, and the numbers in its values."""

    def __init__(self, name, is_by_pid, parts):
        self.name, self.is_by_pid, self.parts = name, is_by_pid, parts

    def place(self, cpu, way, number):
        """The element as an expression of C; the variables have no name of their own."""
        if self.name == "variables":
            return ""
        word = {"key": "pid " * self.is_by_pid, "pop": "pop "}[way]
        return f"{self.name}{f'[cpu {cpu}]' if cpu else ''}[{word}{number}]"

    def numbers(self, place, value):
        """For each number that isn't 0, a line."""
        for part, offset, size, signed, count in self.parts:
            for at in range(count):
                start = offset + at * size
                number = int.from_bytes(value[start:start + size], "little", signed=signed)
                if number:
                    dot = "." * bool(place and part and not part.startswith("["))
                    yield f"  {place}{dot}{part}{f'[{at}]' if count != 1 else ''} = {number}\n"


def named_maps(text):
    """The maps of a policy file that build wrote names of, by their numbers."""
    found = {}
    for number, name, by, names in COMMENT.findall(text):
        parts = [NAME.match(one) for one in names.strip().split(", ")] if names.strip() else []
        found[int(number)] = Named(name, by == "pid", [(one[1] or "", int(one[2]), int(one[4]), one[3] == "s", int(one[5] or 1)) for one in parts if one])
    return found


def with_names(line, maps):
    """The lines to write below a line of maps."""
    found = LINE.match(line.rstrip("\n"))
    one = maps.get(int(found[1])) if found else None
    return one.numbers(one.place(found[2], found[3], found[4]), bytes.fromhex(found[5])) if one else ()
