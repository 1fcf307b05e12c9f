"""What a kernel says of its own types: offsets of members, numbers of functions and of flags."""
import sys
from pathlib import Path

sys.path.insert(0, str(Path(__file__).resolve().parents[2] / "examples" / "c-policies"))
from kernel.btf import ENUM, LARGE_ENUM, STRUCT, UNION, Types  # noqa: E402

FUNCTION = 12


class NoCounterpart(Exception):
    """What a policy uses and a kernel hasn't."""


class KernelTypes:
    def __init__(self, path):
        self.types = Types(Path(path).read_bytes())
        self.numbers = {}
        for number, (kind, name, _, _) in enumerate(self.types.all):
            self.numbers.setdefault((kind, name), number)

    def function(self, name):
        if (FUNCTION, name) not in self.numbers:
            raise NoCounterpart(f"this kernel has no {name}")
        return self.numbers[FUNCTION, name]

    def struct(self, name):
        return self.numbers[STRUCT, name]

    def size(self, struct):
        return self.types.size(self.struct(struct))

    def member(self, number, name):
        """Offset and type of a member, also inside members without a name; or None."""
        for member, of, offset in self.types.members(number):
            if member == name:
                return offset, of
            if not member and self.types.plain(of)[0] in (STRUCT, UNION):
                found = self.member(of, name)
                if found:
                    return offset + found[0], found[1]
        return None

    def offset(self, struct, path):
        number, total = self.struct(struct), 0
        for name in path.split("."):
            offset, number = self.member(number, name)
            total += offset
        return total

    def members(self, struct):
        return [(name, offset) for name, _, offset in self.types.members(self.struct(struct))]

    def flag(self, name):
        for kind, _, _, parts in self.types.all:
            if kind in (ENUM, LARGE_ENUM):
                for part, number in parts:
                    if part == name:
                        return number
        raise NoCounterpart(f"this kernel has no {name}")
