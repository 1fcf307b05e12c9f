"""Runs clang on a policy, and says in the words of build what it can't compile."""
import os
import re
import shlex
import shutil
import subprocess
from dataclasses import dataclass, field

HERE = os.path.dirname(os.path.realpath(__file__))
OPTIONS = ["--target=bpfel", "-mcpu=v3", "-O2", "-g", "-Wall", "-fno-jump-tables", "-fno-crash-diagnostics",
           "-ferror-limit=0", "-Wno-error=implicit-function-declaration", "-Wno-error=int-conversion", f"-I{HERE}", f"-I{HERE}/include"]
FUNCTION, IDENTIFIER, MEMBER, TYPE, INCLUDE = "function", "identifier", "member", "type", "include"
UNKNOWN = [
    (FUNCTION, r"(?:implicit declaration of|call to undeclared) function '(\w+)'"),
    (IDENTIFIER, r"use of undeclared identifier '(\w+)'"),
    (MEMBER, r"no member named '(\w+)' in "),
    (MEMBER, r"field designator '(\w+)' does not refer to any field"),
    (TYPE, r"unknown type name '(\w+)'"),
    (INCLUDE, r"'([^']+)' file not found"),
]
SIGNED = "a signed division or remainder: divide unsigned numbers, as (u32)p->pid % 64, or take CLANG=clang-19 CFLAGS=-mcpu=v4"

# What clang refuses with advice for others, and what to say instead.
REFUSED = [
    (r"cannot assign to non-static data member '(\w+)' with const-qualified type", r"\1 can't be stored: the host alone sets it"),
    (r"BPF stack limit", "the callback wants more than 512 bytes of stack: keep arrays in a map"),
]


class NoClang(Exception):
    pass


@dataclass
class Diagnostic:
    """One message of clang with the lines below it."""
    place: str
    kind: str
    text: str
    lines: list

    def unknown(self):
        """The kind and the name of what clang doesn't know, or None."""
        found = ((kind, re.search(form, self.text)) for kind, form in UNKNOWN)
        return next(((kind, name[1]) for kind, name in found if name), None)


@dataclass
class Compiled:
    """What clang made of a policy: whether there is an object, what it said, and what build refuses of it."""
    is_made: bool
    said: str = ""
    unknown: list = field(default_factory=list)	# (place, kind, name) of each name, at its first use
    refusals: list = field(default_factory=list)


def clang_words():
    clang = os.environ.get("CLANG", "clang")
    if not shutil.which(clang):
        raise NoClang(f"{clang} is missing; on Debian, apt-get install clang llvm")
    return [clang, *OPTIONS]


def run(source, more):
    words = [*clang_words(), *more, *shlex.split(os.environ.get("CFLAGS", "")), source]
    return subprocess.run(words, capture_output=True, text=True)


def is_of_kernel(source):
    """Whether it includes what the kernel's policies include. Headers that aren't here are passed over."""
    return "scx/common.bpf.h" in run(source, ["-M", "-MG"]).stdout


def diagnostics(said):
    found = []
    for line in said.splitlines():
        head = re.match(r"(?:(.*?:\d+):\d+: )?(fatal error|error|warning): (.*)$", line)
        if head:
            found.append(Diagnostic(head[1] or "", head[2], head[3], [line]))
        elif found and not re.match(r"\d+ (warning|error)s? ", line):
            found[-1].lines.append(line)
    return found


def unknown_names(found):
    """The names that clang doesn't know, each at its first use."""
    names = {}
    for one in found:
        if known := one.unknown():
            names.setdefault(known[1], (one.place, *known))
    return list(names.values())


def signed_divisions(source, said):
    """The places of signed divisions, which both clangs refuse in words of their own. That of 14 cuts paths short."""
    places = re.findall(r"^(.*?:\d+):\d+: error: unsupported signed division", said, re.M)
    for path, line in re.findall(r"Unsupport signed division for DAG: .*, (\S+?):(\d+):\d+", said):
        places.append(f"{source if os.path.realpath(source).endswith(path) else path}:{line}")
    return places


def same_as_section(source, said):
    """Functions that have the name of a section, which the assembler takes for one symbol."""
    for name in re.findall(r"symbol '(\w+)' is already defined", said):
        with open(source, errors="replace") as file:
            lines = [number for number, line in enumerate(file, 1) if re.search(rf"\b{name}\s*\(", line)]
        place = f"{source}:{lines[0]}" if lines else source
        yield f"{place}: '{name}' is the name of the function and of its section; name the function otherwise"


def breakdown(source, said):
    """What clang says last where it breaks down."""
    found = re.search(r"error in backend: (.*)", said)
    what = found[1] if found else "it says nothing more"
    return f"{source}: clang can't compile this: {what}"


def in_words_of_build(one):
    """A message of clang that build says otherwise, or None."""
    found = ((re.search(form, one.text), text) for form, text in REFUSED)
    return next((f"{one.place}: {match.expand(text)}" for match, text in found if match and one.place), None)


def refusals_of(source, said, found):
    """What build says where there is no object: of unknown names nothing, as they are listed by themselves."""
    if places := signed_divisions(source, said):
        return [f"{place}: {SIGNED}" for place in dict.fromkeys(places)]
    if same := list(same_as_section(source, said)):
        return same
    errors = [one for one in found if one.kind != "warning" and not one.unknown()]
    refusals = [in_words_of_build(one) or "\n".join(one.lines) for one in errors if "error in backend" not in one.text]
    is_broken = "error in backend" in said or not errors and not unknown_names(found)
    return refusals + ([breakdown(source, said)] if is_broken else [])


def run_without_includes(source, more, folder):
    """Runs clang with empty files in the place of headers that aren't here. Returns what it did, and these headers."""
    includes = []
    more.append(f"-I{folder}")
    while True:
        done = run(source, more)
        missing = [one for one in unknown_names(diagnostics(done.stderr)) if one[1] == INCLUDE]
        if not missing or missing[0] in includes or ".." in missing[0][2]:
            return done, includes
        includes += missing
        header = os.path.join(folder, missing[0][2])
        os.makedirs(os.path.dirname(header), exist_ok=True)
        open(header, "w").close()


def compile_policy(source, path, more=()):
    """Compiles a policy. A function that nothing declares becomes a symbol that nothing defines, and so does another
    name where that is all that is wrong, so that what comes next can name all of them."""
    more = [*more, "-c", "-o", path]
    done, includes = run_without_includes(source, more, f"{path}.includes")
    found = diagnostics(done.stderr)
    unknown = [*includes, *unknown_names(found)]
    if done.returncode == 0:
        said = "" if len(unknown) > len(includes) else "".join("\n".join(one.lines) + "\n" for one in found)
        return Compiled(True, said, unknown)
    names = [name for _, kind, name in unknown if kind == IDENTIFIER]
    if names and run(source, [*more, *(f"-D{name}={name}()" for name in names)]).returncode == 0:
        return Compiled(True, "", unknown)
    return Compiled(False, "", unknown, refusals_of(source, done.stderr, found))
