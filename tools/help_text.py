"""The help of scxsim in its parts, for tools/manual and tools/completions. SCXSIM names another program than bin/scxsim."""
import os
import re
import subprocess
from pathlib import Path

PROGRAM = os.environ.get("SCXSIM") or Path(__file__).resolve().parent.parent / "bin" / "scxsim"


class Help:
    """The help of a program with commands, as clap writes it."""

    def __init__(self, program=PROGRAM):
        self.program = program

    def of(self, *command):
        done = subprocess.run([self.program, "help", *command], capture_output=True, text=True)
        return done.stdout or done.stderr

    def commands(self):
        """The commands without help, each with its line."""
        return [(name, what) for name, what in listed(self.of(), "Commands") if name != "help"]


def listed(text, title):
    """The pairs of a name and its line below a line such as 'Commands:'."""
    found = re.search(rf"^{title}:\n((?:  .*\n)*)", text, re.M)
    lines = found[1].splitlines() if found else []
    return [re.fullmatch(r"  (-\w, --\S+|\S+) +(.*)", line).groups() for line in lines]


def usage_of(text):
    return re.search(r"^Usage: (.*)$", text, re.M)[1]


def after_options(text):
    """The text of a help after its list of options: an example as a rule."""
    return re.split(r"^Options:\n(?:  .*\n)+\n?", text, flags=re.M)[-1].rstrip("\n")


def about(text):
    """The first line of a help, as a manual page has it after a name."""
    line = text.splitlines()[0].rstrip(".")
    return line[0].lower() + line[1:]
