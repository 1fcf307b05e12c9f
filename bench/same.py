"""Compares scxsim and plain Rust on random inputs (tests/generator), for bench/figures.py: texts are assembled,
slots disassembled and run, whole and damaged, and pairs of files are run. Policies and workloads are written anew in the
plain simulator's form of TOML; pairs that it doesn't know are only counted."""
import re
import subprocess
import sys
import tomllib
from collections import Counter
from pathlib import Path

from counting import TOP, write

sys.path.insert(0, str(Path(TOP, "tests")))
from generator import workloads
from generator.pairs import Pair

FAULT = re.compile(r"(decode|verify) ?(?:\d+ )?(.*?) ?at (\d+)")
ALONE = [("asm", "text.asm"), ("dis", "slots.bin"), ("dis", "damaged.bin"), ("exec", "slots.bin"), ("exec", "damaged.bin")]


def ended(words):
    """The output, or None and what was refused."""
    run = subprocess.run(words, capture_output=True)
    return (run.stdout, "") if run.returncode == 0 else (None, (run.stdout + run.stderr).decode(errors="replace"))


def are_same(ours, plain):
    """Faults agree if their slots do; plain Rust has no names for those of decoding and of the flow."""
    if ours[0] is not None or plain[0] is not None:
        return ours[0] == plain[0]
    one, two = FAULT.search(ours[1]), FAULT.search(plain[1])
    if not one or not two:
        return not one and not two
    return one[1] == two[1] and one[3] == two[3] and two[2] in (one[2], "", "BadFlow")


def line(key, value):
    if isinstance(value, str) and key != "name" and "\n" in value:
        return "%s = '''\n%s\n'''\n" % (key, value)
    return "%s = %s\n" % (key, '"%s"' % value if isinstance(value, str) else value)


def rewritten(file):
    """The same tables, a key in each line; None if it is no TOML."""
    try:
        tables = tomllib.loads(file.decode())
    except (ValueError, RecursionError):
        return None
    tables.pop("name", None)  # that of a policy, which the plain simulator doesn't check
    text = "".join(line(key, value) for key, value in tables.items() if not isinstance(value, (dict, list)))
    for key, value in tables.items():
        if isinstance(value, dict):
            code = {name: "%s\n" % entry if key == "code" else entry for name, entry in value.items()}
            text += "[%s]\n" % key + "".join(line(*entry) for entry in code.items())
        for table in value if isinstance(value, list) else []:
            text += "[[%s]]\n" % key + "".join(line(*entry) for entry in table.items()) if isinstance(table, dict) else ""
    return text


def check_pair(pair, heads, folder, counts):
    """Yields what isn't the same of files for asm, dis and exec, and of whole runs."""
    for name, text in pair.alone().items():
        write(folder, name, text)
    for command, name in ALONE:
        ours, plain = (ended([head[0], command, "%s/%s" % (folder, name)]) for head in heads)
        counts[command] += 1
        if not are_same(ours, plain):
            yield command, name, ours[1], plain[1]
    texts = [rewritten(file) for file in (pair.policy, pair.workload)]
    if None in texts:
        return
    paths = [write(folder, name, text) for name, text in zip(("policy", "workload"), texts)]
    for command in ("run", "report"):
        ours, plain = (ended([*head, command, *paths]) for head in heads)
        known = plain[0] is not None or ours[0] is None
        counts[command if known else "not known"] += 1
        if known and ours[0] != plain[0]:
            yield command, pair.sort, ours[1], plain[1]


def measure_same(scxsim, plain, folder, count):
    """The status: 1 if something isn't the same."""
    heads, counts, status = [[scxsim], [plain, "simulate"]], Counter(), 0
    for number in range(count):
        workloads.QUOTAS = number % 2 == 1
        for difference in check_pair(Pair("bench", number), heads, folder, counts):
            print("pair %d:" % number, *difference)
            status = 1
    print(", ".join("%s %d" % item for item in sorted(counts.items())))
    return status
