#!/usr/bin/env python3
"""Figures of bin/scxsim beside Rust that does the same work, of bench/plain.rs; docs/BENCHMARKS.md has them.

`slots`: instructions for each slot that is decoded, assembled, disassembled and verified, of programs of 4096 slots, and
for each instruction that is run. Those of one function and of all that it calls are counted by callgrind, in both
programs. Jumps of texts go to labels. `masked` and `tested` load 1000 times from a value of 64 bytes, as far on as a
number says that was masked, or tested.

`runs` and `growth`: whole runs, which bench/runs.py describes. `times`: the processor time of these runs, and the lines of
`run` that are written to /dev/null in a second, under a policy of one queue and slices of 2 ms; it wants a quiet machine,
and takes some minutes. `files`: files of nearly 1 MB, each of a run that is refused as soon as both files are read, by
bin/scxsim alone. `queues`: instructions for each push, pop and removal, by the program of crates/scx_tests_bench.
`same`: both programs on N random programs and pairs of files (`--pairs N`), which have to do the same.

  bench/figures.py [--only WORK] [--scxsim PATH] [--plain PATH] [--bench PATH] [--pairs N]

Without --only all works but `times` and `queues` are done. Wants rustc, and valgrind for what is counted.
"""
import argparse
import os
import re
import subprocess
import sys
import tempfile

sys.dont_write_bytecode = True
from counting import TOP, compiled_plain, counted, seconds, write
from runs import measure_growth, measure_runs, measure_times
from same import measure_same

EXIT = [("9500000000000000", "exit")]
START = [("b700000007000000", "r0 = 7"), ("b701000003000000", "r1 = 3")]
# of r0 nothing is known, so that both sides of a comparison are followed
UNKNOWN = [("8500000005000000", "call 5"), START[1]]
# r6 is a pointer to the one value of map 0, which has 64 bytes, and r3 a number from it
ELEMENT = [
    ("620afcff00000000", "*(u32 *)(r10 - 4) = 0"),
    ("bfa2000000000000", "r2 = r10"),
    ("07020000fcffffff", "r2 += -4"),
    ("18510000000000000000000000000000", "r1 = map 0"),
    ("8500000001000000", "call 1"),
    ("5500010000000000", "if r0 != 0 goto +1"),
    EXIT[0],
    ("bf06000000000000", "r6 = r0"),
    ("7963000000000000", "r3 = *(u64 *)(r6 + 0)"),
]
PROGRAMS = {
    "straight": [
        ("0700000003000000", "r0 += 3"),
        ("2400000005000000", "w0 *= 5"),
        ("af10000000000000", "r0 ^= r1"),
        ("6700000007000000", "r0 <<= 7"),
        ("c700000003000000", "r0 s>>= 3"),
        ("bf01000000000000", "r1 = r0"),
    ],
    "branching": [
        ("1500010007000000", "if r0 == 7 goto a{0}"),
        ("b700000009000000", "r0 = 9\na{0}:"),  # never done
        ("a501010003000000", "if r1 < 3 goto b{0}"),
        ("b701000003000000", "r1 = 3\nb{0}:"),
        ("0500000000000000", "goto c{0}\nc{0}:"),
        ("b700000007000000", "r0 = 7"),
    ],
    "stack": [
        ("7b0af8ff00000000", "*(u64 *)(r10 - 8) = r0"),
        ("79a1f8ff00000000", "r1 = *(u64 *)(r10 - 8)"),
        ("631af0ff00000000", "*(u32 *)(r10 - 16) = r1"),
        ("61a0f0ff00000000", "r0 = *(u32 *)(r10 - 16)"),
        ("7a0ae8ff05000000", "*(u64 *)(r10 - 24) = 5"),
        ("79a2e8ff00000000", "r2 = *(u64 *)(r10 - 24)"),
    ],
}
VERIFIED = {
    "straight": PROGRAMS["straight"],
    "ladder": [
        ("1500020007000000", "if r0 == 7 goto a{0}"),
        ("7a0af8ff01000000", "*(u64 *)(r10 - 8) = 1"),
        ("0500010000000000", "goto b{0}\na{0}:"),
        ("b702000002000000", "r2 = 2\nb{0}:"),
    ],
    "stores": [
        ("7b0a%s00000000" % (-back).to_bytes(2, "little", signed=True).hex(), "*(u64 *)(r10 - %d) = r0" % back)
        for back in range(8, 513, 8)
    ],
}
# A number is masked, or tested, and a byte or eight are loaded from that far on in the value
ARRAYS = {
    "masked": [
        ("5703000038000000", "r3 &= 56"),
        ("bf64000000000000", "r4 = r6"),
        ("0f34000000000000", "r4 += r3"),
        ("7943000000000000", "r3 = *(u64 *)(r4 + 0)"),
    ],
    "tested": [
        ("250303003f000000", "if r3 > 63 goto a{0}"),
        ("bf64000000000000", "r4 = r6"),
        ("0f34000000000000", "r4 += r3"),
        ("7143000000000000", "r3 = *(u8 *)(r4 + 0)\na{0}:"),
    ],
}
ACCESSES = 1000
MOST = 4096  # slots of a program
TASKS = [1, 16, 256, 1024]
CALLS = 4  # of a queue: a pop, a removal and two pushes
# The functions that do each work, of scxsim and of plain Rust, and the command. That of scxsim for dis also decodes.
DECODE = ("scx_isa::decoding::decode", "plain::plain_slots::decode")
FUNCTIONS = {
    "decode": (*DECODE, "dis"),
    "asm": ("scx_asm::assembling::assemble", "plain::plain_text::assemble", "asm"),
    "dis": ("scxsim_commands::disassembling::text_of", "plain::plain_text::disassemble", "dis"),
}
VERIFY = ("scx_verify::programs::verify_by", "plain::plain_verify::verify")
RUN = ("scx_vm_run::running::walk_counted*", "plain::execute")


def some_program(slots, body, start=START):
    """The start values, the body over and over, moves of r0 for what is left, and an exit."""
    times, left = divmod(slots - len(start) - 1, len(body))
    parts = [start] + times * [body] + left * [START[:1]] + [EXIT]
    spelled = "".join(slot for part in parts for slot, _ in part)
    text = "".join(line.format(n) + "\n" for n, part in enumerate(parts) for _, line in part)
    return bytes.fromhex(spelled), text.encode()


def verified_program(name):
    return some_program(MOST, VERIFIED[name], UNKNOWN if name == "ladder" else START)


def array_program(body):
    """The look-up, the body for each access, and an exit."""
    parts = [ELEMENT] + ACCESSES * [body] + [START[:1], EXIT]
    return bytes.fromhex("".join(slot for part in parts for slot, _ in part))


def show(work, name, slots, ours, plain):
    print("%-8s %-10s %6s %9.1f %8.1f %7.2f" % (work, name, slots, ours, plain, ours / plain), flush=True)


def show_functions(work, name, slots, units, commands, functions):
    """The instructions of a function of each program, for each unit."""
    ours, plain = (counted(words, inside=inside) for words, inside in zip(commands, functions))
    if work == "dis":
        ours -= counted(commands[0], inside=DECODE[0])
    show(work, name, slots, ours / units, plain / units)


def measure_slots(scxsim, plain, folder):
    for work, (*functions, command) in FUNCTIONS.items():
        for name in VERIFIED:
            path = write(folder, name, verified_program(name)[command == "asm"])
            show_functions(work, name, MOST, MOST, [[program, command, path] for program in (scxsim, plain)], functions)
    spelled = {name: verified_program(name)[0] for name in VERIFIED}
    for name, code in (spelled | {name: array_program(body) for name, body in ARRAYS.items()}).items():
        policy_path = write(folder, "policy", "[[map]]\nentries = 1\nvalue_size = 64\n[slots]\ninit = '%s'\n" % code.hex())
        commands = [[scxsim, "verify", policy_path], [plain, "verify", write(folder, name, code)]]
        show_functions("verify", name, len(code) // 8, len(code) // 8, commands, VERIFY)
    for name, body in PROGRAMS.items():
        for slots in (40, 4000):
            commands = [[program, "exec", write(folder, name, some_program(slots, body)[0])] for program in (scxsim, plain)]
            lines = [subprocess.run(words, capture_output=True, text=True, check=True).stdout for words in commands]
            assert lines[0] == lines[1], lines
            steps = int(re.search(r"in (\d+) steps", lines[0])[1])
            show_functions("run", name, slots, steps, commands, RUN)


def instructions(binary, work, tasks, more=10_000):
    """The instructions of one more turn."""
    counts = [counted([binary, work, str(tasks), str(times)]) for times in (1, 1 + more)]
    return (counts[1] - counts[0]) / more


def measure_queues(bench, plain, _):
    """Instructions for each call."""
    for order in ("fifo", "vtime"):
        for tasks in TASKS:
            work = "queues_" + order
            show("queues", order, tasks, *(instructions(binary, work, tasks) / CALLS for binary in (bench, plain)))


def policy(texts):
    return "[code]\n" + "".join('%s = """\n%s"""\n' % item for item in texts.items())


def workload(cpus, tasks, ms, padding=""):
    """A file of tasks t0, t1 .. in one group, with `padding` after each."""
    head = "cpus = %d\nms = %d\n[[group]]\nname = 'g'\n" % (cpus, ms)
    return head + "".join("[[task]]\nname = 't%d'\ngroup = 'g'\n%s" % (n, padding) for n in range(tasks))


def measure_files(scxsim, _, folder):
    """How long reading a file of nearly 1 MB takes, in a run whose first callback is refused at once: programs of which
    each line has a comment, programs without comments, and a workload of comments."""
    names = ("init", "enable", "enqueue", "dispatch", "running", "stopping")
    small = {"policy": policy({"init": "r0 = 7\n"}), "workload": workload(1, 1, 1)}
    line, short = "r0 = 7  # for people who read the program\n", "r0 = 7\n"
    large = {
        "policy, comments": {"policy": policy({name: MOST * line for name in names})},
        "policy, code alone": {"policy": policy({name: MOST * short for name in names})},
        "workload, comments": {"workload": workload(64, 1024, 1, "# " + 970 * "-" + "\n")},
        "workload, tasks": {"workload": workload(64, 1024, 1)},
    }

    def taken(files):
        """Seconds and instructions of a run of these files."""
        paths = [write(folder, name, files[name]) for name in ("policy", "workload")]
        words = [scxsim, "report", *paths]
        return min(seconds(words, status=1)[0] for _ in range(20)), counted(words, status=1)

    without = taken(small)
    for work, texts in large.items():
        spent, count = (after - before for before, after in zip(without, taken(small | texts)))
        size = sum(len(text) for text in texts.values())
        print("read     %-18s %7d bytes %6.1f a byte %6.1f ms" % (work, size, count / size, 1000 * spent), flush=True)


WORKS = {
    "slots": (measure_slots, "work     program     slots    scxsim    plain   ratio"),
    "runs": (measure_runs, "command  policy   workload    scxsim        plain   ratio"),
    "growth": (measure_growth, "work     what grows               size       scxsim        plain"),
    "files": (measure_files, "work     file                            instructions    time"),
    "times": (measure_times, "command  policy   workload scxsim ns plain ns   ratio"),
    "queues": (measure_queues, "work     program     tasks    scxsim    plain   ratio"),
}


def main():
    parser = argparse.ArgumentParser(description=__doc__, formatter_class=argparse.RawDescriptionHelpFormatter)
    parser.add_argument("--only", metavar="WORK", choices=[*WORKS, "same"])
    parser.add_argument("--scxsim", metavar="PATH", default=os.path.join(TOP, "bin", "scxsim"))
    parser.add_argument("--bench", metavar="PATH", default=os.path.join(TOP, "crates/scx_tests_bench/out/scx_tests_bench"))
    parser.add_argument("--plain", metavar="PATH", help="bench/plain.rs as it was built")
    parser.add_argument("--pairs", metavar="N", type=int, default=1000)
    words = parser.parse_args()
    names = [words.only] if words.only else ["slots", "runs", "growth", "files"]
    with tempfile.TemporaryDirectory() as folder:
        plain = words.plain or compiled_plain(folder)
        if words.only == "same":
            sys.exit(measure_same(words.scxsim, plain, folder, words.pairs))
        if words.only == "queues" and not os.path.exists(words.bench):
            sys.exit("%s isn't there: build crates/scx_tests_bench, or name it by --bench" % words.bench)
        for name in names:
            measure, head = WORKS[name]
            print(head, flush=True)
            measure(words.bench if name == "queues" else words.scxsim, plain, folder)


main()
