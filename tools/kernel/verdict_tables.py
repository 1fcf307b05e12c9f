"""Tables of verdicts side by side, in the form of the documents."""
import re

COLUMNS = ["both accept", "both refuse", "accepted here alone", "accepted there alone", "no counterpart", "no answer"]


def column_of(program):
    if program.no_counterpart:
        return "no counterpart"
    if program.there is None or program.there.startswith("error"):
        return "no answer"
    if program.refusal:
        return "both refuse" if program.there else "accepted there alone"
    return "accepted here alone" if program.there else "both accept"


def kind_of(program):
    """Why two verdicts differ, in the words of the one that refuses, without its numbers."""
    if program.refusal:
        return program.refusal
    return re.sub(r"-?\b\d+\b", "N", re.sub(r"\b[rRwW]\d+\b", "R", program.there))


def print_counts(programs):
    print("\n| Callbacks | All | " + " | ".join(COLUMNS) + " |\n" + "|---" * (len(COLUMNS) + 2) + "|")
    for label in dict.fromkeys(program.label for program in programs):
        those = [column_of(program) for program in programs if program.label == label]
        print(f"| {label} | {len(those)} | " + " | ".join(str(those.count(column)) for column in COLUMNS) + " |")


def print_kinds(programs):
    """How often each kind of difference comes, with one that has it."""
    kinds = {}
    for program in programs:
        if column_of(program) in COLUMNS[2:4]:
            kinds.setdefault((column_of(program), kind_of(program)), []).append(program)
    print("\n| Differs | Refused as | Callbacks | For example |\n|---|---|---|---|")
    for (column, kind), those in sorted(kinds.items(), key=lambda one: (one[0][0], -len(one[1]))):
        print(f"| {column} | {kind} | {len(those)} | {those[0].name} |")


def print_mended(programs):
    """What the kernel says of programs that are accepted here alone, without what portable names in them."""
    those = [program for program in programs if program.is_accepted_here_alone()]
    accepted = sum(program.is_accepted_mended() for program in those)
    print(f"\n{len(those)} are accepted here alone, and {accepted} of these by the kernel too without what portable names")
    for program in those:
        if not program.is_accepted_mended():
            print(f"{program.name}: {program.there}; without what portable names: {program.mended_there or 'it names nothing'}")


def print_side_by_side(programs):
    """Both verdicts of each callback of a file that one verifier refuses, in the words of each."""
    refused = [one for one in programs if one.label == "of the files" and (one.refusal or one.there or one.no_counterpart)]
    if refused:
        print("\n| Callback | Here | In the kernel |\n|---|---|---|")
    for one in refused:
        here = ": ".join(text for text in (one.refusal, one.reason) if text) or "accepted"
        there = f"no counterpart: {one.no_counterpart}" if one.no_counterpart else one.there or "accepted"
        print(f"| {one.name} | {here} | {there} |")


def print_tables(programs):
    print_side_by_side(programs)
    print_counts(programs)
    print_kinds(programs)
    print_mended(programs)
    for program in programs:
        if column_of(program) in COLUMNS[4:] and program.label != "of the files":
            print(f"{program.name}: {program.no_counterpart or program.there}")
