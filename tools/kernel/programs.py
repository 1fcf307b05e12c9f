"""Callbacks that are put before both verifiers: those of policy files, and generated ones."""
import re
import subprocess
import sys
import tomllib
from pathlib import Path
from random import Random

from kernel_types import NoCounterpart
from mending import callbacks_of, explained, findings, mended
from translate import callback_lines, code_of, known, map_tables, ops_lines, rules_of

sys.path.append(str(Path(__file__).resolve().parents[2] / "tests"))
from generator.pairs import SORTS

CLASSES = {		# of generated callbacks: the sorts of tests/pairs that each is made of
    "of policies that run": "fifo|fair|ordered|assorted|built-in queues|ring of held tasks|marked held tasks|selecting|partial|busy code",
    "with one mistake": "verify .*",
    "of instructions at random": "any lines",
    "with a changed text": "changed policy",
}


class Program:
    """One callback, with the verdict here and what the kernel says: "" where it is accepted, None where it wasn't asked."""

    def __init__(self, label, name, path, callback, refusal):
        self.label, self.name, self.path, self.callback, self.refusal = label, name, path, callback, refusal
        self.reason = ""
        self.there, self.mended_there, self.no_counterpart = None, None, ""

    def is_accepted_here_alone(self):
        return not self.refusal and bool(self.there)

    def is_accepted_mended(self):
        return self.mended_there == ""

    def cases(self, types, scxsim):
        """What the guest is to be asked: what notes the answer, and the lines."""
        try:
            yield self.note, case_lines(types, scxsim, self.path, self.callback)
        except NoCounterpart as error:
            self.no_counterpart = str(error)
            return
        if not self.refusal and self.has_findings(scxsim):
            path = Path(self.path).with_suffix(".mended")
            path.write_text(mended(scxsim, self.path))
            yield self.note_mended, case_lines(types, scxsim, path, self.callback)

    def note(self, answer):
        self.there = answer.removeprefix(f"refused {self.callback} ")

    def note_mended(self, answer):
        self.mended_there = answer.removeprefix(f"refused {self.callback} ")

    def has_findings(self, scxsim):
        return any(findings(callbacks_of(explained(scxsim, self.path))))


def case_lines(types, scxsim, path, callback):
    """The lines that ask the guest for its verdict on one callback."""
    policy = tomllib.loads(Path(path).read_text())
    policy |= {"timer": policy.get("timer", [{}])} if callback == "timer" else {}
    codes = {callback: code_of(scxsim, policy, callback)}
    return "\n".join(["case -", *ops_lines(types, policy), *callback_lines(types, callback, codes, known(scxsim, path), policy), "load"]) + "\n"


def reasons_here(scxsim, path):
    """For each refused callback of a policy file, the reason that explain gives."""
    said = subprocess.run([scxsim, "explain", path], capture_output=True, text=True, errors="replace").stdout
    return dict(re.findall(r"^(\w+) refused [^\n]*\n(?:.+\n)*? += (.*)$", said, re.M))


def verdicts_here(scxsim, path):
    """Of each callback of a policy file the name of its refusal, or ""; nothing where the file itself is refused."""
    said = subprocess.run([scxsim, "verify", path], capture_output=True).stdout.decode(errors="replace")
    found = re.findall(r"^(\w+) (?:ok \d+|refused \d+ (\S+).*)$", said, re.M)
    return {} if said.startswith("refused:") else dict(found)


def alone(path, callback, folder, number):
    """The policy file with that one callback."""
    policy = tomllib.loads(Path(path).read_text())
    lines = ['rules = "linux"'] * (rules_of(policy) == "linux") + [f"keep_idle = {number}" for number in [policy.get("keep_idle")] if number]
    lines += [*map_tables(policy), *(["[[timer]]"] * len(policy.get("timer", [])))]
    table = "code" if callback in policy.get("code", {}) else "slots"
    lines += [f"[{table}]", f"{callback} = '''", policy[table][callback].strip("\n"), "'''"]
    target = folder / f"{number:05}.toml"
    target.write_text("\n".join(lines) + "\n")
    return target


def of_files(scxsim, paths, folder):
    """The callbacks of policy files. A file that is refused as a whole has none, and is named."""
    number = 0
    for path in paths:
        open(path).close()
        verdicts, reasons = verdicts_here(scxsim, path), reasons_here(scxsim, path)
        if not verdicts:
            print(f"{path}: no callbacks, or no policy file")
        for callback, refusal in verdicts.items():
            number += 1
            program = Program("of the files", f"{path} {callback}", alone(path, callback, folder, number), callback, refusal)
            program.reason = reasons.get(callback, "")
            yield program


def some_callback(random, verdicts):
    """A callback that is refused, if there is one."""
    return random.choice([name for name, refusal in verdicts.items() if refusal] or list(verdicts))


def generated(scxsim, seed, count, folder):
    """As many callbacks of each class, each of a policy of its own."""
    names = list(CLASSES)
    for number in range(count):
        label = names[number % len(names)]
        makers = [make for _, sort, make in SORTS if re.fullmatch(CLASSES[label], sort)]
        random, path, verdicts = Random(f"{seed} {number}"), folder / "policy.toml", {}
        while not verdicts:
            policy, _ = random.choice(makers)(random)
            path.write_bytes(policy.encode(errors="surrogatepass"))
            verdicts = verdicts_here(scxsim, path)
        callback = some_callback(random, verdicts)
        yield Program(label, f"callback {number} of seed {seed}", alone(path, callback, folder, number), callback, verdicts[callback])
