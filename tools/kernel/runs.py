"""Runs of policies in scxsim and in a kernel."""
import re
import subprocess
import tempfile
import tomllib
from pathlib import Path

from guest import SCXSIM, boot, kernel_folder, results_of
from kernel_types import KernelTypes, NoCounterpart
from translate import policy_lines, rules_of, workload_lines

ERRORS = 1024		# exits of this kind and above are errors


def here(policy, workload, said=None):
    """What scxsim does: milliseconds and turns of each task, and how the policy ended. No tasks where it is refused. Its
    words on standard error go to the file said."""
    report = subprocess.run([SCXSIM, "report", policy, workload], stdout=subprocess.PIPE, stderr=said, text=True)
    # What is said on standard error was said by report.
    trace = subprocess.run([SCXSIM, "run", policy, workload], capture_output=True, text=True).stdout
    if report.returncode == 1 and report.stdout.startswith("refused"):
        return {}, report.stdout.strip()
    tasks = {name: (int(ms), 0) for name, ms in re.findall(r"^task (\S+) run (\d+)", report.stdout, re.M)}
    for name in re.findall(r"^\d+ run (\S+) cpu", trace, re.M):
        tasks[name] = tasks[name][0], tasks[name][1] + 1
    ejected = re.search(r"^\d+ eject .*$", trace, re.M)
    return tasks, ejected[0] if ejected else "in force"


def rules_here(policy):
    """The rules of a policy file, in words."""
    read = tomllib.loads(Path(policy).read_text())
    ticks = read.get("tick_ms", 4)
    return f"linux, ticks of {ticks} ms" if rules_of(read) == "linux" and ticks else rules_of(read)


def reason_of(result):
    """Why the kernel ejected a policy: the kind, and the last that it said."""
    kind = next((re.search(r"disabled \((.*)\)", line)[1] for line in result["log"] if "disabled (" in line), "")
    said = [line for line in result["log"] if "BPF scheduler" not in line and "+0x" not in line]
    return "; ".join([kind, *(re.sub(r"^sched_ext: \w+: ", "", line) for line in said[-1:])])


def ending(result):
    """How the policy ended in the kernel."""
    if result["wrong"]:
        return "; ".join(result["wrong"])
    if result["kind"] < ERRORS:
        return "in force"
    return f"{result['at']} ejected {result['kind']}: {reason_of(result)}"


def cases_of(types, pairs, by_groups):
    """For each pair how many processors it wants, and the lines of its case."""
    cases = []
    for policy, workload in pairs:
        try:
            rules = rules_of(tomllib.loads(Path(policy).read_text()))
            lines = ["case 0", *policy_lines(types, SCXSIM, policy), *workload_lines(workload, by_groups, rules)]
        except NoCounterpart as error:
            raise NoCounterpart(f"{policy} {workload}: {error}")
        cases.append((int(lines[-1].split()[1]), "\n".join(lines) + "\n"))
    return cases


def there(version, by_groups, pairs, seed=1):
    """What the kernel does: the policy, the workload and the result of each pair. Each has a boot of its own, as 6.18
    doesn't end a second one after the guest has programmed the clock. The same seed gives the same result."""
    folder = kernel_folder(version)
    cases = cases_of(KernelTypes(folder / "types"), pairs, by_groups)
    for (policy, workload), (cpus, lines) in zip(pairs, cases):
        with tempfile.TemporaryDirectory() as work:
            results = results_of(boot(folder, lines, cpus, Path(work), seed))
        yield policy, workload, results[0]
