"""Parts of tests: their commands, what became of them, and a line for each. tests/quick and tests/long have them."""
import os
import shlex
import shutil
import signal
import subprocess
import sys
import tempfile
from concurrent.futures import ThreadPoolExecutor
from pathlib import Path
from threading import Lock
from time import monotonic
from typing import NamedTuple

TOP = Path(__file__).resolve().parent.parent
PASSED, FAILED, SKIPPED = "passed", "failed", "skipped"
printing, making, running = Lock(), Lock(), set()


class Part(NamedTuple):
    """A part: its command, or several with `&&` between them; whether it depends on the program; whether it installs
    bin/scxsim itself; a tool that it wants. In commands PROGRAM means the program, PLAIN the plain simulator of
    bench/, PAIRS for a folder of random pairs of files, QUOTAS for one of pairs with quotas, SEED for their seed."""
    commands: str
    of_program: bool = True
    installs: bool = False
    tool: str | None = None


class Surroundings:
    """What parts are given: the program, the seed, how many pairs there are, and the most seconds of a command."""

    def __init__(self, folder, seed, count, seconds):
        self.folder, self.seed, self.count, self.seconds = folder, seed, count, seconds
        self.program = Path(os.environ.get("SCXSIM") or TOP / "bin/scxsim").resolve()
        self.environment = os.environ | {"SCXSIM": str(self.program), "PYTHONDONTWRITEBYTECODE": "1"}
        self.is_of_sources = self.run(["bin/hash"])[1] == (TOP / "bin/sources").read_text()
        self.made = {}

    def run(self, words):
        """The status of a command and what it printed. If it takes too long, it is ended with all that it started."""
        how = {"cwd": TOP, "env": self.environment, "stdin": subprocess.DEVNULL, "stdout": subprocess.PIPE,
               "stderr": subprocess.STDOUT, "start_new_session": True}
        with subprocess.Popen(words, **how) as process:
            running.add(process.pid)
            try:
                said = process.communicate(timeout=self.seconds)[0]
            except subprocess.TimeoutExpired:
                os.killpg(process.pid, signal.SIGKILL)
                said = process.communicate()[0] + b"\nit took too long\n"
            running.discard(process.pid)
        return process.returncode, said.decode(errors="replace")

    def why_skipped(self, part):
        """Why a part can't be run here; None if it can."""
        if part.tool and not self.has(part.tool):
            return f"{part.tool} isn't installed"
        if self.is_of_sources or not part.of_program or "SCXSIM" in os.environ and not part.installs:
            return None
        return "bin/scxsim is of other sources"

    def has(self, tool):
        """Whether a tool is there; rustc may be there without a compiler."""
        return bool(shutil.which(tool)) and (tool != "rustc" or self.run(["rustc", "--version"])[0] == 0)

    def made_once(self, name, words):
        """The path that a command made, which has PATH among its words."""
        with making:
            if name not in self.made:
                path = str(self.folder / name)
                status, said = self.run([path if word == "PATH" else word for word in words])
                if status:
                    raise OSError(said)
                self.made[name] = path
            return self.made[name]

    def meaning(self, word):
        """What a word of a command means."""
        match word:
            case "PROGRAM":
                return str(self.program)
            case "SEED":
                return self.seed
            case "PLAIN":
                return self.made_once("plain", ["rustc", "-O", "--edition", "2021", "-o", "PATH", "bench/plain.rs"])
            case "PAIRS":
                return self.made_once("pairs", ["tests/pairs", self.seed, str(self.count), "PATH"])
            case "QUOTAS":
                return self.made_once("quotas", ["tests/pairs", "--quotas", self.seed, str(self.count), "PATH"])
        return word

    def commands_of(self, part):
        """The commands of a part, each as its words."""
        return [[self.meaning(word) for word in shlex.split(command)] for command in part.commands.split("&&")]


class Result(NamedTuple):
    """What became of a part: passed, failed or skipped, what it printed, what it couldn't try, and its seconds."""
    name: str
    verdict: str
    said: str
    untried: list
    seconds: float = 0

    def last_line(self):
        """The last line that the part printed, at the margin if there is one."""
        lines = self.said.splitlines()
        lines = [line for line in lines if line[:1].strip()] or [line.strip() for line in lines] or [""]
        return lines[-1].removeprefix("skipped: ")

    def tell(self):
        """Prints the line of the part, and all that it printed if it failed."""
        with printing:
            print(f"{self.verdict:8} {self.name:13} {self.seconds:6.1f} s  {self.last_line()[:90]}".rstrip())
            if self.verdict == FAILED:
                print("".join(f"    {line}\n" for line in self.said.splitlines()[-60:]), end="")
            sys.stdout.flush()


def tried(surroundings, name, part):
    """Runs the commands of a part up to one that fails."""
    if why := surroundings.why_skipped(part):
        return Result(name, SKIPPED, why, [why])
    said, status = "", 0
    try:
        for words in surroundings.commands_of(part):
            status, more = surroundings.run(words)
            said += more
            if status:
                break
    except OSError as error:
        return Result(name, FAILED, str(error), [])
    lines = [line for line in said.splitlines() if line.strip()]
    untried = [line.removeprefix("skipped: ") for line in lines if line.startswith("skipped: ")]
    verdict = FAILED if status else SKIPPED if untried and len(untried) == len(lines) else PASSED
    return Result(name, verdict, said, untried)


def timed(surroundings, name, part):
    began = monotonic()
    result = tried(surroundings, name, part)._replace(seconds=monotonic() - began)
    result.tell()
    return result


def results_of(parts, lanes, seed, count, seconds=None):
    """What became of the parts, that many side by side. An interrupt ends all that runs."""
    signal.signal(signal.SIGTERM, signal.default_int_handler)
    with tempfile.TemporaryDirectory(prefix="parts.") as folder, ThreadPoolExecutor(lanes) as pool:
        surroundings = Surroundings(Path(folder), seed, count, seconds)
        try:
            return list(pool.map(lambda item: timed(surroundings, *item), parts.items()))
        except KeyboardInterrupt:
            signal.signal(signal.SIGINT, signal.SIG_IGN)
            pool.shutdown(wait=False, cancel_futures=True)
            for group in list(running):
                os.killpg(group, signal.SIGKILL)
            raise


def chosen(script, parts, names):
    """The parts that are named, or all."""
    if unknown := [name for name in names if name not in parts]:
        print(f"{script}: there is no part {unknown[0]}; there are {', '.join(parts)}", file=sys.stderr)
        sys.exit(2)
    return {name: part for name, part in parts.items() if not names or name in names}


def print_list(parts):
    for name, part in parts.items():
        print(f"{name:13} {part.commands}")


def summary(results):
    """Prints what wasn't tried and how many parts passed, and answers the status."""
    for result in results:
        for line in result.untried:
            print(f"not tried in {result.name}: {line}")
    counts = [sum(result.verdict == verdict for result in results) for verdict in (PASSED, FAILED, SKIPPED)]
    print("{} passed, {} failed, {} skipped".format(*counts))
    return 1 if counts[1] else 0
