"""The program scxsim: where it is, and one call of it."""

import os
import shutil
import subprocess
from collections.abc import Sequence
from dataclasses import dataclass
from functools import cache, cached_property
from hashlib import sha256
from pathlib import Path

from scxlab.errors import LabError, Refused

# Of 1024 tasks and 64 CPUs a millisecond is less than that in a trace.
END_BYTES = 1 << 20


@dataclass(frozen=True)
class Program:
    """The program at a path."""

    path: str

    @cached_property
    def hash(self) -> str:
        """The hash of its bytes, by which results of another program are told from its own."""
        return sha256(Path(self.path).read_bytes()).hexdigest()

    def call(self, command: str, policy: str | os.PathLike[str], workload: str | os.PathLike[str]) -> str:
        """Returns what a command writes of a policy file and a workload file."""
        done = self._done([command, str(policy), str(workload)])
        if done.returncode == 0:
            return done.stdout
        told = (done.stdout + done.stderr).strip().splitlines() or [f"status {done.returncode}"]
        if done.returncode == 1:
            raise Refused(told[0])
        raise LabError(f"scxsim {command} {policy} {workload}: {told[0]}")

    def end_of_trace(self, policy: str | os.PathLike[str], workload: str | os.PathLike[str]) -> str:
        """Returns the last lines of a run's trace, with all of its last millisecond; the rest isn't kept."""
        end = b""
        with subprocess.Popen([self.path, "run", str(policy), str(workload)], stdout=subprocess.PIPE,
                              stderr=subprocess.DEVNULL) as running:
            assert running.stdout
            while block := running.stdout.read(END_BYTES):
                end = (end + block)[-END_BYTES:]
        if running.returncode:
            raise LabError(f"scxsim run {policy} {workload}: status {running.returncode}")
        return end.partition(b"\n")[2].decode() if len(end) == END_BYTES else end.decode()

    def _done(self, words: Sequence[str]) -> subprocess.CompletedProcess[str]:
        """The process at its end. There is no limit of time: no run goes on for ever."""
        try:
            return subprocess.run([self.path, *words], capture_output=True, text=True)
        except OSError as error:
            raise LabError(f"{self.path} can't be started: {error.strerror}") from error


@cache
def find_program(path: str | None = None) -> Program:
    """The program at the path or at $SCXSIM, else of the repository in which this package or the current folder lies,
    else on PATH."""
    path = path or os.environ.get("SCXSIM")
    if path:
        if not (os.path.isfile(path) and os.access(path, os.X_OK)):
            raise LabError(f"{path} is no program")
        return Program(str(Path(path).resolve()))
    for folder in [*Path(__file__).resolve().parents, Path.cwd(), *Path.cwd().parents]:
        if (folder / "bin/scxsim").is_file() and (folder / "bin/sources").is_file():
            return program_of(folder)
    if installed := shutil.which("scxsim"):
        return Program(str(Path(installed).resolve()))
    raise LabError("the program scxsim isn't found: install it, or say where with --program or SCXSIM")


def program_of(repository: Path) -> Program:
    """The program of the repository's sources as they are: the committed one, or the one that ./scxsim has kept."""
    told = subprocess.run([repository / "bin/hash"], capture_output=True, text=True)
    sources = told.stdout.strip()
    if sources == (repository / "bin/sources").read_text().strip():
        return Program(str(repository / "bin/scxsim"))
    kept = repository / ".scxsim" / sources / "scxsim"
    if sources and kept.is_file():
        return Program(str(kept))
    raise LabError(f"the sources in {repository} were changed: call ./scxsim once, which proves and builds them")
