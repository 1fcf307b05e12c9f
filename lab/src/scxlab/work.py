"""What a worker does: runs of policies and workloads that are given as texts."""

import tempfile
from dataclasses import dataclass
from functools import cache
from pathlib import Path
from threading import get_ident

from scxlab.errors import LabError, Refused
from scxlab.figures import state_of
from scxlab.program import Program
from scxlab.store import Result, hash_of, key_of


@dataclass(frozen=True)
class Job:
    """A run to be done, by its key."""

    key: str
    policy: str
    workload: str


def job_of(program: Program, policy: str, workload: str) -> Job:
    """The job of a program, a policy and a workload."""
    return Job(key_of(program.hash, hash_of(policy), hash_of(workload)), policy, workload)


@cache
def folder() -> "tempfile.TemporaryDirectory[str]":
    """A folder of this process for the files that the program reads."""
    return tempfile.TemporaryDirectory(prefix="scxlab-")


def thread_file(name: str) -> Path:
    """The path of a file that no other thread of this process writes."""
    return Path(folder().name) / f"{get_ident()}-{name}.toml"


@cache
def file_of(text: str) -> Path:
    """A file with the text, as long as this process lives."""
    path, own = Path(folder().name) / f"{hash_of(text)}.toml", thread_file("new")
    own.write_text(text)
    return own.replace(path)


def workload_file(text: str) -> Path:
    """A file with the text, until this thread calls it again."""
    path = thread_file("workload")
    path.write_text(text)
    return path


@cache
def checked(path: str, wanted: str) -> Program:
    """The program at the path, which has to be the one with that hash."""
    program = Program(path)
    try:
        found = program.hash
    except OSError as error:
        raise LabError(f"a worker lacks the program {path}") from error
    if found != wanted:
        raise LabError(f"a worker has another program at {path}")
    return program


def run_job(path: str, wanted: str, job: Job) -> Result:
    """The state and the metrics of a run with the program at the path. A refusal is a state, without metrics."""
    program = checked(path, wanted)
    try:
        figures = program.call("stats-csv", file_of(job.policy), workload_file(job.workload))
        state = state_of(figures)
    except Refused as refusal:
        state, figures = str(refusal), ""
    return Result(job.key, job.policy, job.workload, state, figures)
