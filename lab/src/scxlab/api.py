"""What a notebook calls. Policies and workloads are paths, or texts of TOML. Each function answers a DataFrame: text
is `string`, whole numbers are `Int64`, fractions `Float64`, and columns in milliseconds end with `_ms`."""

import os
import tempfile
import tomllib
from collections.abc import Iterable
from contextlib import closing
from pathlib import Path
from typing import Any

import pandas

from scxlab import comparison, searches, sweeps
from scxlab.clusters import Workers
from scxlab.errors import LabError
from scxlab.experiment import read_experiment
from scxlab.fitting import fit as fitted
from scxlab.frames import FRACTION, TEXT, WHOLE, typed
from scxlab.pictures import Picture
from scxlab.program import find_program
from scxlab.runs import Run
from scxlab.sources import Given, source_of, sources_of
from scxlab.store import Store
from scxlab.templates import workload_of
from scxlab.work import file_of

FOUND = {"goal": TEXT, "value": FRACTION, "runs": WHOLE, "workload": TEXT}
FITTED = {"task": TEXT, "group": TEXT, "start_ms": WHOLE, "run_ms": WHOLE, "sleep_ms": WHOLE}


def run(policy: Given, workload: Given, program: str | None = None) -> Run:
    """Runs a workload under a policy.

    Returns a `Run`: `tasks`, `cpus`, `groups`, `waits`, `bursts` and `slices` are DataFrames, `state` says how it
    ended, `picture` is its SVG. Ranges and counts of the workload are drawn by its own `seed`.

    >>> import scxlab
    >>> one = scxlab.run("examples/policies/fifo.toml", "examples/workloads/two_tasks.toml")
    >>> one.tasks.longest_wait_ms["b"]
    4
    """
    rule, load = source_of(policy, "policy"), source_of(workload, "workload")
    path = str(load.path or load.name)
    text = workload_of(load.text, path)
    file = load.path if load.path and text == load.text else file_of(text)
    return Run(find_program(program), rule.path or file_of(rule.text), file, f"{rule.name}, {load.name}")


def slices(policy: Given, workload: Given, program: str | None = None) -> pandas.DataFrame:
    """Each stretch of time in which a task of a run ran or was parked.

    Columns: `kind` (string; `run` or `parked`), `task` (string), `cpu` (Int64; missing if parked), `since_ms` and
    `length_ms` (Int64).

    >>> import scxlab
    >>> scxlab.slices("examples/policies/fifo.toml", "examples/workloads/two_tasks.toml").length_ms.sum()
    4
    """
    return run(policy, workload, program).slices


def waits(policy: Given, workload: Given, program: str | None = None) -> pandas.DataFrame:
    """Each wait of a run.

    Columns: `task` (string), `since_ms` and `wait_ms` (Int64).

    >>> import scxlab
    >>> scxlab.waits("examples/policies/fifo.toml", "examples/workloads/two_tasks.toml").wait_ms.max()
    4
    """
    return run(policy, workload, program).waits


def bursts(policy: Given, workload: Given, program: str | None = None) -> pandas.DataFrame:
    """Each finished burst of a run, from a wake to the next sleep.

    Columns: `task` (string), `wake_ms` and `burst_ms` (Int64), `slowdown` (Float64; its length by its run time).

    >>> import scxlab
    >>> len(scxlab.bursts("examples/policies/fifo.toml", "examples/workloads/two_tasks.toml"))
    0
    """
    return run(policy, workload, program).bursts


def compare(policies: Given | Iterable[Given], workloads: Given | Iterable[Given], *, seeds: Iterable[int] = (),
            by: str = "run", workers: int | None = None, client: Any = None,
            program: str | None = None) -> pandas.DataFrame:
    """Runs each workload under each policy, and with each seed if its numbers are drawn from ranges.

    Columns: `workload`, `policy` (string), `seed` (Int64; missing if nothing is drawn), `state` (string; `in force`,
    or how the policy was ejected or refused), and six metrics, for all of which less is better: `share_off_percent`
    (Float64; how far a group's share is from its due share, at most), `mean_wait_ms` (Float64; of all waits),
    `longest_wait_ms` (Int64), `slowdown` (Float64; of all bursts), `changes` (Int64; of task on all CPUs), and
    `idle_while_waiting_ms` (Int64). With `by="task"`, `"group"` or `"cpu"` there is a row for each of these, with its
    name or number and its own metrics.

    `workers` processes share the work, or those of `client`, a client of dask. See also `summary` and `plot`.

    >>> import scxlab
    >>> table = scxlab.compare("examples/policies/fifo.toml", "examples/workloads/two_tasks.toml")
    >>> table.longest_wait_ms.tolist()
    [4]
    """
    found = comparison.compare(sources_of(policies, "policy"), sources_of(workloads, "workload"), find_program(program),
                               list(seeds), Workers(workers, client=client))
    return found.table(by)


def sweep(experiment: str | os.PathLike[str], *, results: str | os.PathLike[str] | None = None,
          workers: int | None = None, client: Any = None, program: str | None = None) -> pandas.DataFrame:
    """Runs all points of an experiment that aren't in the file of results yet.

    Columns: `policy` (string), each parameter (Int64, Float64 or string), `state` (string), each metric of the
    experiment (Int64, or Float64 for means and shares), and `key` (string; of the run in the file of results).
    Without `results` nothing is kept. A failed batch raises `LabError`; the others are kept.

    >>> import scxlab
    >>> rows = scxlab.sweep("lab/examples/slices.toml")    # doctest: +SKIP
    >>> scxlab.plot(rows, "slice", "longest", "typists")    # doctest: +SKIP
    """
    told, found = read_experiment(experiment), find_program(program)
    with tempfile.TemporaryDirectory(prefix="scxlab-") as folder, closing(
            Store(results or Path(folder) / "results.sqlite")) as store:
        planned = sweeps.plan(told, found, store)
        outcome = sweeps.sweep(planned, found, store, Workers(workers, client=client))
        if outcome.faults:
            raise LabError(f"{len(outcome.faults)} batches failed: {outcome.faults[0]}")
        return sweeps.table(planned, store)


def search(policy: Given, template: Given, goal: str, *, runs: int = 1000, seed: int = 0, workers: int | None = None,
           client: Any = None, program: str | None = None) -> pandas.DataFrame:
    """Looks for the workload of a template under which a policy is worst.

    Columns: `goal` (string), `value` (Float64), `runs` (Int64), `workload` (string; its text, which `run` takes). The
    first row is the worst that was found, made as small as it gets; the others are the worst of each climb. The same
    seed finds the same, whatever the number of workers.

    >>> import scxlab
    >>> found = scxlab.search("examples/policies/sticky.toml", "lab/examples/starve.toml", "max longest_wait_ms(a)",
    ...                       runs=50)
    >>> scxlab.run("examples/policies/sticky.toml", found.workload[0]).tasks.longest_wait_ms["a"] == found.value[0]
    True
    """
    wanted = searches.goal_of(goal)
    found = searches.search(find_program(program), source_of(policy, "policy"), source_of(template, "template"), wanted,
                            runs, seed, Workers(workers, client=client))
    rows = [(wanted.text, wanted.score(one.score), count, one.text)
            for one, count in [(found.best, found.runs), *((one.best, one.runs) for one in found.climbs)]]
    return typed(pandas.DataFrame(rows, columns=list(FOUND)), FOUND)


def fit(recording: str | os.PathLike[str], *, groups: str | None = None, unit: int = 1000,
        tasks: Iterable[str] = ("*",)) -> pandas.DataFrame:
    """Makes a workload from a timeline, or from a recording of `perf sched`.

    Columns: `task`, `group` (string), `start_ms`, `run_ms` and `sleep_ms` (Int64; missing for a task that never
    sleeps). `attrs["workload"]` is the text of the workload, which `run` and `compare` take, and `attrs["lost"]` a
    list of what a workload can't hold.

    >>> import scxlab
    >>> table = scxlab.fit("sleeper.json")    # doctest: +SKIP
    >>> scxlab.run("examples/policies/fifo.toml", table.attrs["workload"])    # doctest: +SKIP
    """
    text = fitted(recording, groups, unit, tuple(tasks))
    rows = [{"task": task["name"], "group": task["group"],
             **{f"{key}_ms": task.get(key) for key in ("start", "run", "sleep")}} for task in tomllib.loads(text)["task"]]
    table = typed(pandas.DataFrame(rows), FITTED)
    table.attrs |= {"workload": text, "lost": [line.removeprefix("# lost: ") for line in text.splitlines()
                                               if line.startswith("# lost: ")]}
    return table


def plot(table: pandas.DataFrame, x: str, y: str, by: str | None = None) -> Picture:
    """Draws the mean of column `y` for each value of column `x`, with its 95 % confidence interval.

    Each value of column `by` has a line, or bars if `x` is no number. Rows of the same `x` and `by`, as those of
    several seeds, are one sample.

    >>> import scxlab
    >>> table = scxlab.compare(["examples/policies/fifo.toml", "examples/policies/short_slices.toml"],
    ...                        "examples/workloads/two_tasks.toml")
    >>> scxlab.plot(table, "workload", "longest_wait_ms", "policy")[:4]
    '<svg'
    """
    from scxlab.charts import plot as drawn

    return drawn(table, x, y, by)
