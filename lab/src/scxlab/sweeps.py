"""Sweeps: all points of an experiment are run, here or by workers of dask, and kept as they come."""

from collections.abc import Callable, Mapping
from dataclasses import dataclass, field
from functools import cache, partial
from pathlib import Path

import pandas

from scxlab.batches import done_in_batches, told_of
from scxlab.clusters import Workers
from scxlab.errors import LabError
from scxlab.experiment import Experiment, Value
from scxlab.figures import Figure
from scxlab.frames import FRACTION, TEXT, dtype_of_metric, dtype_of_values, typed
from scxlab.program import Program
from scxlab.sources import Source, names_apart
from scxlab.store import Store, hash_of, key_of
from scxlab.work import Job, run_job

Point = tuple[str, dict[str, Value], str]


@dataclass
class Outcome:
    """The number of runs that were due, the number of those that were done, and the faults of batches."""

    due: int = 0
    done: int = 0
    faults: list[str] = field(default_factory=list)


@dataclass
class Plan:
    """The points of an experiment, each as a policy, its parameters and the key of its run, and the jobs that are
    due."""

    experiment: Experiment
    points: list[Point]
    due: list[Job]


def plan(experiment: Experiment, program: Program, store: Store) -> Plan:
    """All points of an experiment; due are the runs whose results aren't in the store yet, each once."""
    there, hash_once = store.keys(), cache(hash_of)
    points: list[Point] = []
    due: dict[str, Job] = {}
    for policy, values in experiment.points():
        policy_text, workload = experiment.texts(policy, values)
        key = key_of(program.hash, hash_once(policy_text), hash_once(workload))
        points.append((policy, values, key))
        if key not in there and key not in due:
            due[key] = Job(key, policy_text, workload)
    return Plan(experiment, points, list(due.values()))


def sweep(planned: Plan, program: Program, store: Store, workers: Workers = Workers(),
          tell: Callable[[int], object] = lambda done: None) -> Outcome:
    """Does each run that is due, and keeps it in the store. `tell` is called with the number of new results."""
    outcome, faults = Outcome(due=len(planned.due)), list[Exception]()
    do = partial(run_job, program.path, program.hash)
    for results in done_in_batches(do, planned.due, workers, faults):
        store.add(program.hash, results)
        outcome.done += len(results)
        tell(len(results))
    outcome.faults = [told_of(fault) for fault in faults]
    return outcome


def table(planned: Plan, store: Store) -> pandas.DataFrame:
    """A row for each point that was run: its parameters, the state of the policy, the metrics, and the key."""
    experiment, rows, lacking = planned.experiment, [], set(planned.experiment.figures)
    names = names_of(list(experiment.policies))
    for policy, values, key in planned.points:
        kept = store.get(key)
        if kept is None:
            continue
        state, own = kept
        lacking -= {name for name, figure in experiment.figures.items() if not own or figure.matches(own)}
        row: dict[str, object] = {"policy": names[policy], **values, "state": state, "key": key}
        rows.append(row | {name: figure.value(own) for name, figure in experiment.figures.items()})
    for name in sorted(lacking if rows else []):
        raise LabError(f"figures.{name}: no run has {experiment.figures[name].text}")
    found = typed(pandas.DataFrame(rows), dtypes_of(experiment))
    found.attrs["metrics"] = list(experiment.figures)
    return found


def names_of(policies: list[str]) -> Mapping[str, str]:
    """The name of each policy in tables: that of its file without the ending, or the path if two are alike."""
    stems = [Path(policy).stem for policy in policies]
    return dict(zip(policies, names_apart(stems, [Source(stem, "", Path(policy)) for stem, policy in zip(stems, policies)])))


def dtypes_of(experiment: Experiment) -> dict[str, str]:
    """The columns of an experiment's table."""
    return ({"policy": TEXT} | {name: dtype_of_values(list(values)) for name, values in experiment.parameters.items()}
            | {"state": TEXT} | {name: dtype_of(figure) for name, figure in experiment.figures.items()} | {"key": TEXT})


def dtype_of(figure: Figure) -> str:
    """The dtype of a metric's column."""
    return FRACTION if figure.over == "mean" else dtype_of_metric(figure.figure)
