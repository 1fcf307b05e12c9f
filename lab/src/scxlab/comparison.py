"""Policies side by side: which is best, by how much, and how sure that is."""

from collections.abc import Iterable, Iterator, Mapping, Sequence
from dataclasses import dataclass
from functools import partial
from math import isnan, nan
from statistics import fmean

import pandas

from scxlab import templates
from scxlab.batches import done_in_batches
from scxlab.clusters import Workers
from scxlab.errors import LabError
from scxlab.figures import OF_STATS, Row, rows_of
from scxlab.frames import FRACTION, TEXT, TRUTH, WHOLE, dtype_of_metric, typed
from scxlab.program import Program
from scxlab.sources import Source
from scxlab.intervals import NOTHING, interval
from scxlab.store import Result
from scxlab.work import Job, job_of, run_job


@dataclass(frozen=True)
class Measure:
    """A metric that policies are compared by: of a run, a group or a task, and whether `less`, `more` or the `due`
    share is best. A ratio of values below `least` means nothing."""

    kind: str
    figure: str
    title: str
    best: str
    least: float


# The metrics of a whole run.
OF_RUN = [Measure("run", *row) for row in (
    ("share_off_percent", "share off, %", "less", 1),
    ("mean_wait_ms", "mean wait, ms", "less", 1),
    ("longest_wait_ms", "longest wait, ms", "less", 1),
    ("slowdown", "slowdown", "less", 1),
    ("changes", "changes", "less", 10),
    ("idle_while_waiting_ms", "idle, ms", "less", 1),
)]
OF_NAMES = [
    Measure("group", "share_percent", "share in %, best where nearest to what is due", "due", 1),
    Measure("task", "mean_wait_ms", "mean wait in ms, less is better", "less", 1),
    Measure("task", "wait_99_percent_ms", "wait that 99 % don't exceed in ms, less is better", "less", 1),
    Measure("task", "longest_wait_ms", "longest wait in ms, less is better", "less", 1),
    Measure("task", "bursts", "finished bursts, more is better", "more", 10),
    Measure("task", "slowdown", "slowdown of a burst on average, less is better", "less", 1),
    Measure("cpu", "changes", "changes of task on a CPU, less is better", "less", 10),
    Measure("cpu", "idle_while_waiting_ms", "idle while a task waits in ms, less is better", "less", 1),
]
# The program writes two places, and what differs less than two roundings is alike.
ROUNDING = 0.01
RUN_METRICS = [measure.figure for measure in OF_RUN]
KEYS = {"workload": TEXT, "policy": TEXT, "seed": WHOLE, "state": TEXT}
JUDGED = {"workload": TEXT, "kind": TEXT, "figure": TEXT, "name": TEXT, "policy": TEXT, "value": FRACTION, "interval": FRACTION,
          "runs": WHOLE, "due": FRACTION, "ratio": FRACTION, "best": TRUTH}


@dataclass(frozen=True)
class Compared:
    """One run of a comparison: its state, and its metrics as kind, name, figure and value. A refused run has none."""

    workload: str
    policy: str
    seed: int | None
    state: str
    rows: list[Row]
    job: Job

    @property
    def key(self) -> dict[str, object]:
        """The columns by which runs differ."""
        return {"workload": self.workload, "policy": self.policy, "seed": self.seed, "state": self.state}


@dataclass(frozen=True)
class Comparison:
    """Runs of workloads under several policies."""

    runs: list[Compared]

    def table(self, by: str = "run") -> pandas.DataFrame:
        """A row for each run, or for each task, group or CPU of each run."""
        if by == "run":
            rows = [one.key | of_run(one.rows) for one in self.runs]
            return typed_table(rows, [], RUN_METRICS)
        if by not in ("task", "group", "cpu"):
            raise LabError(f"by is one of run, task, group, cpu, not {by!r}")
        rows = [one.key | {by: name} | metrics for one in self.runs for name, metrics in by_name(one.rows, by).items()]
        known = [figure for figure in OF_STATS[by] if any(figure in row for row in rows)]
        return typed_table(rows, [by], known)

    def judged(self) -> pandas.DataFrame:
        """A row for each metric of each name under each policy, with the mean over seeds, the ratio to the best, and
        whether it is the best."""
        rows = [row for measure in OF_RUN + OF_NAMES for row in self._judged_by(measure)]
        return typed(pandas.DataFrame(rows, columns=list(JUDGED)), JUDGED)

    def _judged_by(self, measure: Measure) -> Iterator[tuple[object, ...]]:
        for workload in self.workloads:
            runs = [one for one in self.runs if one.workload == workload and one.rows]
            policies = list(dict.fromkeys(one.policy for one in runs))
            lawful = {policy for policy in policies if self.is_lawful(workload, policy)}
            for name, samples in samples_of(runs, measure).items():
                judgement = Judgement(measure, samples, lawful)
                for policy in policies:
                    if policy in samples:
                        yield (workload, measure.kind, measure.figure, name, policy, *judgement.row(policy))

    def is_lawful(self, workload: str, policy: str) -> bool:
        """True if the policy was in force to the end in all runs of the workload."""
        return all(one.state == "in force" for one in self.runs if (one.workload, one.policy) == (workload, policy))

    @property
    def workloads(self) -> list[str]:
        """The names of the workloads."""
        return list(dict.fromkeys(one.workload for one in self.runs))

    @property
    def policies(self) -> list[str]:
        """The names of the policies."""
        return list(dict.fromkeys(one.policy for one in self.runs))

    @property
    def refused(self) -> list[Compared]:
        """Runs that the program refused."""
        return [one for one in self.runs if not one.rows]


def typed_table(rows: list[dict[str, object]], names: list[str], metrics: list[str]) -> pandas.DataFrame:
    """Rows as a DataFrame whose metrics `summary` and `spread` find."""
    of_names = {name: WHOLE if name == "cpu" else TEXT for name in names}
    dtypes = KEYS | of_names | {metric: dtype_of_metric(metric) for metric in metrics}
    return typed(pandas.DataFrame(rows, columns=list(dtypes)), dtypes)


def by_name(rows: Iterable[Row], kind: str) -> dict[str, dict[str, float]]:
    """The metrics of each task, group or CPU."""
    found: dict[str, dict[str, float]] = {}
    for each, name, figure, value in rows:
        if each == kind:
            found.setdefault(name, {})[figure] = value
    return found


def of_run(rows: list[Row]) -> dict[str, object]:
    """The metrics of a whole run."""
    if not rows:
        return {}
    tasks, cpus, groups = (by_name(rows, kind).values() for kind in ("task", "cpu", "group"))
    off = [abs(group["share_percent"] - group["due_percent"]) for group in groups]
    idle = [value for kind, _, figure, value in rows if (kind, figure) == ("policy", "idle_while_waiting_ms")]
    values = {
        "share_off_percent": max(off, default=nan),
        "mean_wait_ms": weighted(tasks, "mean_wait_ms", "waits"),
        "longest_wait_ms": max((task["longest_wait_ms"] for task in tasks), default=nan),
        "slowdown": weighted(tasks, "slowdown", "bursts"),
        "changes": sum(cpu["changes"] for cpu in cpus),
        "idle_while_waiting_ms": idle[0],
    }
    return {name: None if isnan(value) else value for name, value in values.items()}


def weighted(tasks: Iterable[dict[str, float]], metric: str, count: str) -> float:
    """The mean of a metric over all waits or bursts of all tasks."""
    known = [(task[metric], task[count]) for task in tasks if metric in task and task[count]]
    return sum(value * times for value, times in known) / sum(times for _, times in known) if known else nan


@dataclass(frozen=True)
class Sample:
    """The values of a metric under one policy, one a seed, and the due shares beside them."""

    values: list[float]
    dues: list[float]

    @property
    def mean(self) -> float:
        """The mean of the values."""
        return fmean(self.values) if self.values else nan

    @property
    def due(self) -> float:
        """The mean of the due shares."""
        return fmean(self.dues) if self.dues else nan

    def badness(self, best: str) -> list[float]:
        """The values by which policies are judged: less is better."""
        if best == "due":
            return [abs(value - due) for value, due in zip(self.values, self.dues)]
        return [-value for value in self.values] if best == "more" else self.values


def samples_of(runs: Sequence[Compared], measure: Measure) -> dict[str, dict[str, Sample]]:
    """The samples of a metric, by name and policy."""
    found: dict[str, dict[str, Sample]] = {}
    for one in runs:
        for name, metrics in metrics_of(one, measure.kind).items():
            sample = found.setdefault(name, {}).setdefault(one.policy, Sample([], []))
            value = metrics.get(measure.figure)
            if isinstance(value, (int, float)):
                sample.values.append(float(value))
            if measure.best == "due":
                sample.dues.append(float(str(metrics["due_percent"])))
    return {name: samples for name, samples in found.items() if any(one.values for one in samples.values())}


def metrics_of(one: Compared, kind: str) -> Mapping[str, Mapping[str, object]]:
    """The metrics of a run by name; those of the run itself have the name `all`."""
    if kind == "run":
        return {"all": of_run(one.rows)}
    return by_name(one.rows, kind)


class Judgement:
    """The best of the samples of a metric, and how the others compare with it.

    The best has the least mean; of those with a spread all are best whose 95 % interval overlaps that of the least.
    A policy that was ejected is never the best, since the built-in scheduler has a part in its metrics. If all are
    best, none is."""

    def __init__(self, measure: Measure, samples: dict[str, Sample], lawful: set[str]) -> None:
        self.measure, self.samples = measure, samples
        self.badness = {policy: sample.badness(measure.best) for policy, sample in samples.items() if sample.values}
        judged = [policy for policy in self.badness if policy in lawful]
        self.least = min(judged, key=lambda policy: fmean(self.badness[policy]), default=None)
        best = {policy for policy in judged if self._reaches_least(policy)}
        self.best = best if best != set(self.badness) else set()

    def _reaches_least(self, policy: str) -> bool:
        assert self.least is not None
        mine, least = self.badness[policy], self.badness[self.least]
        widths = [0.0 if isnan(width) else width for width in (interval(mine), interval(least))]
        return fmean(mine) - fmean(least) <= sum(widths) + ROUNDING

    def row(self, policy: str) -> tuple[object, ...]:
        """The value of a policy, its spread, its runs, its due share, its ratio, and whether it is best."""
        sample = self.samples[policy]
        due = sample.due if sample.dues else None
        return (sample.mean, interval(sample.values), len(sample.values), due, self.ratio(sample), policy in self.best)

    def ratio(self, sample: Sample) -> float:
        """The ratio to the best, or of a share to its due; NaN if one of both is too small to mean something."""
        if self.measure.best == "due":
            against = sample.due
        else:
            against = self.samples[self.least].mean if self.least else NOTHING
        large = min(sample.mean, against) >= self.measure.least
        return sample.mean / against if large else NOTHING


def compare(policies: Sequence[Source], workloads: Sequence[Source], program: Program, seeds: Sequence[int] = (),
            workers: Workers = Workers()) -> Comparison:
    """Runs each workload under each policy. A workload with ranges is drawn anew for each seed."""
    plans = [(workload, seed, text) for workload in workloads for seed, text in drawn(workload, seeds)]
    if seeds and all(seed is None for _, seed, _ in plans):
        raise LabError("seeds: no workload has a range or {seed}, so all runs of it would be alike")
    points = [(workload.name, policy.name, seed, job_of(program, policy.text, text))
              for workload, seed, text in plans for policy in policies]
    results = results_of([job for *_, job in points], program, workers)
    return Comparison([Compared(workload, policy, seed, results[job.key].state,
                                rows_of(results[job.key].figures) if results[job.key].figures else [], job)
                       for workload, policy, seed, job in points])


def drawn(workload: Source, seeds: Sequence[int]) -> Iterator[tuple[int | None, str]]:
    """The workload for each seed; one that doesn't depend on the seed comes once, without a seed."""
    path = str(workload.path or workload.name)
    if seeds and templates.is_drawn(workload.text):
        for seed in seeds:
            yield seed, templates.workload_of(templates.filled(workload.text, {"seed": seed}, path), path,
                                              templates.drawn_by(seed))
    else:
        yield None, templates.workload_of(templates.filled(workload.text, {}, path), path)


def results_of(jobs: Sequence[Job], program: Program, workers: Workers) -> dict[str, Result]:
    """The results of jobs by key; none is done twice."""
    faults: list[Exception] = []
    each = list({job.key: job for job in jobs}.values())
    found = {one.key: one for results in done_in_batches(partial(run_job, program.path, program.hash), each, workers,
                                                         faults) for one in results}
    if faults:
        raise faults[0]
    return found


def summary(table: pandas.DataFrame) -> pandas.DataFrame:
    """Says which policy is best: a row for each workload and policy of a table that `compare` answered.

    The index is (`workload`, `policy`). Columns: `state` (string), `runs` (Int64), each of the six metrics (Float64;
    the mean over seeds), for each `METRIC_interval` (Float64; half the width of the 95 % confidence interval), and
    `best` (Int64): the number of metrics by which the policy is the best, or can't be told from it.

    >>> import scxlab
    >>> table = scxlab.compare(["examples/policies/fifo.toml", "examples/policies/short_slices.toml"],
    ...                        "examples/workloads/two_tasks.toml")
    >>> scxlab.summary(table)["best"].tolist()
    [1, 2]
    """
    rows = [row for _, group in table.groupby("workload", sort=False) for row in summarised(group)]
    metrics = [name for metric in RUN_METRICS for name in (metric, f"{metric}_interval")]
    dtypes = ({"workload": TEXT, "policy": TEXT, "state": TEXT, "runs": WHOLE} | {name: FRACTION for name in metrics}
              | {"best": WHOLE})
    return typed(pandas.DataFrame(rows, columns=list(dtypes)), dtypes).set_index(["workload", "policy"])


def summarised(group: pandas.DataFrame) -> list[dict[str, object]]:
    """The rows of one workload."""
    of_policy = {str(policy): rows for policy, rows in group.groupby("policy", sort=False)}
    states = {policy: [str(state) for state in rows.state] for policy, rows in of_policy.items()}
    lawful = {policy for policy in states if set(states[policy]) == {"in force"}}
    judgements = [Judgement(measure, {policy: Sample([float(value) for value in rows[measure.figure].dropna()], [])
                                      for policy, rows in of_policy.items()}, lawful) for measure in OF_RUN]
    found = []
    for policy, rows in of_policy.items():
        state = next((each for each in states[policy] if each != "in force"), "in force")
        row = {"workload": rows.workload.iloc[0], "policy": policy, "state": state, "runs": len(rows)}
        for judgement in judgements:
            sample = judgement.samples[policy]
            row |= {judgement.measure.figure: sample.mean,
                    f"{judgement.measure.figure}_interval": interval(sample.values)}
        found.append(row | {"best": sum(policy in judgement.best for judgement in judgements)})
    return found
