"""Makes a workload or a file of events of a recording, and says what of it was lost."""

import os
import tomllib
from collections.abc import Iterable, Iterator, Sequence
from contextlib import contextmanager
from fnmatch import fnmatchcase
from itertools import chain, islice
from math import ceil
from pathlib import Path
from typing import Any

from scxlab.errors import LabError
from scxlab.perf import is_perf, read_perf
from scxlab.recording import Burst, Recording
from scxlab.rtapp import read_rt_app
from scxlab.templates import written
from scxlab.timelines import read_timeline

MOST_MS, MOST_TASKS, MOST_CPUS, MOST_EVENTS = 1_000_000, 1024, 64, 65_536
# The number of lines that show what a file is.
HEAD_LINES = 100
NO_GROUPS = "groups, their weights and quotas aren't in a recording: all tasks are in one group (see --groups)"

Plan = dict[str, Any]


def fit(path: str | os.PathLike[str], groups: str | os.PathLike[str] | None = None, unit: int = 1000,
        tasks: Sequence[str] = ("*",), as_events: bool = False) -> str:
    """The workload, or the file of events, of a timeline, a text of perf or a file of rt-app, as a text; comments at
    its top say what was lost. The path `-` is standard input. Groups and changes of weights come from a workload file
    if one is given. `unit` microseconds of perf's or rt-app's are a millisecond, and only tasks are taken whose names
    fit a pattern of `tasks`."""
    recording = recording_of(path, unit, tasks)
    losses, home = recording.losses, dict[str, str]()
    plan: Plan = {"cpus": recording.cpus, "ms": max(1, ceil(recording.end)), "group": [{"name": "all"}], "change": []}
    if groups:
        known = groups_of(groups, recording.bursts)
        home = {task["name"]: task["group"] for task in known["task"]}
        plan |= {"group": known["group"], "change": known.get("change", [])}
    else:
        losses.insert(0, NO_GROUPS)
    names = [name for name in home or recording.bursts if name in recording.bursts]
    plan["task"] = [{"name": name, "group": home.get(name, "all")} for name in names]
    filled = with_events if as_events else with_rhythms
    text = written(filled(plan, recording))
    return "".join(f"# lost: {line}\n" for line in losses) + text


def with_rhythms(plan: Plan, recording: Recording) -> Plan:
    """The workload: each task with one `run` and one `sleep` for all its bursts."""
    tasks = [task | rhythm_of(task["name"], recording) for task in plan["task"]]
    return plan | {"task": tasks}


def with_events(plan: Plan, recording: Recording) -> Plan:
    """The file of events: each task wakes and sleeps when it did."""
    spans = {task["name"]: spans_of(recording.bursts[task["name"]]) for task in plan["task"]}
    lines = [(change["at"], 0, weight_line(change)) for change in plan["change"]]
    lines += [(woke, 1, f"wake {name}") for name in spans for woke, _ in spans[name]]
    lines += [(slept, 2, f"sleep {name}") for name in spans for _, slept in spans[name] if slept is not None]
    # In a millisecond weights come first, then wakes, and sleeps at its end.
    kept = sorted((line for line in lines if line[0] < plan["ms"]), key=lambda line: line[:2])
    if len(kept) > MOST_EVENTS:
        raise LabError(f"{len(kept)} events are more than the {MOST_EVENTS} of a file: take fewer tasks (see --tasks)")
    recording.losses.append("tasks sleep when they did in the recording, however long they have run by then")
    short = sum(len(recording.bursts[name]) - len(spans[name]) for name in spans)
    if short:
        recording.losses.append(f"{short} sleeps that ended in the millisecond in which they began aren't here")
    events = "".join(f"{at} {told}\n" for at, _, told in kept)
    return {"cpus": plan["cpus"], "ms": plan["ms"], "events": events, "group": plan["group"], "task": plan["task"]}


def weight_line(change: Plan) -> str:
    """A change of a group's weight, or by Linux rules of a task's, as a file of events has it."""
    if "group" in change:
        return f"weight {change['group']} {change['weight']}"
    return f"task_weight {change['task']} {change['weight']}"


def spans_of(bursts: Iterable[Burst]) -> list[tuple[int, int | None]]:
    """From which millisecond to which a task was awake. A sleep that ended in the millisecond in which it began is left
    out."""
    spans: list[tuple[int, int | None]] = []
    for burst in bursts:
        woke = int(burst.woke)
        slept = None if burst.slept is None else max(woke, ceil(burst.slept) - 1)
        before = spans[-1][1] if spans else None
        if before is not None and before >= woke:
            woke = spans.pop()[0]
        spans.append((woke, slept))
    return spans


@contextmanager
def lines_at(path: str | os.PathLike[str]) -> Iterator[Iterator[str]]:
    """The lines of a file, or of standard input. Each is read once, so a pipe is read whole."""
    is_input = str(path) == "-"
    with open(0 if is_input else path, encoding="utf-8", errors="replace", closefd=not is_input) as lines:
        yield iter(lines)


def read(name: str, lines: Iterator[str], unit: int) -> Recording:
    """The recording in some lines, whose first ones say what they are."""
    head = list(islice(lines, HEAD_LINES))
    whole = chain(head, lines)
    if is_perf(head):
        return read_perf(name, whole, unit)
    begin = "".join(head[:2]).lstrip()
    if '"traceEvents":[' in begin:
        return read_timeline(name, whole)
    if begin.startswith(("{", "/*", "//")):
        return read_rt_app(name, whole, unit)
    raise LabError(f"{name}: is no timeline of scxsim, no text of perf sched script, and no file of rt-app")


def recording_of(path: str | os.PathLike[str], unit: int, tasks: Sequence[str]) -> Recording:
    """What a file shows of the tasks that are wanted, as far as a workload may have it."""
    name = "standard input" if str(path) == "-" else str(path)
    with lines_at(path) as lines:
        recording = read(name, lines, unit)
    if recording.cpus > MOST_CPUS or recording.end > MOST_MS:
        raise LabError(f"{name}: {recording.cpus} processors and {ceil(recording.end)} ms are more than a workload has")
    wanted = [task for task in recording.bursts if any(fnmatchcase(task, pattern) for pattern in tasks)]
    if not wanted:
        raise LabError(f"{name}: has no task {' or '.join(tasks)}")
    kept = sorted(wanted, key=recording.ran, reverse=True)[:MOST_TASKS]
    left_out = recording.bursts.keys() - kept
    if left_out:
        total = sum(map(recording.ran, left_out))
        recording.losses.append(f"{len(left_out)} tasks that ran {total:.0f} ms in all aren't here")
    return recording.without(left_out)


def rhythm_of(name: str, recording: Recording) -> dict[str, int]:
    """When a task first wakes, and one `run` and one `sleep` for all its bursts. Without a finished one it never
    sleeps."""
    bursts, losses = recording.bursts[name], recording.losses
    rhythm = {"start": int(bursts[0].woke)}
    runs = [burst.ran for burst in bursts if burst.ran and burst.slept is not None]
    if not runs:
        return rhythm
    sleeps = [after.woke - before.slept for before, after in zip(bursts, bursts[1:]) if before.slept is not None]
    last = bursts[-1].slept
    rhythm["run"] = max(1, round(mean(runs)))
    tell_if_other(f"{name}: bursts", runs, rhythm["run"], losses)
    if sleeps:
        # A longer or shorter run has a longer or shorter sleep after it, so that the load stays what it was.
        rhythm["sleep"] = round(mean(sleeps) * rhythm["run"] / mean(runs))
        tell_if_other(f"{name}: sleeps", sleeps, rhythm["sleep"], losses)
        if last is not None and recording.end - last > 2 * max(sleeps):
            losses.append(f"{name}: didn't wake again after {last:g} ms; here it does")
    elif last is not None:
        rhythm["sleep"] = ceil(recording.end - last)
        losses.append(f"{name}: slept once and didn't wake again; it sleeps to the end of the run")
    return rhythm


def mean(lengths: Sequence[float]) -> float:
    return sum(lengths) / len(lengths)


def tell_if_other(what: str, lengths: Sequence[float], length: int, losses: list[str]) -> None:
    """Tells of lengths that aren't the one that the workload has for all of them."""
    least, most = round(min(lengths), 2), round(max(lengths), 2)
    if least < most:
        losses.append(f"{what} of {least:g} to {most:g} ms are all {length} ms")
    elif least != length:
        losses.append(f"{what} of {least:g} ms are {length} ms")


def groups_of(path: str | os.PathLike[str], tasks: Iterable[str]) -> Plan:
    """The groups, changes and tasks' groups of a workload file, which has to have all tasks of the recording."""
    try:
        plan = tomllib.loads(Path(path).read_text())
        names = {task["name"] for task in plan["task"]}
        found = {key: plan[key] for key in ("group", "change", "task") if key in plan}
    except (tomllib.TOMLDecodeError, UnicodeDecodeError, KeyError, TypeError) as error:
        raise LabError(f"{path}: is no workload") from error
    for name in tasks:
        if name not in names:
            raise LabError(f"{path}: has no task {name}")
    return found
