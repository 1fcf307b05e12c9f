"""The slices, waits and bursts of a run, from the stretches of its page (docs/FILES.md, Page of a run)."""

import json
from base64 import b64decode
from collections.abc import Iterable, Iterator, Mapping
from dataclasses import dataclass, replace

import numpy
import pandas
from numpy.typing import NDArray

from scxlab.errors import LabError

STRETCH = numpy.dtype([("since", "<u4"), ("length", "<u4"), ("task", "<u2"), ("cpu", "u1"), ("why", "u1"),
                       ("queue", "<u2"), ("spare", "<u2")])
NOWHERE, PARKED_QUEUE = 255, 19
# How a stretch ended.
STOPPED, SLEPT, PARKED, LET_GO = 1, 2, 3, 6
# How it began; 0: something else of the task ended there.
WOKE, WAS_STOPPED, WAS_LET_GO = 1, 2, 3

Numbers = NDArray[numpy.int32]
Flags = NDArray[numpy.bool_]
# A task, and the clocks at which its wait began and ended.
Wait = tuple[str, int, int]


@dataclass(frozen=True)
class Stretches:
    """The stretches of time in which tasks ran, waited or were parked, in the order in which they end. Times are those
    of pictures; by the clock they are one less where a millisecond ended."""

    names: list[str]
    ms: int
    task: Numbers
    cpu: Numbers
    since: Numbers
    until: Numbers
    clock_since: Numbers
    clock_until: Numbers
    began: Numbers
    ended: Numbers
    is_run: Flags
    is_parked: Flags

    def taken(self, which: NDArray[numpy.generic]) -> "Stretches":
        """Those at some places."""
        columns = {key: value[which] for key, value in vars(self).items() if isinstance(value, numpy.ndarray)}
        return replace(self, **columns)

    def by_task(self) -> "Stretches":
        return self.taken(numpy.argsort(self.task, kind="stable"))

    def is_last(self) -> Flags:
        """True for the last stretch of each task, of stretches by task."""
        return numpy.append(self.task[1:] != self.task[:-1], True)[: len(self.task)]

    def named(self, task: Numbers) -> NDArray[numpy.object_]:
        names: NDArray[numpy.object_] = numpy.array(self.names, dtype=object)
        return names.take(task)


def stretches_of(page: str) -> Stretches:
    """The stretches in a page as `scxsim view` writes it."""
    try:
        head = json.loads(part_of(page, "head"))
        rows = numpy.frombuffer(b64decode(part_of(page, "stretches")), STRETCH)
        names, ms = [task["name"] for task in head["tasks"]], head["ms"]
    except (ValueError, KeyError, TypeError) as error:
        raise LabError("the page of the run isn't of this version") from error
    task, cpu, since, length, why, queue = (
        rows[name].astype(numpy.int32) for name in ("task", "cpu", "since", "length", "why", "queue"))
    until, is_run = since + length, cpu != NOWHERE
    return Stretches(names, ms, task, cpu, since, until, since - (why >> 6 & 1), until - (why >> 7), why >> 4 & 3,
                     why & 15, is_run, ~is_run & (queue == PARKED_QUEUE))


def part_of(page: str, name: str) -> str:
    """The text between the tags of a part of a page."""
    begin = page.index(">", page.index(f'<script id="{name}"')) + 1
    return page[begin : page.index("</script>", begin)]


def slices_of(stretches: Stretches) -> pandas.DataFrame:
    """A row for each slice of time in which a task ran or was parked, in the order in which they end: `kind`, `run` or
    `parked`; `task`; `cpu`, which is missing where it was parked; `since_ms` and `length_ms`, as pictures have them."""
    kept = stretches.taken(stretches.is_run | stretches.is_parked)
    return pandas.DataFrame({
        "kind": numpy.where(kept.is_run, "run", "parked").astype(object),
        "task": kept.named(kept.task),
        "cpu": pandas.arrays.IntegerArray(kept.cpu.astype(numpy.int64), kept.is_parked),
        "since_ms": kept.since.astype(numpy.int64),
        "length_ms": (kept.until - kept.since).astype(numpy.int64)})


def waits_of(stretches: Stretches, end: str) -> pandas.DataFrame:
    """A row for each wait, by when it began: `task`, and `since_ms` and `wait_ms` by the clock, as `stats` counts them.
    `end` is the end of the trace, with all lines of the last millisecond: what has no length isn't in a page. Nor is a
    wait of no time before a run of no time, which Linux rules may have."""
    number = {name: number for number, name in enumerate(stretches.names)}
    last, sorted_ = stretches.ms - 1, stretches.by_task()
    shown, short = shown_waits(sorted_), short_waits(sorted_)
    task, since, until = (numpy.append(one, other) for one, other in zip(shown, short))
    early, is_open = until < last, (since < last) & (last <= until)
    waiting = dict(zip(stretches.named(task[is_open]), since[is_open].tolist()))
    late = LastMillisecond(lines_of(end, last), waiting).waits(stretches.ms)
    task = numpy.append(task[early], numpy.array([number[name] for name, _, _ in late], numpy.int32))
    since = numpy.append(since[early], numpy.array([begin for _, begin, _ in late], numpy.int32)).astype(numpy.int64)
    until = numpy.append(until[early], numpy.array([done for _, _, done in late], numpy.int32))
    order = numpy.lexsort((task, since))
    return pandas.DataFrame({"task": stretches.named(task[order]), "since_ms": since[order],
                             "wait_ms": (until - since)[order]})


def shown_waits(stretches: Stretches) -> tuple[Numbers, Numbers, Numbers]:
    """The task, the beginning and the end of each wait after which the task runs or is parked for some time. The
    stretches of a wait are one after another, and the first one began with a wake, a stop or a new period."""
    first = numpy.flatnonzero(stretches.began)
    is_wait = ~(stretches.is_run | stretches.is_parked)
    parts = numpy.add.reduceat(is_wait.astype(numpy.int64), first) if len(first) else first
    # What came before it ended as it began, by a clock that the page doesn't have of a queue it left at once.
    before = numpy.maximum(first - 1, 0)
    follows = (stretches.task[before] == stretches.task[first]) & (stretches.until[before] == stretches.since[first])
    is_after = follows & (stretches.began[first] != WOKE)
    since = numpy.where(is_after, stretches.clock_until[before], stretches.clock_since[first])
    until = numpy.where(parts > 0, stretches.clock_until[first + numpy.maximum(parts, 1) - 1], since)
    return stretches.task[first], since, until


def short_waits(stretches: Stretches) -> tuple[Numbers, Numbers, Numbers]:
    """The waits of no time: the task stopped and went to sleep, or was let go and parked again, at that moment."""
    next_began = numpy.append(stretches.began[1:], 0)[: len(stretches.task)]
    next_began[stretches.is_last()] = 0
    stopped = stretches.is_run & numpy.isin(stretches.ended, (STOPPED, PARKED)) & (next_began != WAS_STOPPED)
    let_go = stretches.is_parked & (stretches.ended == LET_GO) & (next_began != WAS_LET_GO)
    found = numpy.flatnonzero(stopped | let_go)
    return stretches.task[found], stretches.clock_until[found], stretches.clock_until[found]


def lines_of(trace: str, first: int) -> Iterator[tuple[int, str, list[str]]]:
    """The clock, the verb and the words after it, of each line from this clock on, which is one of the last two."""
    begins = [f"\n{trace}".find(f"\n{clock} ") for clock in (first, first + 1)]
    begin = min((begin for begin in begins if begin >= 0), default=len(trace))
    for line in trace[begin:].splitlines():
        clock, verb, *words = line.split()
        yield int(clock), verb, words


class LastMillisecond:
    """The waits that go on or begin in the last lines of a trace, and the tasks that sleep after them."""

    def __init__(self, lines: Iterable[tuple[int, str, list[str]]], waiting: Mapping[str, int]) -> None:
        """`waiting` has the tasks that waited before the lines, and since when."""
        self.asleep: set[str] = set()
        self._ended: list[Wait] = []
        self._since = dict(waiting)
        for clock, verb, words in lines:
            self._line(clock, verb, words)

    def _line(self, clock: int, verb: str, words: list[str]) -> None:
        task, is_parked = words[0], words[1:] == ["parked"]
        if verb == "wake":
            self.asleep.discard(task)
        elif verb == "sleep":
            self.asleep.add(task)
        if verb == "wake" or verb == "insert" and not is_parked or verb == "stop" and task not in self.asleep:
            self._since.setdefault(task, clock)
        elif (verb in ("run", "sleep") or is_parked) and task in self._since:
            self._ended.append((task, self._since.pop(task), clock))

    def waits(self, ms: int) -> list[Wait]:
        """All of them; some last until the run's end."""
        return self._ended + [(task, since, ms) for task, since in self._since.items()]


def bursts_of(stretches: Stretches, end: str) -> pandas.DataFrame:
    """A row for each finished burst, by when it began: `task`, `wake_ms`, `burst_ms` until the task slept, and
    `slowdown`, that length by how long the task ran, which is missing if it didn't run. `end` is that of `waits_of`."""
    sorted_ = stretches.by_task()
    first = numpy.flatnonzero(wakes_of(sorted_))
    last = numpy.append(first[1:], len(sorted_.task)).astype(numpy.int64)[: len(first)] - 1
    asleep = LastMillisecond(lines_of(end, stretches.ms - 1), {}).asleep
    sleeps = numpy.array([name in asleep for name in stretches.names], dtype=bool)
    done = (~sorted_.is_last()[last] | (sorted_.ended[last] == SLEPT) | (sorted_.until[last] < stretches.ms)
            | sleeps[sorted_.task[last]])
    ran = numpy.where(sorted_.is_run, sorted_.until - sorted_.since, 0)
    ran = numpy.add.reduceat(ran, first)[done] if len(first) else ran
    task, since = sorted_.task[first[done]], sorted_.since[first[done]].astype(numpy.int64)
    length = sorted_.until[last[done]] - since
    slowdown = numpy.divide(length, ran, out=numpy.full(len(ran), numpy.nan), where=ran > 0)
    order = numpy.lexsort((task, since))
    return pandas.DataFrame({"task": stretches.named(task[order]), "wake_ms": since[order], "burst_ms": length[order],
                             "slowdown": slowdown[order]})


def wakes_of(stretches: Stretches) -> Flags:
    """True for the first stretch of each burst, of stretches by task."""
    after_sleep = (stretches.ended[:-1] == SLEPT) | (stretches.until[:-1] < stretches.since[1:])
    begins: Flags = stretches.began == WOKE
    begins[1:] |= stretches.is_last()[:-1] | after_sleep
    begins[:1] = True
    return begins
