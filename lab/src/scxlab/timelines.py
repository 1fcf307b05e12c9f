"""Reads a timeline as scxsim writes it, event by event."""

import json
from collections.abc import Iterable
from dataclasses import dataclass, field
from typing import Any

from scxlab.errors import LabError
from scxlab.recording import Burst, Recording

# The events that are read, by how their lines begin (docs/FILES.md, Timeline and picture): a task ran, was parked or waited
# in a queue, or it woke, or the policy was ejected.
READ = ('{"ph":"X","pid":1,', '{"ph":"X","pid":4,', '{"ph":"X","pid":5,', '{"ph":"i","pid":2,')
A_CPU, A_TASK = '{"ph":"M","pid":1,', '{"ph":"M","pid":5,'
RUNS, PARKED, WAITS, WAKE, EJECTION = ("X", 1), ("X", 4), ("X", 5), ("i", 0), ("i", 1)


@dataclass
class Seen:
    """The bursts of one task so far, when the last slice ended, and when it last came to a queue or was parked."""

    bursts: list[Burst] = field(default_factory=list)
    last: int = 0
    inserted: int = 0

    def wake(self, at: int) -> None:
        """It woke, and so the burst before was finished with its last slice."""
        self.finish()
        self.bursts.append(Burst(at))
        self.last, self.inserted = at, -1

    def run(self, at: int, length: int) -> None:
        self.bursts[-1].ran += length
        self.last = at + length

    def finish(self) -> None:
        if self.bursts:
            self.bursts[-1].slept = self.last

    def end(self, end: int) -> None:
        """The timeline ends: the last burst goes on if the task has not run in it, came to wait, or ran at the end."""
        if self.bursts and self.bursts[-1].ran and self.last < end and self.inserted < self.last:
            self.finish()


class Reader:
    """Takes the events one after another. Times are in milliseconds."""

    def __init__(self) -> None:
        self.tasks: dict[str, Seen] = {}
        self.names: dict[int, str] = {}
        self.cpus, self.at, self.is_ejected = 0, 0, False

    def line(self, text: str) -> None:
        if text.startswith(READ):
            event = json.loads(text.rstrip(",\n"))
            self.event(event, event["ts"] // 1000, event.get("dur", 0) // 1000)
        elif text.startswith(A_CPU):
            self.cpus += '"thread_name"' in text
        elif text.startswith(A_TASK) and '"thread_name"' in text:
            title = json.loads(text.rstrip(",\n"))
            self.names[title["tid"]] = title["args"]["name"]

    def event(self, event: dict[str, Any], at: int, length: int) -> None:
        self.at = max(self.at, at + length)
        track = event["ph"], event["pid"] if event["ph"] == "X" else event["tid"]
        if track == WAKE:
            self.tasks.setdefault(event["name"], Seen()).wake(at)
        elif track == WAITS:
            self.tasks[self.names[event["tid"]]].inserted = at
        elif track == PARKED:
            self.tasks[event["name"]].inserted = at
        elif track == RUNS:
            self.tasks[event["name"]].run(at, length)
        elif track == EJECTION:
            self.is_ejected = True


def read_timeline(name: str, lines: Iterable[str]) -> Recording:
    """The recording of a timeline."""
    reader = Reader()
    try:
        for text in lines:
            reader.line(text)
    except (ValueError, KeyError, TypeError) as error:
        raise LabError(f"{name}: is no timeline of scxsim: {text.strip()[:80]}") from error
    if not reader.tasks or not reader.cpus:
        raise LabError(f"{name}: is no timeline of scxsim, or nothing wakes in it")
    losses = ["the policy was ejected in this run"] if reader.is_ejected else []
    if not any(seen.last == reader.at and seen.bursts[-1].ran for seen in reader.tasks.values()):
        losses.append(f"no processor was busy at {reader.at} ms, so the run may have been longer")
    for seen in reader.tasks.values():
        seen.end(reader.at)
    return Recording(reader.cpus, reader.at, {task: seen.bursts for task, seen in reader.tasks.items()}, losses)
