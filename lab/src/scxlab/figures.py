"""Metrics: the lines of `stats-csv`, and single ones by name, as experiments and goals ask for them:
`longest_wait_ms(a)`, `max mean_wait_ms(w*)`."""

import csv
import re
from collections.abc import Callable, Mapping, Sequence
from dataclasses import dataclass
from fnmatch import fnmatchcase

from scxlab.errors import LabError

Values = Mapping[tuple[str, str], float]
Row = tuple[str, str, str, float]

COLUMNS = ["kind", "name", "figure", "value"]
OF_STATS = {
    "task": ["run_ms", "waits", "mean_wait_ms", "wait_99_percent_ms", "longest_wait_ms", "longest_wait_since_ms",
             "wakes", "stopped", "parked_ms", "bursts", "mean_burst_ms", "burst_50_percent_ms", "burst_90_percent_ms",
             "burst_99_percent_ms", "longest_burst_ms", "slowdown", "wait_50_percent_ms", "wait_90_percent_ms",
             "wakes_to_run", "wake_to_run_50_percent_ms", "wake_to_run_90_percent_ms", "wake_to_run_99_percent_ms",
             "longest_wake_to_run_ms"],
    "cpu": ["busy_ms", "idle_ms", "changes", "idle_while_waiting_ms"],
    "group": ["share_percent", "due_percent", "quota_ms", "period_ms", "most_in_a_period_ms", "periods",
              "throttled_periods", "throttled_ms", "group_waits", "group_wait_50_percent_ms",
              "group_wait_90_percent_ms", "group_wait_99_percent_ms", "group_longest_wait_ms", "group_wakes_to_run",
              "group_wake_to_run_50_percent_ms", "group_wake_to_run_90_percent_ms", "group_wake_to_run_99_percent_ms",
              "group_longest_wake_to_run_ms"],
    "policy": ["ejected_at_ms", "idle_while_waiting_ms"],
}
KNOWN = list(dict.fromkeys(figure for figures in OF_STATS.values() for figure in figures))

OVER: dict[str, Callable[[Sequence[float]], float]] = {
    "max": max, "min": min, "sum": sum, "mean": lambda values: sum(values) / len(values)}
FORM = re.compile(r"(?:(max|min|sum|mean) +)?([a-z0-9_]+)\(([a-z0-9_*?]+)\)")
ENDED = re.compile(r"^policy,[^,]*,ended,(.+)$", re.M)
EJECTED_AT = re.compile(r"^policy,[^,]*,ejected_at_ms,(.+)$", re.M)
NOTHING = float("nan")


@dataclass(frozen=True)
class Figure:
    """A metric of one task, CPU or group, or over all whose names fit a pattern with `*`."""

    over: str | None
    figure: str
    name: str

    @property
    def text(self) -> str:
        """The metric as an experiment writes it."""
        return f"{self.over + ' ' if self.over else ''}{self.figure}({self.name})"

    def matches(self, values: Values) -> list[float]:
        """The values of all names that fit."""
        return [value for (figure, name), value in values.items()
                if figure == self.figure and fnmatchcase(name, self.name)]

    def value(self, values: Values) -> float:
        """Its value among those of a run, by figure and name; NaN if the run has none."""
        found = self.matches(values)
        if not found:
            return NOTHING
        if self.over is None and len(found) > 1:
            raise LabError(f"{self.text} is {len(found)} figures: put max, min, sum or mean in front")
        return OVER[self.over or "max"](found)


def figure_of(text: str) -> Figure:
    """Reads a metric as it is written in an experiment or a goal."""
    match = FORM.fullmatch(text.strip())
    if not match:
        raise LabError(f"{text!r} is no figure: write one as longest_wait_ms(a), or as max longest_wait_ms(w*)")
    if match[2] not in KNOWN:
        raise LabError(f"{match[2]} is an unknown figure: known are {', '.join(KNOWN)}")
    return Figure(*match.groups())


def rows_of(text: str) -> list[Row]:
    """The lines of `stats-csv` that hold numbers, as kind, name, figure and value. The policy has the name `policy`,
    whatever its file calls it."""
    lines = list(csv.reader(text.splitlines()))
    if lines[:1] != [COLUMNS]:
        raise LabError(f"the figures aren't of this version: their first line isn't {','.join(COLUMNS)}")
    return [(kind, "policy" if kind == "policy" else name, figure, float(value))
            for kind, name, figure, value in lines[1:] if figure != "ended"]


def values_of(text: str) -> dict[tuple[str, str], float]:
    """The values of the lines of `stats-csv`, by figure and name."""
    return {(figure, name): value for _, name, figure, value in rows_of(text)}


def state_of(text: str) -> str:
    """The state of the policy at the end, in the words of a report."""
    ended, at = ENDED.search(text), EJECTED_AT.search(text)
    if not ended:
        raise LabError("the figures aren't of this version: no line says how the run ended")
    return f"ejected {ended[1]} at {at[1]}" if at else ended[1]
