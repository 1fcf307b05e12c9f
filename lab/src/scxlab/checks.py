"""Checks: what must hold of runs, as lines of a TOML file."""

import operator
import re
from collections.abc import Callable
from dataclasses import dataclass
from functools import cache, partial
from math import isnan
from os import PathLike
from pathlib import Path
from typing import Any

import pandas

from scxlab.account import account_of
from scxlab.api import run
from scxlab.errors import LabError
from scxlab.figures import NOTHING, Figure, figure_of, values_of
from scxlab.files import known_table
from scxlab.runs import Run

KEYS = {"policies", "workloads", "must"}
ORDERS: dict[str, Callable[[float, float], bool]] = {
    "<=": operator.le, ">=": operator.ge, "<": operator.lt, ">": operator.gt, "==": operator.eq}
BOUND = re.compile(r"(.+?) *(<=|>=|==|<|>) *(-?[0-9]+(?:\.[0-9]+)?)")
SHARE = re.compile(r"share\(([a-z0-9_]+)\) +within +([0-9]+(?:\.[0-9]+)?) +of +due")
SLOWER = re.compile(r"not +slower +than +(\S+) +by +([0-9]+(?:\.[0-9]+)?) *%")
SLOW_FIGURES = ["mean_wait_ms", "slowdown"]
ROUNDING = 1e-9

Holds = Callable[[Run], None]


class Failed(Exception):
    """What must hold doesn't; the text says metric, bound, and what happened."""


@dataclass(frozen=True)
class Check:
    """One line for one policy and one workload."""

    policy: Path
    workload: Path
    line: str
    holds: Holds

    @property
    def name(self) -> str:
        """The name of the test."""
        return f"{self.policy.stem} {self.workload.stem}: {self.line}"

    def run(self) -> None:
        """Raises `Failed` if the line doesn't hold."""
        self.holds(run_of(self.policy, self.workload))


@cache
def run_of(policy: Path, workload: Path) -> Run:
    """A run that all checks of it share."""
    return run(policy, workload)


def read_checks(path: str | PathLike[str]) -> list[Check]:
    """All checks of a file; what is wrong with the file is named."""
    told = known_table(path, KEYS)
    folder = Path(path).parent
    policies, workloads, lines = (texts_of(told, key, path) for key in ("policies", "workloads", "must"))
    meant = [(line, reading_of(line, folder, f"{path}: must.{number}")) for number, line in enumerate(lines)]
    return [Check(folder / policy, folder / workload, line, holds)
            for policy in policies for workload in workloads for line, holds in meant]


def texts_of(told: dict[str, Any], key: str, path: str | PathLike[str]) -> list[str]:
    """A list of texts."""
    values = told.get(key)
    if not isinstance(values, list) or not values or not all(isinstance(value, str) for value in values):
        raise LabError(f"{path}: {key}: {'wrong type' if key in told else 'missing'}")
    return values


def reading_of(line: str, folder: Path, place: str) -> Holds:
    """What a line asks of a run."""
    if line.strip() == "in force":
        return in_force
    if match := SHARE.fullmatch(line.strip()):
        return partial(share_within, group=match[1], most=float(match[2]))
    if match := SLOWER.fullmatch(line.strip()):
        return partial(not_slower, path=folder / match[1], percent=float(match[2]))
    if match := BOUND.fullmatch(line.strip()):
        try:
            figure = figure_of(match[1])
        except LabError as error:
            raise LabError(f"{place}: {error}") from error
        return partial(within_bound, figure=figure, order=match[2], bound=match[3])
    raise LabError(f"{place}: {line!r} says nothing that can be checked (docs/LAB.md, Check)")


def failed(one: Run, told: str, figure: Figure | None = None) -> Failed:
    """The failure of a line, with what happened in the run."""
    return Failed("\n".join([told, *account_of(one, figure)]))


def in_force(one: Run) -> None:
    """The policy has to be in force to the end."""
    if one.state != "in force":
        raise failed(one, f"the policy was {one.state} ms")


def within_bound(one: Run, figure: Figure, order: str, bound: str) -> None:
    """A metric has to be within a bound."""
    values = values_of(one.stats)
    if not figure.matches(values):
        raise Failed(f"the run has no {figure.text}")
    value = figure.value(values)
    if not ORDERS[order](value, float(bound)):
        raise failed(one, f"{figure.text} is {value:g}, and the bound is {order} {bound}", figure)


def share_within(one: Run, group: str, most: float) -> None:
    """A share has to be near its due share."""
    if group not in one.groups.index:
        raise Failed(f"the workload has no group {group}")
    share, due = one.groups.share_percent[group], one.groups.due_percent[group]
    if abs(share - due) > most:
        raise failed(one, f"share({group}) is {share:g} %, {due:g} % were due, and the bound is within {most:g}")


def not_slower(one: Run, path: Path, percent: float) -> None:
    """No task may wait longer on average or have slower bursts than in a table of `compare`, by more than `percent`."""
    now, slower = values_of(one.stats), []
    for row in rows_before(one, path):
        value = now.get((row.figure, row.name), NOTHING)
        if not value <= row.value * (1 + percent / 100) + ROUNDING:
            slower.append(f"{row.figure}({row.name}) is {value:g}, and was {row.value:g}")
    if slower:
        raise failed(one, "\n".join([f"slower than {path.name} by more than {percent:g} %:", *slower]))


def rows_before(one: Run, path: Path) -> list[Any]:
    """The rows of a table of `compare` that say how slow tasks were under the same policy with the same workload."""
    try:
        table = pandas.read_csv(path, dtype={"name": str}, keep_default_na=False, na_values={"value": ""})
    except (OSError, ValueError) as error:
        raise Failed(f"{path}: {error}") from error
    if not {"workload", "figure", "name", "policy", "value"} <= set(table):
        raise Failed(f"{path} is no table that `scxlab compare --csv` wrote")
    policy, workload = Path(one.policy).stem, Path(one.workload)
    rows = [row for row in table.itertuples(index=False)
            if row.policy == policy and is_of(workload, row.workload) and row.figure in SLOW_FIGURES
            and getattr(row, "kind", "task") == "task" and not isnan(row.value)]
    if not rows:
        raise Failed(f"{path} has no line of {policy} and {workload.name}")
    return rows


def is_of(workload: Path, named: str) -> bool:
    """Returns whether a table means this workload: by its name, or by a path."""
    return named == workload.stem or Path(named).name == workload.name
