"""One run of a workload under a policy, as DataFrames."""

import tomllib
from functools import cached_property
from html import escape
from os import PathLike
from pathlib import Path
from typing import Any

import pandas

from scxlab import traces
from scxlab.errors import LabError, Refused
from scxlab.figures import COLUMNS, rows_of, state_of
from scxlab.frames import BURSTS, SLICES, TEXT, WAITS, WHOLE, dtype_of_metric, typed
from scxlab.pictures import Picture
from scxlab.program import Program


class Run:
    """A run of a workload under a policy. Each part is computed when it is first asked for; a file that the program
    refuses raises `Refused` then."""

    def __init__(self, program: Program, policy: str | PathLike[str], workload: str | PathLike[str],
                 title: str | None = None) -> None:
        self.program, self.policy, self.workload = program, str(policy), str(workload)
        self.title = title or f"{Path(self.policy).stem}, {Path(self.workload).stem}"

    def __repr__(self) -> str:
        return f"<run of {self.title}>"

    def _repr_html_(self) -> str:
        """The run in a notebook: its state, its tasks, and its picture."""
        head = f"<p><b>{escape(self.title)}</b>: "
        try:
            return f"{head}{escape(self.state)}</p>{self.tasks.to_html()}{self.picture._repr_html_()}"
        except Refused as refusal:
            return f"{head}{escape(str(refusal))}</p>"

    def _told(self, command: str) -> str:
        return self.program.call(command, self.policy, self.workload)

    @cached_property
    def stats(self) -> str:
        """What `stats-csv` writes."""
        return self._told("stats-csv")

    @cached_property
    def state(self) -> str:
        """`in force`, or for what and when the policy was ejected."""
        return state_of(self.stats)

    def names(self, kind: str) -> list[str]:
        """The names of its tasks, groups or CPUs, in the order of the workload."""
        return list(dict.fromkeys(name for each, name, *_ in rows_of(self.stats) if each == kind))

    @cached_property
    def plan(self) -> dict[str, Any]:
        """The workload as its file has it."""
        try:
            return tomllib.loads(Path(self.workload).read_text())
        except (tomllib.TOMLDecodeError, UnicodeDecodeError) as error:
            raise LabError(f"{self.workload}: Python reads TOML 1.0 alone: {error}") from error

    @cached_property
    def trace(self) -> str:
        """What `run` writes: a line for each event."""
        return self._told("run")

    @cached_property
    def picture(self) -> Picture:
        """The run as SVG."""
        return Picture(self._told("picture"))

    @cached_property
    def why(self) -> str:
        """What `why` says of the run."""
        return self._told("why")

    @cached_property
    def _stretches(self) -> traces.Stretches:
        return traces.stretches_of(self._told("view"))

    @cached_property
    def _end(self) -> str:
        """The end of the trace."""
        return self.program.end_of_trace(self.policy, self.workload)

    @cached_property
    def slices(self) -> pandas.DataFrame:
        """Each stretch in which a task ran or was parked: `kind` (string: `run` or `parked`), `task` (string), `cpu`
        (Int64, missing if parked), `since_ms` and `length_ms` (Int64)."""
        found = typed(traces.slices_of(self._stretches), SLICES)
        return found.assign(cpu=found.cpu.where(found.kind == "run"))

    @cached_property
    def waits(self) -> pandas.DataFrame:
        """Each wait: `task` (string), `since_ms` and `wait_ms` (Int64)."""
        return typed(traces.waits_of(self._stretches, self._end), WAITS)

    @cached_property
    def bursts(self) -> pandas.DataFrame:
        """Each finished burst: `task` (string), `wake_ms` and `burst_ms` (Int64), `slowdown` (Float64)."""
        return typed(traces.bursts_of(self._stretches, self._end), BURSTS)

    @cached_property
    def figures(self) -> pandas.DataFrame:
        """All metrics: a row each, with its kind, name, figure and value."""
        return pandas.DataFrame(rows_of(self.stats), columns=COLUMNS)

    def _table(self, kind: str) -> pandas.DataFrame:
        mine = self.figures[self.figures.kind == kind]
        table = mine.pivot(index="name", columns="figure", values="value")
        table = table.reindex(index=self.names(kind), columns=mine.figure.drop_duplicates())
        table.index = pandas.Index(table.index, dtype=WHOLE if kind == "cpu" else TEXT, name=kind)
        table.columns = pandas.Index(list(table.columns))
        return table.astype({metric: dtype_of_metric(metric) for metric in table})

    @cached_property
    def tasks(self) -> pandas.DataFrame:
        """A row for each task, by its name, and a column for each metric."""
        return self._table("task")

    @cached_property
    def cpus(self) -> pandas.DataFrame:
        """A row for each CPU, by its number, and a column for each metric."""
        return self._table("cpu")

    @cached_property
    def groups(self) -> pandas.DataFrame:
        """A row for each group, by its name, and a column for each metric."""
        return self._table("group")
