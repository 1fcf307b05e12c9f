"""A comparison as text: which policy is best, then groups, then tasks."""

from math import isnan
from typing import Any

import pandas

from scxlab.comparison import OF_NAMES, OF_RUN, RUN_METRICS, Comparison, Measure, summary

PLACES = 2


def text_of(comparison: Comparison) -> str:
    """The tables as the command prints them."""
    judged = comparison.judged()
    lines = [f"refused: policy {one.policy}, workload {one.workload}: {one.state.removeprefix('refused: ')}"
             for one in comparison.refused]
    if not judged.empty:
        lines += [overview(comparison, judged), "", best_of_all(comparison)]
        lines += [part for measure in OF_NAMES if measure.kind != "cpu" for part in told_by(measure, judged)]
    return "\n".join(lines) + "\n"


def overview(comparison: Comparison, judged: pandas.DataFrame) -> str:
    """A row for each workload and policy: six metrics, with a star at the best, and the count of stars."""
    table = summary(comparison.table())
    cells = judged[judged.kind == "run"].set_index(["figure", "workload", "policy"])
    rows = []
    for (workload, policy), row in table.iterrows():
        told = [cell(cells.loc[key], with_ratio=False) if (key := (metric, workload, policy)) in cells.index else "-"
                for metric in RUN_METRICS]
        state = "" if row.state == "in force" else row.state
        rows.append([workload, policy, *told, f"{row.best} of {len(RUN_METRICS)}", state])
    columns = ["workload", "policy", *(measure.title for measure in OF_RUN), "best"]
    states = any(row[-1] for row in rows)
    shown = pandas.DataFrame(rows, columns=[*columns, "state"]).set_index(["workload", "policy"])
    return str((shown if states else shown.drop(columns="state")).to_string())


def best_of_all(comparison: Comparison) -> str:
    """One line with the count of each policy, the greatest first."""
    counts = summary(comparison.table()).groupby("policy", sort=False).best.sum().sort_values(ascending=False, kind="stable")
    total = len(RUN_METRICS) * len(comparison.workloads)
    return f"best of {total}: " + ", ".join(f"{policy} {count}" for policy, count in counts.items())


def told_by(measure: Measure, judged: pandas.DataFrame) -> list[str]:
    """The title and the table of a metric; nothing if it says nothing, since all policies are alike."""
    mine = rows_of_measure(measure, judged)
    if mine.empty:
        return []
    cells: dict[tuple[str, str], dict[str, str]] = {}
    for row in mine.itertuples():
        cells.setdefault((row.workload, row.name), {})[row.policy] = cell(row)
    table = pandas.DataFrame.from_dict(cells, orient="index", columns=list(dict.fromkeys(mine.policy)))
    table.index = pandas.MultiIndex.from_tuples(list(cells), names=["workload", measure.kind])
    return ["", measure.title, table.fillna("-").to_string()]


def rows_of_measure(measure: Measure, judged: pandas.DataFrame) -> pandas.DataFrame:
    """The judged rows of a metric, of the workloads in which it tells policies apart."""
    mine = judged[(judged.kind == measure.kind) & (judged.figure == measure.figure)]
    return mine[mine.workload.isin(mine.workload[mine.best])]


def cell(row: Any, with_ratio: bool = True) -> str:
    """A value with its spread, its due share, a star if it is the best, and its ratio."""
    if missing(row.value):
        return "-"
    spread = "" if missing(row.interval) or not row.interval else f" ±{row.interval:.2g}"
    due = "" if missing(row.due) else f" of {shown(row.due)}"
    ratio = "" if not with_ratio else "      -" if missing(row.ratio) else f" {row.ratio:5.2f}x"
    return f"{shown(row.value)}{spread}{due}{'*' if row.best else ' '}{ratio}"


def missing(value: Any) -> bool:
    """Returns whether a cell holds no number."""
    return value is None or value is pandas.NA or isnan(value)


def shown(value: float) -> str:
    """A number with two places, or with none if these are 0."""
    return f"{value:.{PLACES}f}".removesuffix(".00")
