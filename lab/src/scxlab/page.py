"""Comparisons as one page that a browser opens: the best policy, tables, charts, and pictures of the runs."""

from collections.abc import Iterable, Iterator
from html import escape
from typing import Any

import pandas

from scxlab.charts import shares_chart, waits_chart
from scxlab.comparison import OF_NAMES, OF_RUN, Comparison, Measure, summary
from scxlab.pictures import image_of
from scxlab.program import Program
from scxlab.reports import best_of_all, cell, missing, rows_of_measure
from scxlab.runs import Run
from scxlab.work import file_of

# The colours are those of the page that `scxsim view` writes.
STYLE = """
:root { color-scheme: light dark; --paper: #ffffff; --ink: #1b1f24; --faint: #5a626a; --line: #d9dde1; --band: #f3f5f7; --link: #005a8c; }
@media (prefers-color-scheme: dark) {
  :root { --paper: #14171b; --ink: #e8eaed; --faint: #9aa3ab; --line: #343a41; --band: #1c2025; --link: #79bdf0; }
}
* { box-sizing: border-box; }
body { margin: 0 auto; max-width: 90em; padding: 12px 16px; background: var(--paper); color: var(--ink); font: 14px/1.4 system-ui, "DejaVu Sans", sans-serif; }
h1 { font-size: 20px; margin: 0; } h2 { font-size: 16px; margin: 24px 0 4px; } h3 { font-size: 13px; margin: 12px 0 4px; }
a { color: var(--link); } nav ul { margin: 4px 0; padding-left: 20px; }
.scroll { overflow-x: auto; }
table { border-collapse: collapse; font-variant-numeric: tabular-nums; }
th, td { border-bottom: 1px solid var(--line); padding: 2px 8px; text-align: right; white-space: nowrap; }
th { color: var(--faint); font-weight: 600; } th:first-child, #best th:nth-child(2) { text-align: left; }
td.best { font-weight: bold; background: var(--band); color: var(--ink); }
.row { display: flex; flex-wrap: wrap; gap: 0 32px; align-items: flex-start; } .row > * { max-width: 100%; }
figure { margin: 0 0 12px; } img { max-width: 100%; height: auto; } figcaption { color: var(--faint); }
"""


def page(comparison: Comparison, program: Program) -> str:
    """The page; it needs no other file."""
    judged = comparison.judged()
    sections = [section("best", "Which policy is best", best_of(comparison, judged))]
    for number, workload in enumerate(comparison.workloads, 1):
        mine = judged[judged.workload == workload]
        parts = [*tables_of(mine), *pictures_of(comparison, workload, program)]
        sections.append(section(f"workload-{number}", workload, "\n".join(parts)))
    contents = "".join(f'<li><a href="#{name}">{escape(title)}</a></li>' for name, title, _ in sections)
    body = "\n".join(f'<section id="{name}"><h2>{escape(title)}</h2>\n{text}</section>' for name, title, text in sections)
    head = ('<meta charset="utf-8"><meta name="viewport" content="width=device-width, initial-scale=1">'
            f"<title>Policies compared</title>\n<style>{STYLE}</style>")
    return (f'<!DOCTYPE html>\n<html lang="en"><head>{head}</head><body>\n<h1>Policies compared</h1>\n'
            f"<nav><ul>{contents}</ul></nav>\n{body}\n</body></html>\n")


def section(name: str, title: str, text: str) -> tuple[str, str, str]:
    """A section of the page: its anchor, its title and its HTML."""
    return name, title, text


def best_of(comparison: Comparison, judged: pandas.DataFrame) -> str:
    """The table of workloads and policies with six metrics and the count of best, and what was refused."""
    refused = "".join(f"<p>{escape(one.policy)}, {escape(one.workload)}: {escape(one.state)}</p>"
                      for one in comparison.refused)
    if judged.empty:
        return refused
    cells = {key: row for key, row in zip(judged[["figure", "workload", "policy"]].itertuples(index=False, name=None),
                                          judged.itertuples()) if row.kind == "run"}
    head = "".join(f"<th>{escape(title)}</th>" for title in
                   ["workload", "policy", *(measure.title for measure in OF_RUN), "best", "state"])
    rows = ""
    for (workload, policy), row in summary(comparison.table()).iterrows():
        told = "".join(td(cells.get((measure.figure, workload, policy)), with_ratio=False) for measure in OF_RUN)
        rows += (f"<tr><th>{escape(workload)}</th><th>{escape(policy)}</th>{told}<td>{row.best} of {len(OF_RUN)}</td>"
                 f"<td>{escape(row.state)}</td></tr>\n")
    return f'{refused}{table(head, rows)}<p>{escape(best_of_all(comparison))}; less is better, and the best has a star</p>'


def table(head: str, rows: str) -> str:
    """A table that a narrow window scrolls."""
    return f'<div class="scroll"><table><tr>{head}</tr>\n{rows}</table></div>'


def td(row: Any, with_ratio: bool = True) -> str:
    """A cell of a table; the best is bold and has a star."""
    if row is None:
        return "<td>-</td>"
    style = ' class="best"' if row.best else ""
    ratio = "" if not with_ratio or missing(row.ratio) else f" <small>{row.ratio:.2f}&times;</small>"
    return f"<td{style}>{escape(cell(row, with_ratio=False).strip())}{ratio}</td>"


def tables_of(judged: pandas.DataFrame) -> Iterator[str]:
    """The tables of groups, tasks and CPUs of one workload."""
    yield '<div class="row">' + "".join(table_of(measure, judged) for measure in OF_NAMES) + "</div>"


def table_of(measure: Measure, judged: pandas.DataFrame) -> str:
    """A table of one metric; nothing if no policy is best."""
    mine = rows_of_measure(measure, judged)
    if mine.empty:
        return ""
    policies = list(dict.fromkeys(mine.policy))
    head = f"<th>{escape(measure.kind)}</th>" + "".join(f"<th>{escape(policy)}</th>" for policy in policies)
    rows = ""
    for name, group in mine.groupby("name", sort=False):
        cells = {row.policy: row for row in group.itertuples()}
        rows += f"<tr><th>{escape(str(name))}</th>{''.join(td(cells.get(policy)) for policy in policies)}</tr>\n"
    return f"<div><h3>{escape(measure.title)}</h3>\n{table(head, rows)}</div>"


def pictures_of(comparison: Comparison, workload: str, program: Program) -> Iterator[str]:
    """The charts and pictures of a workload, of the first seed."""
    runs = first_runs(comparison, workload, program)
    if runs:
        yield row_of([image(waits_chart(runs), "Waits: the part that was no longer than a length", "chart"),
                      image(shares_chart(runs), "Shares of groups, each beside its due share (dotted)", "chart")])
        yield "<h3>Runs, on one scale</h3>"
        yield "".join(image(one.picture, name) for name, one in runs.items())


def first_runs(comparison: Comparison, workload: str, program: Program) -> dict[str, Run]:
    """The run of each policy with the first seed."""
    found: dict[str, Run] = {}
    for one in comparison.runs:
        if one.workload == workload and one.rows and one.policy not in found:
            found[one.policy] = Run(program, file_of(one.job.policy), file_of(one.job.workload))
    return found


def row_of(parts: Iterable[str]) -> str:
    """Parts beside each other, as far as the window is wide enough."""
    return f'<div class="row">{"".join(parts)}</div>'


def image(svg: str, caption: str, style: str = "") -> str:
    """A picture with a line below it."""
    return f"<figure>{image_of(svg, caption, style)}<figcaption>{escape(caption)}</figcaption></figure>"
