"""Charts of compared runs as SVG, readable without colour: lines differ in dashes and marks, bars in hatching."""

import io
from collections.abc import Callable, Mapping
from typing import Any

import matplotlib
import pandas
from matplotlib.figure import Figure
from matplotlib.ticker import ScalarFormatter

from scxlab.errors import LabError
from scxlab.pictures import Picture
from scxlab.runs import Run
from scxlab.intervals import interval

DASHES: list[Any] = ["-", "--", ":", "-.", (0, (6, 1, 1, 1, 1, 1)), (0, (1, 3))]
MARKS = ["o", "s", "^", "x", "D", "v"]
HATCHES = ["", "///", "\\\\\\", "xxx", "---", "|||"]
GREYS = ["#111111", "#555555", "#777777", "#333333", "#999999", "#444444"]
SETTINGS = {"svg.hashsalt": "scxlab", "svg.fonttype": "none", "font.size": 10, "hatch.linewidth": 0.6}
# Charts are grey, so on dark paper they are turned over: #141414 for white, #ebebeb for black.
DARK = "@media (prefers-color-scheme: dark) {#figure_1 {filter: invert(0.92)}}"
STYLE = '<style type="text/css">'
# Bars of one place are together as wide as this.
WIDTH = 0.8


def svg_of(draw: Callable[[Any], object], width: float, height: float) -> Picture:
    """The SVG of what `draw` draws on a figure, the same each time."""
    with matplotlib.rc_context(SETTINGS):
        figure = Figure(figsize=(width, height), layout="constrained")
        draw(figure)
        target = io.StringIO()
        figure.savefig(target, format="svg", metadata={"Date": None, "Creator": None})
    text = target.getvalue().replace(STYLE, STYLE + DARK, 1)
    return Picture(text[text.index("<svg") :])


def line_style(number: int) -> dict[str, Any]:
    """The style of a line by its number; after six they begin anew."""
    at = number % len(DASHES)
    return {"color": GREYS[at], "linestyle": DASHES[at], "marker": MARKS[at], "markersize": 4, "fillstyle": "none"}


def curve_of(waits: pandas.Series) -> tuple[list[float], list[float]]:
    """The lengths of waits, and for each the percentage of waits that were no longer."""
    counts = waits.astype("int64").value_counts().sort_index().cumsum()
    return list(counts.index), list(100 * counts / len(waits))


def waits_chart(runs: Mapping[str, Run]) -> Picture:
    """For each policy the part of all waits that was no longer than a length; lengths are on a logarithmic scale, but
    from 0 to 1 ms."""

    def draw(figure: Any) -> None:
        axes = figure.subplots()
        greatest = max((int(one.waits.wait_ms.max()) for one in runs.values() if len(one.waits)), default=1)
        for number, (name, one) in enumerate(runs.items()):
            if len(one.waits):
                lengths, parts = curve_of(one.waits.wait_ms)
                # The line goes on to the right edge; marks are at lengths that there are.
                axes.step([*lengths, greatest], [*parts, 100], where="post", label=name,
                          markevery=range(len(lengths)), **line_style(number))
        axes.set_xscale("symlog", linthresh=1)
        axes.xaxis.set_major_formatter(ScalarFormatter())
        axes.set_xlim(-0.05, greatest * 1.1 + 1)
        axes.set_ylim(0, 103)
        axes.set_xlabel("length of a wait, ms")
        axes.set_ylabel("waits no longer, %")
        axes.grid(color="#dddddd")
        if any(len(one.waits) for one in runs.values()):
            beside(axes)

    return svg_of(draw, 8, 4)


def beside(axes: Any) -> None:
    """Puts the legend at the right of a chart."""
    axes.legend(loc="upper left", bbox_to_anchor=(1.01, 1))


def shares_chart(runs: Mapping[str, Run]) -> Picture:
    """For each group the share that it reached under each policy, each beside its due share."""
    shares = pandas.DataFrame({name: one.groups.share_percent for name, one in runs.items()}).astype(float)
    dues = pandas.DataFrame({name: one.groups.due_percent for name, one in runs.items()}).astype(float)

    def draw(figure: Any) -> None:
        axes = figure.subplots()
        width = WIDTH / (2 * len(runs))
        for number, name in enumerate(runs):
            at = [place - WIDTH / 2 + width * (2 * number + 0.5) for place in range(len(shares))]
            axes.bar(at, shares[name], width, label=name, **bar_style(number))
        for number, name in enumerate(runs):
            at = [place - WIDTH / 2 + width * (2 * number + 1.5) for place in range(len(shares))]
            axes.bar(at, dues[name], width, fill=False, edgecolor="black", linestyle=":",
                     label=None if number else "due to each")
        axes.set_xticks(range(len(shares)), shares.index)
        axes.set_ylabel("share, %")
        axes.set_ylim(0, 104)
        beside(axes)

    return svg_of(draw, max(5, 1.2 * len(shares) + 2), 4)


def bar_style(number: int) -> dict[str, Any]:
    """The style of a bar by its number; after six they begin anew."""
    return {"color": "#dddddd", "edgecolor": "black", "hatch": HATCHES[number % len(HATCHES)]}


def plot(table: pandas.DataFrame, x: str, y: str, by: str | None = None) -> Picture:
    """The mean of column `y` for each value of column `x`, with its 95 % confidence interval: for each value of column
    `by` a line, or bars if `x` is no number."""
    for column in (x, y, *([by] if by else [])):
        if column not in table:
            raise LabError(f"plot: the table has no column {column}; it has {', '.join(table)}")
    if not pandas.api.types.is_numeric_dtype(table[y]):
        raise LabError(f"plot: {y} holds no numbers")
    lines = {str(name): points_of(rows, x, y) for name, rows in table.groupby(by, sort=False)} if by else {
        y: points_of(table, x, y)}
    of_numbers = pandas.api.types.is_numeric_dtype(table[x])

    def draw(figure: Any) -> None:
        axes = figure.subplots()
        (draw_lines if of_numbers else draw_bars)(axes, lines)
        axes.set_xlabel(x)
        axes.set_ylabel(y)
        axes.set_ylim(bottom=min(0, axes.get_ylim()[0]))
        axes.grid(color="#dddddd", axis="both" if of_numbers else "y")
        axes.set_axisbelow(True)
        if by:
            beside(axes)
            axes.get_legend().set_title(by)

    return svg_of(draw, 7, 3.5)


Points = dict[Any, tuple[float, float]]


def points_of(rows: pandas.DataFrame, x: str, y: str) -> Points:
    """For each value of `x` the mean of `y`, and half the width of its interval, 0 of a single value."""
    points = {}
    for at, group in rows.groupby(x, sort=pandas.api.types.is_numeric_dtype(rows[x])):
        values = [float(value) for value in group[y].dropna()]
        if values:
            points[at] = (sum(values) / len(values), interval(values) if len(values) > 1 else 0.0)
    return points


def draw_lines(axes: Any, lines: Mapping[str, Points]) -> None:
    """Draws a line for each name, with a bar for each interval."""
    for number, (name, points) in enumerate(lines.items()):
        means, widths = [mean for mean, _ in points.values()], [width for _, width in points.values()]
        axes.errorbar(list(points), means, widths, label=name, capsize=3, **line_style(number))


def draw_bars(axes: Any, lines: Mapping[str, Points]) -> None:
    """Draws a bar for each name at each place, with a line for each interval."""
    places = list(dict.fromkeys(at for points in lines.values() for at in points))
    width = WIDTH / len(lines)
    for number, (name, points) in enumerate(lines.items()):
        at = [places.index(place) - WIDTH / 2 + width * (number + 0.5) for place in points]
        means, widths = [mean for mean, _ in points.values()], [wide for _, wide in points.values()]
        axes.bar(at, means, width, yerr=widths if any(widths) else None, capsize=3, label=name, **bar_style(number))
    axes.set_xticks(range(len(places)), places)
