"""The mean of a sample, and its 95 % confidence interval."""

from collections.abc import Sequence
from functools import cache
from math import sqrt
from statistics import fmean, stdev

import pandas

from scxlab.frames import FRACTION, WHOLE

NOTHING = float("nan")


@cache
def quantile(freedom: int) -> float:
    """The 97.5 % quantile of Student's t distribution."""
    from scipy.special import stdtrit

    return float(stdtrit(freedom, 0.975))


def interval(values: Sequence[float]) -> float:
    """Half the width of the 95 % confidence interval of the mean; NaN of fewer than two values."""
    if len(values) < 2:
        return NOTHING
    return quantile(len(values) - 1) * stdev(values) / sqrt(len(values))


def spread(table: pandas.DataFrame, over: str = "seed") -> pandas.DataFrame:
    """Replaces rows that differ in `over` alone by one, with mean and spread.

    Returns a DataFrame with the columns of text and parameters, `runs` (Int64), and for each metric its mean
    (Float64) and `METRIC_interval` (Float64), half the width of the 95 % confidence interval. A row without metrics,
    of a refused run, counts in no mean.

    >>> import scxlab
    >>> rows = scxlab.sweep("lab/examples/slices.toml")    # doctest: +SKIP
    >>> scxlab.spread(rows)[["slice", "typists", "longest", "longest_interval"]]    # doctest: +SKIP
    """
    metrics = table.attrs.get("metrics") or metrics_of(table, over)
    keys = [column for column in table if column not in {over, "key", "state", *metrics}]
    rows = []
    for key, group in table.groupby(keys, sort=False, dropna=False):
        row = dict(zip(keys, key if isinstance(key, tuple) else (key,))) | {"runs": len(group)}
        for metric in metrics:
            values = [float(value) for value in group[metric].dropna()]
            row |= {metric: fmean(values) if values else NOTHING, f"{metric}_interval": interval(values)}
        rows.append(row)
    columns = [*keys, "runs", *(name for metric in metrics for name in (metric, f"{metric}_interval"))]
    means = {column: FRACTION for column in columns if column not in {*keys, "runs"}}
    dtypes = {key: table[key].dtype for key in keys} | {"runs": WHOLE} | means
    return pandas.DataFrame(rows, columns=columns).astype(dtypes)


def metrics_of(table: pandas.DataFrame, over: str) -> list[str]:
    """The columns of metrics: numbers after the column `state`."""
    columns = list(table)
    after = columns[columns.index("state") + 1 :] if "state" in columns else columns
    return [name for name in after if name != over and pandas.api.types.is_numeric_dtype(table[name])]
