"""The columns of DataFrames, and their dtypes: text is `string`, whole numbers are `Int64`, fractions `Float64`."""

from collections.abc import Mapping
from typing import Any

import pandas

TEXT, WHOLE, FRACTION, TRUTH = "string", "Int64", "Float64", "boolean"
WAITS = {"task": TEXT, "since_ms": WHOLE, "wait_ms": WHOLE}
BURSTS = {"task": TEXT, "wake_ms": WHOLE, "burst_ms": WHOLE, "slowdown": FRACTION}
SLICES = {"kind": TEXT, "task": TEXT, "cpu": WHOLE, "since_ms": WHOLE, "length_ms": WHOLE}
# All other metrics are whole numbers.
FRACTIONS = {"mean_wait_ms", "mean_burst_ms", "slowdown", "share_percent", "due_percent", "share_off_percent"}


def dtype_of_metric(metric: str) -> str:
    """The dtype of a metric's column."""
    return FRACTION if metric in FRACTIONS else WHOLE


def typed(table: pandas.DataFrame, dtypes: Mapping[str, str]) -> pandas.DataFrame:
    """The table with these columns, in this order and of these dtypes."""
    return table.reindex(columns=list(dtypes)).astype(dict(dtypes))


def dtype_of_values(values: list[Any]) -> str:
    """The dtype of a parameter's column."""
    if all(type(value) is int for value in values):
        return WHOLE
    return FRACTION if all(type(value) in (int, float) for value in values) else TEXT
