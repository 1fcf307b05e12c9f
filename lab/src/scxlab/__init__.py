"""Experiments with scheduling policies under scxsim, as DataFrames.

>>> import scxlab
>>> policies = ["examples/policies/fifo.toml", "examples/policies/short_slices.toml"]
>>> table = scxlab.compare(policies, "examples/workloads/two_tasks.toml")
>>> scxlab.summary(table).longest_wait_ms.tolist()
[4.0, 2.0]
"""

from importlib import import_module
from typing import TYPE_CHECKING, Any

from scxlab.errors import LabError, Refused
from scxlab.program import Program, find_program

if TYPE_CHECKING:
    from scxlab.api import bursts, compare, fit, plot, run, search, slices, sweep, waits
    from scxlab.comparison import summary
    from scxlab.intervals import spread
    from scxlab.runs import Run

__all__ = ["LabError", "Program", "Refused", "Run", "bursts", "compare", "find_program", "fit", "plot", "run", "search",
           "slices", "spread", "summary", "sweep", "waits"]

# These import pandas, which takes longer than a command that has no tables.
MODULES = {"Run": "runs", "spread": "intervals", "summary": "comparison"} | dict.fromkeys(
    ["bursts", "compare", "fit", "plot", "run", "search", "slices", "sweep", "waits"], "api")


def __getattr__(name: str) -> Any:
    """Imports a name when it is first used."""
    if name not in MODULES:
        raise AttributeError(f"module {__name__!r} has no attribute {name!r}")
    value = globals()[name] = getattr(import_module(f"{__name__}.{MODULES[name]}"), name)
    return value


def __dir__() -> list[str]:
    return sorted({*globals(), *__all__})
