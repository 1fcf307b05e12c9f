"""What happened in a run, as the program says it."""

from fnmatch import fnmatchcase

from scxlab.figures import Figure
from scxlab.runs import Run


def account_of(one: Run, figure: Figure | None = None) -> list[str]:
    """Lines that say why a run is as it is: the first block of `why`, and that of the longest wait of a task that the
    metric is of."""
    summary, *blocks = one.why.split("\n\n")
    of_waits = [block for block in blocks if figure and is_of_wait(block, figure.name)]
    return [line for block in [summary, *of_waits[:1]] for line in block.splitlines()]


def is_of_wait(block: str, pattern: str) -> bool:
    """Returns whether a block tells of a wait of a task whose name fits."""
    task, _, told = block.partition(" ")
    return told.startswith("waited ") and fnmatchcase(task, pattern)
