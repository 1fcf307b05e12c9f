"""How far something is, on a terminal."""

import sys
from collections.abc import Callable, Iterator
from contextlib import contextmanager

from tqdm import tqdm


@contextmanager
def progress(what: str, due: int) -> Iterator[Callable[[int], object]]:
    """Shows a bar on standard error while something is done; if that is no terminal, nothing."""
    with tqdm(total=due, desc=what, unit="run", leave=False, disable=not sys.stderr.isatty()) as bar:
        yield bar.update
