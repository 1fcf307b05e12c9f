"""Files of the lab's own: TOML with known keys."""

import tomllib
from collections.abc import Collection
from os import PathLike
from pathlib import Path
from typing import Any

from scxlab.errors import LabError


def known_table(path: str | PathLike[str], keys: Collection[str]) -> dict[str, Any]:
    """The table of a file; what is no TOML and a key that isn't one of these is named."""
    try:
        told = tomllib.loads(Path(path).read_text())
    except (tomllib.TOMLDecodeError, UnicodeDecodeError) as error:
        raise LabError(f"{path}: not TOML: {error}") from error
    for key in told:
        if key not in keys:
            raise LabError(f"{path}: {key}: unknown")
    return told
