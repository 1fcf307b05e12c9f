"""Policies and workloads as a user names them: paths of files, or texts."""

import os
import tomllib
from collections.abc import Iterable
from dataclasses import dataclass
from pathlib import Path

from scxlab.errors import LabError

Given = str | os.PathLike[str]


@dataclass(frozen=True)
class Source:
    """A policy or a workload: its name in tables, its text, and the path of its file; a text has none."""

    name: str
    text: str
    path: Path | None


def is_text(given: Given) -> bool:
    """Returns whether it is a text: no path has several lines."""
    return isinstance(given, str) and "\n" in given


def sources_of(given: Given | Iterable[Given], what: str) -> list[Source]:
    """The policies or workloads that are given, one or several, each with a name of its own."""
    each = [given] if isinstance(given, (str, os.PathLike)) else list(given)
    if not each:
        raise LabError(f"no {what} is given")
    if len(set(map(str, each))) < len(each):
        raise LabError(f"a {what} is given twice")
    found = [source_of(one, f"{what} {number}") for number, one in enumerate(each, 1)]
    names = [one.name for one in found]
    return [Source(name, one.text, one.path) for name, one in zip(names_apart(names, found), found)]


def names_apart(names: list[str], found: list[Source]) -> list[str]:
    """A name for each: of two that are alike the path, or with a number if a text has none."""
    return [name if names.count(name) == 1 else str(one.path or f"{name} {number}")
            for number, (name, one) in enumerate(zip(names, found), 1)]


def source_of(given: Given, default: str) -> Source:
    """Reads a path, or takes a text. A text is named by its key `name`, else by the default."""
    if isinstance(given, str) and is_text(given):
        return Source(name_in(given) or default, given, None)
    path = Path(given)
    if not path.is_file():
        raise LabError(f"{given} is no file")
    try:
        return Source(path.stem, path.read_text(), path)
    except UnicodeDecodeError as error:
        raise LabError(f"{given} is no text") from error


def name_in(text: str) -> str | None:
    """The name that a policy gives itself."""
    try:
        name = tomllib.loads(text).get("name")
    except tomllib.TOMLDecodeError:
        return None
    return name if isinstance(name, str) else None
