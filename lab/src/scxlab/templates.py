"""Templates: places for parameters in policies and workloads, and in workloads also numbers of tasks and ranges."""

import re
import tomllib
from collections.abc import Callable, Iterator, Mapping
from hashlib import sha256
from typing import Any

import tomli_w

from scxlab.errors import LabError

Choose = Callable[[str, int, int], int]
Table = dict[str, Any]

PLACE = re.compile(r"\{([a-z][a-z0-9_]*)\}")
MOST_TASKS = 1024


def places(text: str) -> set[str]:
    """The names of the parameters in a text."""
    return set(PLACE.findall(text))


def filled(text: str, values: Mapping[str, object], path: str) -> str:
    """The text with each `{name}` replaced by its value."""

    def value(match: re.Match[str]) -> str:
        if match[1] not in values:
            line = text.count("\n", 0, match.start()) + 1
            raise LabError(f"{path}: line {line}: {{{match[1]}}} is no parameter")
        return str(values[match[1]])

    return PLACE.sub(value, text)


def workload_of(text: str, path: str, choose: Choose | None = None) -> str:
    """The workload of a filled template. One without `seed`, `count` and ranges stays as it is, and so does one that
    isn't TOML, for the program to refuse."""
    plan = plan_of(text)
    if plan is None or not has_choice(plan):
        return text
    return written(expanded(plan, path, choose or drawn_by(plan.get("seed", 0))))


def expanded_text(text: str, path: str, values: Mapping[str, object], seed: int | None = None) -> str:
    """The file that a template describes with these values of its parameters. A seed draws its ranges, and is the value
    of `seed`; without one its own `seed` draws them."""
    for name in values:
        if name not in places(text):
            raise LabError(f"{path}: there is no place {{{name}}}")
    if seed is None:
        return workload_of(filled(text, values, path), path)
    return workload_of(filled(text, {**values, "seed": seed}, path), path, drawn_by(seed))


def plan_of(text: str) -> Table | None:
    """The workload as a table; None if it isn't TOML."""
    try:
        return tomllib.loads(text)
    except tomllib.TOMLDecodeError:
        return None


def has_choice(plan: Table) -> bool:
    """Returns whether a workload has a `seed`, a `count` or a range."""
    return "seed" in plan or any(is_open(table) for table in tables_of(plan))


def is_drawn(text: str) -> bool:
    """Returns whether a template depends on a seed: by a place for it, or by a range."""
    plan = plan_of(PLACE.sub("0", text))
    return "seed" in places(text) or bool(plan) and any(
        is_range(value) for table in tables_of(plan or {}) for value in table.values())


def tables_of(plan: Table) -> list[Table]:
    """The top of a workload and all tables in its arrays."""
    lists = [value for value in plan.values() if isinstance(value, list)]
    return [plan, *(table for each in lists for table in each if isinstance(table, dict))]


def is_open(table: Table) -> bool:
    """Returns whether a table has a `count` or a range."""
    return "count" in table or any(is_range(value) for value in table.values())


def is_range(value: object) -> bool:
    """Returns whether a value is `[least, greatest]`."""
    return isinstance(value, list) and len(value) == 2 and all(type(each) is int for each in value)


def drawn_by(seed: int) -> Choose:
    """Chooses numbers by a seed and the place of each, so that a place more or less changes no other number."""

    def choose(place: str, least: int, greatest: int) -> int:
        number = int.from_bytes(sha256(f"{seed} {place}".encode()).digest()[:8], "big")
        return least + number % (greatest - least + 1)

    return choose


def expanded(plan: Table, path: str, choose: Choose) -> Table:
    """The plan with a number chosen for each range, and each sort of tasks with a `count` N written out as N tasks."""
    top = {key: chosen(value, key, path, choose) for key, value in plan.items() if key != "seed"}
    for key, tables in top.items():
        if isinstance(tables, list):
            top[key] = [copy for number, table in enumerate(tables)
                        for copy in copies(table, f"{key}.{number}", path, choose)]
    return top


def copies(table: Any, place: str, path: str, choose: Choose) -> Iterator[Any]:
    """The tables that a table with a `count` is written out as; one without stays one."""
    if not isinstance(table, dict):
        yield table
        return
    if "count" not in table:
        yield {key: chosen(value, f"{place}.{key}", path, choose) for key, value in table.items()}
        return
    count = chosen(table["count"], f"{place}.count", path, choose)
    if type(count) is not int or not 0 <= count <= MOST_TASKS:
        raise LabError(f"{path}: {place}.count: out of range")
    for number in range(1, count + 1):
        yield {key: f"{value}{number}" if key == "name" else chosen(value, f"{place}.{number}.{key}", path, choose)
               for key, value in table.items() if key != "count"}


def chosen(value: Any, place: str, path: str, choose: Choose) -> Any:
    """The value, or a number of its range."""
    if not is_range(value):
        return value
    if value[0] > value[1]:
        raise LabError(f"{path}: {place}: the range ends before it begins")
    return choose(place, *value)


def written(plan: Table) -> str:
    """A workload as TOML: the numbers of its top, and then its tables, each under a line of its own."""
    top = {key: value for key, value in plan.items() if not is_array(value)}
    tables = [f"\n[[{key}]]\n{tomli_w.dumps(table)}" for key, value in plan.items() if is_array(value)
              for table in value]
    return tomli_w.dumps(top, multiline_strings=True) + "".join(tables)


def is_array(value: object) -> bool:
    """Returns whether a value is an array of tables."""
    return isinstance(value, list) and all(isinstance(each, dict) for each in value)
