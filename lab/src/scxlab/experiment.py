"""Experiments: templates of policies and a workload, the values for their places, and the metrics to look at."""

import random
from collections.abc import Iterable, Iterator, Mapping, Sequence
from dataclasses import dataclass
from functools import lru_cache
from itertools import product
from math import prod
from os import PathLike
from pathlib import Path
from typing import Any

from scxlab import templates
from scxlab.errors import LabError
from scxlab.figures import Figure, figure_of
from scxlab.files import known_table

KEYS = {"policies", "workload", "parameters", "sample", "figures"}
Value = int | float | str


@dataclass(frozen=True)
class Experiment:
    """The points that an experiment runs. Policies are texts by their names."""

    policies: dict[str, str]
    workload: str
    workload_path: str
    parameters: dict[str, Sequence[Value]]
    sample: tuple[int, int] | None
    figures: dict[str, Figure]

    @property
    def size(self) -> int:
        """The number of points."""
        return self.sample[0] if self.sample else prod(map(len, self._sides()))

    def _sides(self) -> list[Sequence[Value]]:
        return [list(self.policies), *self.parameters.values()]

    def points(self) -> Iterator[tuple[str, dict[str, Value]]]:
        """Each point as the name of a policy and the values of all parameters: of the full grid the last one changes
        fastest; a sample has no point twice."""
        sides = self._sides()
        combinations: Iterable[Sequence[Value]] = product(*sides)
        if self.sample:
            runs, seed = self.sample
            numbers = random.Random(seed).sample(range(prod(map(len, sides))), runs)
            combinations = (combination(sides, number) for number in numbers)
        for policy, *values in combinations:
            yield str(policy), dict(zip(self.parameters, values))

    def texts(self, policy: str, values: Mapping[str, Value]) -> tuple[str, str]:
        """The policy and the workload at a point."""
        workload = templates.filled(self.workload, values, self.workload_path)
        return templates.filled(self.policies[policy], values, policy), drawn(workload, self.workload_path)


@lru_cache(maxsize=4096)
def drawn(workload: str, path: str) -> str:
    """The workload of a filled template. Points that differ in the policy alone share it."""
    return templates.workload_of(workload, path)


def combination(sides: Sequence[Sequence[Value]], number: int) -> list[Value]:
    """The combination with a number in the full grid."""
    values = []
    for side in reversed(sides):
        number, at = divmod(number, len(side))
        values.append(side[at])
    return values[::-1]


def read_experiment(path: str | PathLike[str]) -> Experiment:
    """Reads an experiment; what is wrong with it is named by its key."""
    told = known_table(path, KEYS)
    folder = Path(path).parent
    policies = {name: text_of(folder / name, path, "policies") for name in list_of(told, "policies", path)}
    if not isinstance(told.get("workload"), str):
        raise LabError(f"{path}: workload: {'wrong type' if 'workload' in told else 'missing'}")
    workload = text_of(folder / told["workload"], path, "workload")
    parameters = {name: values_of(value, f"{path}: parameters.{name}")
                  for name, value in table_of(told, "parameters", path).items()}
    figures = {name: figure_of(text) for name, text in table_of(told, "figures", path).items()}
    check_places(policies | {told["workload"]: workload}, parameters, path)
    sample = sample_of(told, len(policies) * prod(map(len, parameters.values())), path)
    return Experiment(policies, workload, told["workload"], parameters, sample, figures)


def text_of(file: Path, path: str | PathLike[str], key: str) -> str:
    """The text of a file that an experiment names."""
    try:
        return file.read_text()
    except (OSError, UnicodeDecodeError) as error:
        raise LabError(f"{path}: {key}: {file} can't be read") from error


def list_of(told: Mapping[str, Any], key: str, path: str | PathLike[str]) -> list[str]:
    """A list of texts, none of them twice."""
    values = told.get(key)
    if not isinstance(values, list) or not values or not all(isinstance(value, str) for value in values):
        raise LabError(f"{path}: {key}: {'wrong type' if key in told else 'missing'}")
    if len(set(values)) < len(values):
        raise LabError(f"{path}: {key}: one is there twice")
    return values


def table_of(told: Mapping[str, Any], key: str, path: str | PathLike[str]) -> dict[str, Any]:
    """A table of the experiment, empty if it isn't there."""
    table = told.get(key, {})
    if not isinstance(table, dict):
        raise LabError(f"{path}: {key}: wrong type")
    return table


def values_of(value: Any, place: str) -> Sequence[Value]:
    """The values of a parameter: a list, or whole numbers `from` one `to` another, by `step` if it isn't 1."""
    if isinstance(value, list) and value and all(type(each) in (int, float, str) for each in value):
        return value
    keys = {"from", "to", "step"}
    if isinstance(value, dict) and {"from", "to"} <= set(value) <= keys and whole_numbers(value.values()):
        step = value.get("step", 1)
        values = range(value["from"], value["to"] + 1, step) if step > 0 else ()
        if values:
            return values
    raise LabError(f"{place}: is no list of numbers or texts, and no {{ from = 1, to = 9 }}")


def whole_numbers(values: Iterable[object]) -> bool:
    """Returns whether all are whole numbers."""
    return all(type(each) is int for each in values)


def check_places(texts: Mapping[str, str], parameters: Mapping[str, Sequence[Value]], path: str | PathLike[str]) -> None:
    """Refuses a place without a parameter, and a parameter without a place."""
    for name, text in texts.items():
        templates.filled(text, parameters, name)
    for name in parameters:
        if not any(name in templates.places(text) for text in texts.values()):
            raise LabError(f"{path}: parameters.{name}: no template has {{{name}}}")


def sample_of(told: Mapping[str, Any], size: int, path: str | PathLike[str]) -> tuple[int, int] | None:
    """The number of points of a sample, and its seed."""
    if "sample" not in told:
        return None
    sample = table_of(told, "sample", path)
    if not {"runs"} <= set(sample) <= {"runs", "seed"} or not whole_numbers(sample.values()):
        raise LabError(f"{path}: sample: has `runs`, and may have `seed`, both whole numbers")
    if not 1 <= sample["runs"] <= size:
        raise LabError(f"{path}: sample.runs: out of range, the grid has {size} points")
    return sample["runs"], sample.get("seed", 0)
