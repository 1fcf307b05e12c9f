"""Looks for the workload of a template under which a metric is the greatest or the least: climbs from random
beginnings, and then makes the best one found smaller."""

import random
from collections.abc import Callable, Iterator, Mapping, Sequence
from dataclasses import dataclass
from functools import partial
from math import ceil, inf

from scxlab import templates
from scxlab.account import account_of
from scxlab.batches import done_in_batches
from scxlab.clusters import Workers
from scxlab.errors import LabError, Refused
from scxlab.figures import Figure, figure_of, values_of
from scxlab.program import Program
from scxlab.reports import shown
from scxlab.runs import Run
from scxlab.sources import Source
from scxlab.work import checked, file_of, thread_file

Numbers = dict[str, int]
Ranges = dict[str, tuple[int, int]]

PATIENCE = 80
# A search is split into climbs of this many runs, which workers do side by side.
RUNS_OF_A_CLIMB = 250


@dataclass(frozen=True)
class Goal:
    """A metric that is to be as great or as small as can be."""

    direction: str
    figure: Figure

    @property
    def text(self) -> str:
        """The goal as the user writes it."""
        return f"{self.direction} {self.figure.text.removeprefix(self.direction + ' ')}"

    def score(self, value: float) -> float:
        """How good a value is: more is better."""
        return value if self.direction == "max" else -value


def goal_of(text: str) -> Goal:
    """Reads `max METRIC` or `min METRIC`; of several names it is the greatest or the least, if nothing else is said."""
    direction, _, rest = text.strip().partition(" ")
    if direction not in ("max", "min"):
        raise LabError(f"{text!r} is no goal: it begins with max or min")
    figure = figure_of(rest)
    return Goal(direction, Figure(figure.over or direction, figure.figure, figure.name))


@dataclass(frozen=True)
class Candidate:
    """A workload of the template: the number at each place that has a range, these ranges, and how good it is."""

    numbers: Numbers
    ranges: Ranges
    text: str
    score: float


@dataclass(frozen=True)
class Climb:
    """One climb: the best workload that it met, after how many runs, and if any run had the metric."""

    best: Candidate
    runs: int
    is_named: bool


class Space:
    """The workloads of a template, and how good each is under a policy. None is run twice."""

    def __init__(self, program: Program, policy: Source, template: Source, goal: Goal, seed: int) -> None:
        self.program, self.policy, self.goal, self.seed = program, policy, goal, seed
        self.path = str(template.path or template.name)
        self.template = templates.filled(template.text, {}, self.path)
        self.runs, self.is_named = 0, False
        self.scores: dict[str, float] = {}
        if not self.candidate({}).ranges:
            raise LabError(f"{self.path}: no number is a range [least, greatest], so there is nothing to search")

    def candidate(self, numbers: Mapping[str, int], seed: int | None = None) -> Candidate:
        """The workload with these numbers; others are drawn by the seed."""
        drawn = templates.drawn_by(self.seed if seed is None else seed)
        ranges: Ranges = {}
        used: Numbers = {}

        def choose(place: str, least: int, greatest: int) -> int:
            ranges[place] = (least, greatest)
            used[place] = min(max(numbers.get(place, drawn(place, least, greatest)), least), greatest)
            return used[place]

        text = templates.workload_of(self.template, self.path, choose)
        return Candidate(used, ranges, text, self.score(text))

    def score(self, text: str) -> float:
        """How good a workload is."""
        if text not in self.scores:
            self.runs += 1
            self.scores[text] = self.scored(text)
        return self.scores[text]

    def run(self, text: str) -> Run:
        """The run of a workload, whose file lasts until this thread calls it again."""
        file = thread_file("candidate")
        file.write_text(text)
        return Run(self.program, file_of(self.policy.text), file)

    def scored(self, text: str) -> float:
        """How good a workload is; one that is refused, or that lacks the metric, is worse than all others."""
        try:
            values = values_of(self.run(text).stats)
        except Refused as refusal:
            return self.without(refusal)
        found = self.goal.figure.matches(values)
        self.is_named |= bool(found)
        return self.goal.score(self.goal.figure.value(values)) if found else -inf

    def without(self, refusal: Refused) -> float:
        """A workload without tasks may come of a `count` from 0 on; any other refusal is for the user."""
        if str(refusal) == "refused: workload task: missing":
            return -inf
        raise refusal


def moved(numbers: Numbers, ranges: Ranges, dice: random.Random) -> Numbers:
    """The numbers with one or two of them changed."""
    changed = dict(numbers)
    for place in dice.sample(sorted(ranges), min(len(ranges), dice.choice([1, 1, 2]))):
        least, greatest = ranges[place]
        value = numbers[place]
        changed[place] = dice.choice([least, greatest, value - 1, value + 1, value // 2, value * 2,
                                      dice.randint(least, greatest), dice.randint(least, greatest)])
    return changed


def climb(space: Space, runs: int, seed: int) -> Climb:
    """The best of the workloads that are met in this many runs: from each beginning it goes on to neighbours that
    aren't worse, until many of them in turn weren't better."""
    dice, tries = random.Random(seed), 0
    best: Candidate | None = None
    while best is None or space.runs < runs and tries < 20 * runs:
        current, misses = space.candidate({}, dice.randrange(2**32)), 0
        while misses < PATIENCE and space.runs < runs and tries < 20 * runs:
            tries += 1
            other = space.candidate(moved(current.numbers, current.ranges, dice), dice.randrange(2**32))
            misses = 0 if other.score > current.score else misses + 1
            current = other if other.score >= current.score else current
        tries += 1
        best = current if best is None or current.score > best.score else best
    return Climb(best, space.runs, space.is_named)


def shrunk(space: Space, candidate: Candidate) -> Candidate:
    """A workload of the template that is as good, and none of whose numbers can be made smaller alone; numbers of tasks
    go first."""
    before = None
    while candidate is not before:
        before = candidate
        for place in sorted(candidate.ranges, key=lambda place: (not place.endswith(".count"), place)):
            candidate = next(as_good(space, candidate, place), candidate)
    return candidate


def as_good(space: Space, candidate: Candidate, place: str) -> Iterator[Candidate]:
    """Workloads with a smaller number at a place that are as good."""
    others = (space.candidate(candidate.numbers | numbers) for numbers in smaller(candidate, place))
    return (other for other in others if other.score >= candidate.score)


def smaller(candidate: Candidate, place: str) -> Iterator[Numbers]:
    """Changes by which the number at a place gets smaller: at once to the least, by half, by one; of a count also by
    each of the tasks, whose place the last one takes."""
    least, value = candidate.ranges.get(place, (0, 0))[0], candidate.numbers.get(place, 0)
    for number in sorted({least, (least + value) // 2, value - 1}):
        if least <= number < value:
            yield {place: number}
    if place.endswith(".count") and value > least:
        sort = place.removesuffix("count")
        for gone in range(1, value):
            last = {key.replace(f"{sort}{value}.", f"{sort}{gone}."): number
                    for key, number in candidate.numbers.items() if key.startswith(f"{sort}{value}.")}
            yield {place: value - 1} | last


@dataclass(frozen=True)
class Question:
    """What a search looks for, as a worker gets it."""

    path: str
    hash: str
    policy: Source
    template: Source
    goal: Goal

    def space(self, seed: int) -> Space:
        """The workloads that may answer it."""
        return Space(checked(self.path, self.hash), self.policy, self.template, self.goal, seed)


def climbed(question: Question, runs: int, seed: int) -> Climb:
    """On a worker: one climb."""
    return climb(question.space(seed), runs, seed)


@dataclass(frozen=True)
class Found:
    """The smallest workload that was found among the worst, the space in which it was looked for, all climbs, and the
    runs of all."""

    best: Candidate
    space: Space
    climbs: Sequence[Climb]
    runs: int


def search(program: Program, policy: Source, template: Source, goal: Goal, runs: int = 1000, seed: int = 0,
           workers: Workers = Workers(), tell: Callable[[int], object] = lambda done: None) -> Found:
    """Looks for the worst workload. The number of workers has no part in what is found."""
    question = Question(program.path, program.hash, policy, template, goal)
    count = max(1, runs // RUNS_OF_A_CLIMB)
    faults: list[Exception] = []
    climbs = []
    for results in done_in_batches(partial(climbed, question, ceil(runs / count)), range(seed, seed + count), workers,
                                   faults):
        climbs += results
        tell(sum(one.runs for one in results))
    if faults:
        raise faults[0]
    if not any(one.is_named for one in climbs):
        raise LabError(f"no workload of {template.path or template.name} has {goal.figure.figure}({goal.figure.name})")
    climbs.sort(key=lambda one: (-one.best.score, one.best.text))
    space = question.space(seed)
    best = shrunk(space, climbs[0].best)
    return Found(best, space, climbs, sum(one.runs for one in climbs) + space.runs)


def report(found: Found) -> str:
    """The workload as a file; comments at its top say how bad it is, and what happened in the longest wait."""
    space = found.space
    one = space.run(found.best.text)
    value = space.goal.score(found.best.score)
    lines = [f"{space.goal.text} is {shown(value)} under {name_of(space.policy)}.",
             f"The smallest of the worst that were found in {found.runs} runs of {space.path.rpartition('/')[2]}.",
             f"The policy is {one.state}." if one.state == "in force" else f"The policy was {one.state} ms."]
    lines += account_of(one, space.goal.figure)
    return "".join(f"# {line}".rstrip() + "\n" for line in lines) + found.best.text


def name_of(policy: Source) -> str:
    """The name of a policy's file, or of a text."""
    return policy.path.name if policy.path else policy.name
