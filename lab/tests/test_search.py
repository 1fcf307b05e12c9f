"""Searches whose worst workload can be reckoned by hand."""

import os
import re
import tomllib

import pytest
from hypothesis import given
from hypothesis import strategies as some
from scxlab.command import main
from scxlab.errors import LabError, Refused
from scxlab.figures import KNOWN
from scxlab.program import Program
from scxlab.searches import goal_of, moved, report, search
from scxlab.sources import source_of

TEMPLATE = """cpus = 1
ms = [80, 200]
[[group]]
name = "g"
[[task]]
name = "w"
group = "g"
count = [0, 3]
[[task]]
name = "a"
group = "g"
start = [0, 30]
run = [1, 5]
sleep = [0, 9]
"""


@pytest.fixture
def template(tmp_path):
    path = tmp_path / "load.toml"
    path.write_text(TEMPLATE)
    return path


def found(policy, template, goal, **more):
    return search(Program(os.environ["SCXSIM"]), source_of(policy, "policy"), source_of(template, "template"), goal_of(goal),
                  **more)


def test_the_longest_wait_behind_slices_of_20_ms_is_found_and_made_smallest(policies, template):
    # Three others never sleep and use 20 ms each, at best from the millisecond on in which a wakes: it runs with the tick
    # of the 60th millisecond. A task of 5 ms at most is never stopped, so no wait is longer.
    worst = found(policies / "fifo.toml", template, "max longest_wait_ms(a)", runs=150)
    best = worst.best
    assert best.score == 59
    assert best.numbers == {"ms": 80, "task.0.count": 3, "task.1.start": 0, "task.1.run": 1, "task.1.sleep": 0}
    text = report(worst)
    assert "# max longest_wait_ms(a) is 59 under fifo.toml.\n" in text
    assert re.search("^# a waited (for )?59 ms", text, re.M)
    assert [task["name"] for task in tomllib.loads(text)["task"]] == ["w1", "w2", "w3", "a"]


def test_the_least_is_found_too(policies, template):
    best = found(policies / "fifo.toml", template, "min longest_wait_ms(a)", runs=60).best
    assert (best.score, best.numbers["task.0.count"]) == (0, 0)


def test_the_same_seed_finds_the_same(policies, template):
    def text(seed):
        return report(found(policies / "sticky.toml", template, "max mean_wait_ms(*)", runs=20, seed=seed))

    assert text(5) == text(5)


def test_figures_that_are_counted_from_traces_can_be_a_goal(policies, template):
    # One burst of r ms takes the longest after three slices: 60 ms and its own r, by r, so 61 with r = 1.
    best = found(policies / "fifo.toml", template, "max slowdown(a)", runs=60).best
    assert best.score == 61 and best.numbers["task.1.run"] == 1


@pytest.mark.parametrize("goal, told", [
    ("longest_wait_ms(a)", "is no goal: it begins with max or min"),
    ("max longest(a)", "longest is an unknown figure: known are run_ms"),
    ("max longest_wait_ms", "is no figure: write one as"),
])
def test_what_is_wrong_with_a_goal_is_named(goal, told):
    with pytest.raises(LabError, match=told):
        goal_of(goal)


def test_a_goal_of_a_task_that_is_not_there_is_named(policies, template):
    with pytest.raises(LabError, match=r"no workload of .*load.toml has longest_wait_ms\(b\)"):
        found(policies / "fifo.toml", template, "max longest_wait_ms(b)", runs=20)


def test_a_template_without_ranges_is_named(policies, workloads):
    with pytest.raises(LabError, match="so there is nothing to search"):
        found(policies / "fifo.toml", workloads / "two_tasks.toml", "max longest_wait_ms(a)")


def test_a_refused_policy_and_a_refused_template_are_named(policies, template, tmp_path):
    bad = tmp_path / "bad.toml"
    bad.write_text('[code]\ninit = "r0 = r5"\n')
    with pytest.raises(Refused, match="refused: verify init"):
        found(bad, template, "max longest_wait_ms(a)", runs=20)
    template.write_text(TEMPLATE.replace("cpus = 1", "cpus = 65"))
    with pytest.raises(Refused, match="refused: workload cpus: out of range"):
        found(policies / "fifo.toml", template, "max longest_wait_ms(a)", runs=20)


def test_the_command_writes_a_workload_that_the_program_runs(policies, template, tmp_path, capsys):
    target = tmp_path / "worst.toml"
    words = ["search", str(policies / "fifo.toml"), str(template), "--goal", "max longest_wait_ms(a)", "--runs", "30"]
    assert main([*words, "--output", str(target)]) == 0
    value = capsys.readouterr().out.split(" is ")[1].split()[0]
    figures = Program(os.environ["SCXSIM"]).call("stats-csv", policies / "fifo.toml", target)
    assert f"task,a,longest_wait_ms,{value}\n" in figures


@given(some.dictionaries(some.sampled_from(["x", "y", "z"]), some.integers(-9, 9), min_size=1), some.randoms())
def test_a_move_changes_two_numbers_at_most(numbers, dice):
    changed = moved(numbers, {place: (-9, 9) for place in numbers}, dice)
    assert changed.keys() == numbers.keys()
    assert sum(changed[place] != numbers[place] for place in numbers) <= 2


def test_the_figures_of_stats_are_known(policies, workloads):
    written = Program(os.environ["SCXSIM"]).call("stats-csv", policies / "fifo.toml", workloads / "limited.toml")
    assert {line.split(",")[2] for line in written.splitlines()[1:]} <= {*KNOWN, "ended"}
