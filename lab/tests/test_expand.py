"""The command `expand`, on a template whose tasks can be counted by hand."""

import os
import subprocess
import tomllib

import pytest
from scxlab.command import main

TEMPLATE = """cpus = 2
ms = {ms}
[[group]]
name = "g"
[[task]]
name = "worker"
group = "g"
count = 200
start = [0, 9]
"""


@pytest.fixture
def template(tmp_path):
    path = tmp_path / "t.toml"
    path.write_text(TEMPLATE)
    return str(path)


def expanded(capsys, *words):
    assert main(["expand", *words]) == 0
    return tomllib.loads(capsys.readouterr().out)


def test_a_count_is_written_out_and_each_range_is_a_number(template, capsys):
    plan = expanded(capsys, template, "ms=400")
    assert plan["ms"] == 400
    assert [task["name"] for task in plan["task"]] == [f"worker{number}" for number in range(1, 201)]
    assert all(set(task) == {"name", "group", "start"} for task in plan["task"])
    # Of 200 numbers from 0 to 9 each comes, but for a chance of 10 * 0.9 ** 200.
    assert {task["start"] for task in plan["task"]} == set(range(10))


def test_a_seed_draws_the_same_again_and_another_one_other_numbers(template, capsys):
    first, again, other = (expanded(capsys, template, "ms=400", "--seed", seed) for seed in "112")
    assert first == again != other


def test_the_program_takes_the_file(template, tmp_path, policies):
    path = tmp_path / "w.toml"
    assert main(["expand", template, "ms=400", "--output", str(path)]) == 0
    done = subprocess.run([os.environ["SCXSIM"], "report", policies / "fifo.toml", path], capture_output=True, text=True)
    assert done.returncode == 0
    assert done.stdout.count("task worker") == 200 and "total 800" in done.stdout


def test_a_parameter_wants_a_place_and_a_place_a_value(template, capsys):
    assert main(["expand", template]) == 1
    assert capsys.readouterr().err == f"scxlab: {template}: line 2: {{ms}} is no parameter\n"
    assert main(["expand", template, "ms=400", "cpus=4"]) == 1
    assert capsys.readouterr().err == f"scxlab: {template}: there is no place {{cpus}}\n"
