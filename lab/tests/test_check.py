"""Checks of runs that are counted in docs/FILES.md: of two tasks on one processor for 4 ms, in slices of 2 ms."""

import os
import re
import subprocess
import sys
from pathlib import Path

import pytest
from scxlab.account import account_of
from scxlab.checks import Failed, read_checks, reading_of
from scxlab.comparison import compare
from scxlab.program import find_program
from scxlab.sources import sources_of
from scxlab.errors import LabError
from scxlab.figures import figure_of
from scxlab.api import run

SOURCES = Path(__file__).resolve().parent.parent / "src"


@pytest.fixture
def one(policies, workloads):
    return run(policies / "short_slices.toml", workloads / "two_tasks.toml")


def told(one, line, folder=Path(".")):
    """What a line says of a run: nothing where it holds."""
    try:
        reading_of(line, folder, "f")(one)
    except Failed as failure:
        return str(failure)
    return None


@pytest.mark.parametrize("line", [
    "in force", "longest_wait_ms(a) <= 2", "longest_wait_ms(a)>=2", "longest_wait_ms(b) < 1.5", "max mean_wait_ms(*) == 1",
    "sum run_ms(*) == 4", "share(g) within 0 of due", "idle_while_waiting_ms(policy) == 0"])
def test_lines_that_hold(one, line):
    assert told(one, line) is None


def test_a_line_that_fails_shows_figure_bound_and_what_happened(one):
    lines = told(one, "longest_wait_ms(a) <= 1").splitlines()
    assert lines[0] == "longest_wait_ms(a) is 2, and the bound is <= 1"
    assert lines[1:] == account_of(one, figure_of("longest_wait_ms(a)")) != []


def test_shares_and_ejections_that_fail(policies, workloads):
    fair = run(policies / "simple.toml", workloads / "three_to_one.toml")
    assert told(fair, "share(web) within 24.9 of due").startswith(
        "share(web) is 50 %, 75 % were due, and the bound is within 24.9")
    assert told(fair, "share(web) within 25 of due") is None
    assert told(fair, "share(www) within 25 of due") == "the workload has no group www"
    # A held task that goes to sleep stays in the ring of central.toml, and is inserted while it sleeps.
    lost = run(policies / "central.toml", workloads / "sleeper.toml")
    assert told(lost, "in force").startswith("the policy was ejected fault ")


def test_what_became_slower_is_named(policies, workloads, tmp_path):
    table = compare(sources_of(policies / "short_slices.toml", "policy"),
                    sources_of(workloads / "two_tasks.toml", "workload"), find_program()).judged()
    table.to_csv(tmp_path / "main.csv", index=False)
    one = run(policies / "short_slices.toml", workloads / "two_tasks.toml")
    assert told(one, "not slower than main.csv by 5 %", tmp_path) is None
    table.loc[(table.figure == "mean_wait_ms") & (table.name == "a"), "value"] = 0.5
    table.to_csv(tmp_path / "main.csv", index=False)
    assert told(one, "not slower than main.csv by 5 %", tmp_path).startswith(
        "slower than main.csv by more than 5 %:\nmean_wait_ms(a) is 1, and was 0.5")
    assert told(one, "not slower than main.csv by 100 %", tmp_path) is None
    other = run(policies / "fifo.toml", workloads / "two_tasks.toml")
    assert told(other, "not slower than main.csv by 5 %", tmp_path).endswith("has no line of fifo and two_tasks.toml")


@pytest.mark.parametrize("text, wrong", [
    ("policies = ['a']\nworkloads = ['b']\nmust = ['in farce']\n", "must.0: 'in farce' says nothing that can be checked"),
    ("policies = ['a']\nworkloads = ['b']\nmust = ['longest(a) < 2']\n", "must.0: longest is an unknown figure"),
    ("policies = ['a']\nworkloads = ['b']\n", "must: missing"),
    ("policies = 'a'\n", "policies: wrong type"),
    ("policy = 'a'\n", "policy: unknown"),
    ("policies =\n", "not TOML"),
])
def test_what_is_wrong_with_a_file_is_named(tmp_path, text, wrong):
    (tmp_path / "f.check.toml").write_text(text)
    with pytest.raises(LabError, match=wrong):
        read_checks(tmp_path / "f.check.toml")


def test_the_command_is_pytest(policies, workloads, tmp_path):
    file = tmp_path / "two.check.toml"
    file.write_text(f'policies = ["{policies}/short_slices.toml", "{policies}/fifo.toml"]\n'
                    f'workloads = ["{workloads}/two_tasks.toml"]\nmust = ["longest_wait_ms(b) <= 1"]\n')
    report = tmp_path / "report.xml"
    done = subprocess.run([sys.executable, "-m", "scxlab", "check", str(file), "--options", f"--junitxml={report}"],
                          capture_output=True, text=True, env=os.environ | {"PYTHONPATH": str(SOURCES)}, cwd=tmp_path)
    assert done.returncode == 1
    assert "longest_wait_ms(b) is 4, and the bound is <= 1\n" in done.stdout
    assert re.search("^b waited 4 ms", done.stdout, re.M)
    assert "1 failed, 1 passed" in done.stdout
    assert 'tests="2"' in report.read_text() and 'failures="1"' in report.read_text()
