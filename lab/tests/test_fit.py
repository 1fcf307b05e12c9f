"""Workloads that are made of timelines: one of a timeline counted by hand, and those of the examples run again."""

import os
import re
import tomllib
import tracemalloc
from functools import cache
from itertools import chain
from pathlib import Path

import pytest
from scxlab.command import main
from scxlab.errors import LabError
from scxlab.fitting import fit
from scxlab.program import Program
from scxlab.timelines import read_timeline

PROGRAM = Program(os.environ["SCXSIM"])
EXAMPLES = Path(__file__).resolve().parent.parent.parent / "examples"
PAIRS = [(policy, workload) for policy in sorted(EXAMPLES.glob("policies/*.toml"))
         for workload in sorted(EXAMPLES.glob("workloads/*.toml"))]
# Each fifth pair has each policy and each workload.
SOME_AND_ALL = pytest.mark.parametrize(
    "pairs", [pytest.param(PAIRS[::5], id="some"), pytest.param(PAIRS, id="all", marks=pytest.mark.slow)])
HEAD = ['{"ph":"M","pid":1,"tid":0,"name":"thread_name","args":{"name":"CPU 0"}}',
        '{"ph":"M","pid":5,"tid":0,"name":"thread_name","args":{"name":"a"}}',
        '{"ph":"M","pid":5,"tid":1,"name":"thread_name","args":{"name":"b"}}']


def timeline(tmp_path, *events):
    """A timeline of one CPU: (`wake`, task, ms), and slices of `run` and `wait` as (what, task, ms, length)."""
    lines = list(HEAD)
    for what, task, at, *length in events:
        if what == "run":
            lines.append(f'{{"ph":"X","pid":1,"tid":0,"ts":{at * 1000},"dur":{length[0] * 1000},"name":"{task}"}}')
        elif what == "wait":
            lines.append(f'{{"ph":"X","pid":5,"tid":{"ab".index(task)},"ts":{at * 1000},"dur":{length[0] * 1000},"name":"queue 0"}}')
        else:
            lines.append(f'{{"ph":"i","pid":2,"tid":0,"ts":{at * 1000},"name":"{task}"}}')
    path = tmp_path / "t.json"
    path.write_text('{"displayTimeUnit":"ms","traceEvents":[\n' + ",\n".join(lines) + "\n]}")
    return path


def test_bursts_and_sleeps_are_those_between_wakes(tmp_path):
    # a: 2 ms from 0 on, sleeps 3, 1 ms from 5 and 1 from 8, sleeps 3 again, and runs as the run ends. b never sleeps.
    path = timeline(tmp_path, ("wake", "a", 0), ("wake", "b", 0), ("run", "a", 0, 2), ("run", "b", 2, 3), ("wake", "a", 5),
                    ("run", "a", 5, 1), ("run", "b", 6, 2), ("wait", "a", 6, 2), ("run", "a", 8, 1), ("run", "b", 9, 3),
                    ("wake", "a", 12), ("run", "a", 12, 1), ("wait", "b", 12, 1))
    plan = tomllib.loads(fit(path))
    assert (plan["cpus"], plan["ms"]) == (1, 13)
    assert plan["task"] == [{"name": "a", "group": "all", "start": 0, "run": 2, "sleep": 3},
                            {"name": "b", "group": "all", "start": 0}]


def test_what_is_lost_is_said(tmp_path):
    path = timeline(tmp_path, ("wake", "a", 1), ("run", "a", 1, 2), ("wake", "a", 5), ("run", "a", 5, 4), ("wake", "a", 12),
                    ("run", "a", 12, 1), ("wake", "c", 14))
    text = fit(path)
    assert "# lost: a: bursts of 1 to 4 ms are all 2 ms\n" in text
    assert "# lost: a: sleeps of 2 to 3 ms are all 2 ms\n" in text
    assert "# lost: groups, their weights and quotas aren't in a recording" in text
    assert "# lost: no processor was busy at 14 ms, so the run may have been longer\n" in text


def test_a_task_that_slept_once_sleeps_to_the_end(tmp_path):
    path = timeline(tmp_path, ("wake", "a", 0), ("run", "a", 0, 2), ("wake", "b", 0), ("run", "b", 2, 7))
    text = fit(path)
    assert tomllib.loads(text)["task"][0] == {"name": "a", "group": "all", "start": 0, "run": 2, "sleep": 7}
    assert "# lost: a: slept once and didn't wake again; it sleeps to the end of the run\n" in text


def ran(policy, workload):
    lines = PROGRAM.call("report", policy, workload).splitlines()
    return {line.split()[1]: int(line.split()[3]) for line in lines if line.startswith("task")}


@cache
def timeline_of(policy, workload):
    return PROGRAM.call("timeline", policy, workload)


def test_some_pairs_have_each_policy_and_each_workload():
    assert [set(each) for each in zip(*PAIRS[::5])] == [set(each) for each in zip(*PAIRS)]


@SOME_AND_ALL
def test_the_examples_run_as_before_within_2_percent(pairs, tmp_path):
    for policy, workload in pairs:
        (tmp_path / "t.json").write_text(timeline_of(policy, workload))
        (tmp_path / "w.toml").write_text(fit(tmp_path / "t.json", workload))
        before, after = ran(policy, workload), ran(policy, tmp_path / "w.toml")
        assert {task: pytest.approx(ms, rel=0.02) for task, ms in before.items()} == after, (policy, workload)


def test_events_are_written_in_the_order_of_a_millisecond(tmp_path, workloads):
    # a wakes at 0 and runs in 0 and 1; b wakes at 2 and runs in 2; a wakes again at 2 and is under way at the end.
    path = timeline(tmp_path, ("wake", "a", 0), ("run", "a", 0, 2), ("wake", "b", 2), ("run", "b", 2, 1), ("wake", "a", 2),
                    ("run", "a", 3, 1))
    plan = tomllib.loads(fit(path, as_events=True))
    assert plan["events"] == "0 wake a\n1 sleep a\n2 wake a\n2 wake b\n2 sleep b\n"
    assert plan["task"] == [{"name": "a", "group": "all"}, {"name": "b", "group": "all"}]


def test_changes_of_weights_are_events(tmp_path, policies, workloads):
    # Of weights.toml the first change and the names of groups and tasks are read by hand.
    changes = tomllib.loads((workloads / "weights.toml").read_text())["change"]
    (tmp_path / "t.json").write_text(PROGRAM.call("timeline", policies / "simple.toml", workloads / "weights.toml"))
    lines = tomllib.loads(fit(tmp_path / "t.json", workloads / "weights.toml", as_events=True))["events"].splitlines()
    first = changes[0]
    assert f"{first['at']} weight {first['group']} {first['weight']}" in lines


@SOME_AND_ALL
def test_events_of_a_run_make_the_same_run(pairs, tmp_path):
    for policy, workload in pairs:
        (tmp_path / "t.json").write_text(timeline_of(policy, workload))
        # A timeline doesn't say how long a run goes on in which nobody runs any more.
        ms = tomllib.loads(workload.read_text())["ms"]
        text = re.sub(r"^ms = \d+$", f"ms = {ms}", fit(tmp_path / "t.json", workload, as_events=True), flags=re.M)
        (tmp_path / "e.toml").write_text(text)
        # Nor does it say whether who runs to the very end goes to sleep there.
        assert before(ms - 1, "replay", policy, tmp_path / "e.toml") == before(ms - 1, "run", policy, workload)
        assert run_times("replay-csv", policy, tmp_path / "e.toml") == run_times("stats-csv", policy, workload)


def before(ms, *words):
    """The lines of a trace that come before a millisecond."""
    return [line for line in PROGRAM.call(*words).splitlines() if int(line.split()[0]) < ms]


def run_times(*words):
    return [line for line in PROGRAM.call(*words).splitlines() if ",run_ms," in line]


def test_a_change_of_a_task_is_an_event(tmp_path):
    path = timeline(tmp_path, ("wake", "a", 0), ("run", "a", 0, 9))
    (tmp_path / "w.toml").write_text('cpus = 1\nms = 9\n[[group]]\nname = "g"\n[[task]]\nname = "a"\ngroup = "g"\n'
                                     '[[change]]\nat = 4\ntask = "a"\nweight = 300\n')
    plan = tomllib.loads(fit(path, tmp_path / "w.toml", as_events=True))
    assert plan["events"] == "0 wake a\n4 task_weight a 300\n"


def test_a_timeline_is_not_kept_while_it_is_read():
    # 8,000 slices of one burst: 0.5 MB of lines, and 4 MB or more as objects. Threads of dask may hold memory too.
    lines = (f'{{"ph":"X","pid":1,"tid":0,"ts":{at * 1000},"dur":1000,"name":"a"}},\n' for at in range(8000))
    wake = '{"ph":"i","pid":2,"tid":0,"ts":0,"name":"a"},\n'
    tracemalloc.start()
    recording = read_timeline("t", chain([*HEAD, wake], lines))
    most = tracemalloc.get_traced_memory()[1]
    tracemalloc.stop()
    assert recording.ran("a") == 8000 and most < 2_000_000


def test_a_task_that_ends_is_told(tmp_path):
    path = timeline(tmp_path, ("wake", "a", 0), ("run", "a", 0, 2), ("wake", "a", 4), ("run", "a", 4, 2), ("wake", "b", 0),
                    ("run", "b", 6, 14))
    assert "# lost: a: didn't wake again after 6 ms; here it does\n" in fit(path)


def test_a_file_that_is_no_timeline_is_named(tmp_path, workloads, capsys):
    (tmp_path / "t.json").write_text("[]")
    assert main(["fit", str(tmp_path / "t.json")]) == 1
    assert "t.json: is no timeline of scxsim" in capsys.readouterr().err
    (tmp_path / "t.json").write_text('{"displayTimeUnit":"ms","traceEvents":[\n{"ph":"X","pid":1,"tid":0,"ts":0\n]}')
    with pytest.raises(LabError, match='t.json: is no timeline of scxsim: {"ph":"X","pid":1,"tid":0,"ts":0$'):
        fit(tmp_path / "t.json")
    (tmp_path / "t.json").write_text('{"displayTimeUnit":"ms","traceEvents":[\n]}')
    with pytest.raises(LabError, match="or nothing wakes in it"):
        fit(tmp_path / "t.json")
    path = timeline(tmp_path, ("wake", "z", 0), ("run", "z", 0, 2))
    with pytest.raises(LabError, match="has no task z"):
        fit(path, workloads / "two_tasks.toml")
    with pytest.raises(LabError, match="is no workload"):
        fit(path, path)
