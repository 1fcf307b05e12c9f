"""What a notebook calls: columns, dtypes, paths and texts, a caller's own client, and the example of each docstring."""

import doctest
import os
import subprocess
import sys
from pathlib import Path

import pandas
import pytest
import scxlab
from scxlab import api, comparison, intervals
from scxlab.errors import LabError
from scxlab.runs import Run

TOP = Path(__file__).resolve().parent.parent.parent
SOURCES = TOP / "lab/src"
LOAD = 'cpus = 1\nms = 6\n[[group]]\nname = "g"\n[[task]]\nname = "a"\ngroup = "g"\nrun = 2\nsleep = 3\n'


def dtypes(table):
    return {name: str(dtype) for name, dtype in table.dtypes.items()}


@pytest.mark.parametrize("module", [scxlab, api, comparison, intervals])
def test_the_examples_of_docstrings_answer_what_they_say(module, monkeypatch):
    monkeypatch.chdir(TOP)
    done = doctest.testmod(module)
    assert done.failed == 0


def test_each_public_function_has_an_example():
    functions = [getattr(scxlab, name) for name in scxlab.__all__ if name[0].islower() and name != "find_program"]
    assert all(">>> " in function.__doc__ for function in functions)


def test_names_are_imported_when_they_are_used():
    assert {*scxlab.__all__} <= {*dir(scxlab)}
    with pytest.raises(AttributeError, match="has no attribute 'compere'"):
        scxlab.compere
    words = "import sys, scxlab.command; sys.exit('pandas' in sys.modules)"
    assert subprocess.run([sys.executable, "-c", words], env=os.environ | {"PYTHONPATH": str(SOURCES)}).returncode == 0


def test_slices_waits_and_bursts_have_their_columns(policies):
    # Alone on one CPU for 6 ms: it runs in 0 and 1, sleeps in 2 to 4, and runs again in 5.
    given = (policies / "fifo.toml", LOAD)
    slices, waits, bursts = scxlab.slices(*given), scxlab.waits(*given), scxlab.bursts(*given)
    assert slices.values.tolist() == [["run", "a", 0, 0, 2], ["run", "a", 0, 5, 1]]
    assert dtypes(slices) == {"kind": "string", "task": "string", "cpu": "Int64", "since_ms": "Int64", "length_ms": "Int64"}
    assert waits.values.tolist() == [["a", 0, 0], ["a", 5, 0]]
    assert dtypes(waits) == {"task": "string", "since_ms": "Int64", "wait_ms": "Int64"}
    assert bursts.values.tolist() == [["a", 0, 2, 1.0]]
    assert dtypes(bursts) == {"task": "string", "wake_ms": "Int64", "burst_ms": "Int64", "slowdown": "Float64"}


def test_a_run_shows_itself(policies, tmp_path):
    one = scxlab.run(policies / "fifo.toml", LOAD)
    assert repr(one) == "<run of fifo, workload>"
    assert one._repr_html_().startswith("<p><b>fifo, workload</b>: in force</p><table")
    assert one.cpus.index.tolist() == [0] and str(one.cpus.index.dtype) == "Int64"
    assert one.tasks.run_ms["a"] == 3 and str(one.tasks.run_ms.dtype) == "Int64"
    bad = scxlab.run('name = "bad"\n[code]\ninit = "r0 = r5"\n', LOAD)
    assert repr(bad) == "<run of bad, workload>" and "refused: verify init" in bad._repr_html_()


def test_compare_takes_paths_and_texts_and_answers_a_row_a_run(policies, workloads):
    text = (policies / "fifo.toml").read_text()
    table = scxlab.compare([text, policies / "short_slices.toml"], [str(workloads / "two_tasks.toml"), LOAD])
    assert table[["workload", "policy"]].values.tolist() == [
        ["two_tasks", "fifo"], ["two_tasks", "short_slices"], ["workload 2", "fifo"], ["workload 2", "short_slices"]]
    assert table.longest_wait_ms.tolist() == [4, 2, 0, 0]
    assert dtypes(table) == {
        "workload": "string", "policy": "string", "seed": "Int64", "state": "string", "share_off_percent": "Float64",
        "mean_wait_ms": "Float64", "longest_wait_ms": "Int64", "slowdown": "Float64", "changes": "Int64",
        "idle_while_waiting_ms": "Int64"}


def test_compare_by_task_group_and_cpu(policies, workloads):
    def table(by):
        return scxlab.compare(policies / "fifo.toml", workloads / "two_tasks.toml", by=by)

    assert table("task")[["task", "run_ms"]].values.tolist() == [["a", 4], ["b", 0]]
    assert table("group")[["group", "share_percent"]].values.tolist() == [["g", 100.0]]
    assert table("cpu")[["cpu", "busy_ms"]].values.tolist() == [[0, 4]]
    with pytest.raises(LabError, match="by is one of run, task, group, cpu, not 'queue'"):
        table("queue")


def test_a_refused_policy_has_a_row_without_metrics(workloads):
    table = scxlab.compare('[code]\ninit = "r0 = r5"\n', workloads / "two_tasks.toml")
    assert table.state[0].startswith("refused: verify init") and table.changes.isna().all()
    assert scxlab.summary(table).best.tolist() == [0]


@pytest.mark.slow
def test_a_client_of_ones_own_does_the_runs_and_stays_open(policies, workloads, two_workers):
    table = scxlab.compare(policies / "fifo.toml", workloads / "two_tasks.toml", client=two_workers)
    assert table.longest_wait_ms.tolist() == [4] and two_workers.status == "running"


def test_a_search_answers_a_workload_that_runs(policies, two_workers, monkeypatch):
    monkeypatch.setattr("scxlab.searches.RUNS_OF_A_CLIMB", 10)
    load = LOAD.replace("sleep = 3", "sleep = [1, 3]").replace("run = 2", "run = [1, 2]")
    found = scxlab.search(policies / "fifo.toml", load, "max run_ms(a)", runs=20, client=two_workers)
    # It runs most with bursts of 2 ms and sleeps of 1: in 0, 1, 3 and 4.
    assert dtypes(found) == {"goal": "string", "value": "Float64", "runs": "Int64", "workload": "string"}
    assert found.value.tolist() == [4, 4, 4] and found.goal[0] == "max run_ms(a)"
    assert scxlab.run(policies / "fifo.toml", found.workload[0]).tasks.run_ms["a"] == 4


def test_a_fit_answers_tasks_and_a_workload_that_runs(policies, tmp_path):
    timeline = tmp_path / "t.json"
    one = scxlab.run(policies / "fifo.toml", LOAD)
    timeline.write_text(one.program.call("timeline", one.policy, one.workload))
    table = scxlab.fit(timeline)
    assert table.values.tolist() == [["a", "all", 0, 2, 3]]
    assert dtypes(table) == {"task": "string", "group": "string", "start_ms": "Int64", "run_ms": "Int64", "sleep_ms": "Int64"}
    assert scxlab.run(policies / "fifo.toml", table.attrs["workload"]).tasks.run_ms["a"] == 3
    assert len(table.attrs["lost"]) == 1


@pytest.mark.parametrize("given, told", [([], "no policy is given"), (["x", "x"], "a policy is given twice"),
                                         ("nowhere.toml", "nowhere.toml is no file")])
def test_what_is_wrong_with_policies_is_named(workloads, given, told):
    with pytest.raises(LabError, match=told):
        scxlab.compare(given, workloads / "two_tasks.toml")


def test_a_binary_file_is_no_policy(workloads, tmp_path):
    (tmp_path / "p").write_bytes(b"\xff\xfe\x00")
    with pytest.raises(LabError, match="p is no text"):
        scxlab.compare(tmp_path / "p", workloads / "two_tasks.toml")


def test_the_spread_over_seeds():
    table = pandas.DataFrame({"policy": ["x"] * 3 + ["y"], "slice": [1, 1, 1, 2], "seed": [1, 2, 3, 1],
                              "state": "in force", "longest": [1, 2, 3, 5], "key": "k"})
    found = scxlab.spread(table)
    assert found[["policy", "slice", "runs", "longest"]].values.tolist() == [["x", 1, 3, 2.0], ["y", 2, 1, 5.0]]
    # 4.3027, the quantile of t, times 1, by the root of 3.
    assert found.longest_interval[0] == pytest.approx(2.4841, abs=1e-4) and found.longest_interval.isna()[1]


@pytest.mark.parametrize("x, by", [("slice", "policy"), ("policy", None), ("policy", "slice")])
def test_a_plot_is_the_same_each_time(x, by):
    table = pandas.DataFrame({"policy": ["x", "x", "y"], "slice": [1, 2, 1], "longest": [1, 2, 3]})
    picture = scxlab.plot(table, x, "longest", by)
    assert picture == scxlab.plot(table, x, "longest", by) and picture.startswith("<svg")
    assert repr(picture).startswith("<picture of") and picture._repr_html_().startswith("<img")


@pytest.mark.parametrize("y, told", [("longer", "has no column longer; it has policy, longest"), ("policy", "holds no numbers")])
def test_what_is_wrong_with_a_plot_is_named(y, told):
    table = pandas.DataFrame({"policy": ["x"], "longest": [1]})
    with pytest.raises(LabError, match=told):
        scxlab.plot(table, "policy", y)


def test_run_is_a_class_of_the_library():
    assert scxlab.Run is Run
