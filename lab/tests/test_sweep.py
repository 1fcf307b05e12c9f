"""Templates, experiments and sweeps, on a small experiment that can be counted by hand."""

import os
import signal
import sqlite3

import pytest
from hypothesis import given
from hypothesis import strategies as some
from scxlab import templates
from scxlab.clusters import Workers
from scxlab.command import main
from scxlab.errors import LabError
from scxlab.experiment import read_experiment
from scxlab.figures import figure_of, values_of
from scxlab.program import Program
from scxlab.store import Result, Store
from scxlab.sweeps import plan, sweep, table

POLICY = '''name = "slices"
[code]
init = """
r1 = 0
call 1001
exit
"""
enqueue = """
r4 = r2
r2 = 0
r3 = {slice}000000
call 1002
exit
"""
dispatch = """
r1 = 0
call 1004
exit
"""
'''
WORKLOAD = 'cpus = 1\nms = 40\n[[group]]\nname = "g"\n[[task]]\nname = "t"\ngroup = "g"\ncount = {tasks}\n'
EXPERIMENT = """policies = ["p.toml"]
workload = "w.toml"
[parameters]
slice = [2, 5]
tasks = [2, 4]
[figures]
longest = "max longest_wait_ms(t*)"
"""


@pytest.fixture
def folder(tmp_path):
    (tmp_path / "p.toml").write_text(POLICY)
    (tmp_path / "w.toml").write_text(WORKLOAD)
    (tmp_path / "e.toml").write_text(EXPERIMENT)
    return tmp_path


def run_all(folder, client, store=None):
    experiment, program = read_experiment(folder / "e.toml"), Program(os.environ["SCXSIM"])
    store = store or Store(folder / "r.sqlite")
    outcome = sweep(plan(experiment, program, store), program, store, Workers(client=client))
    return outcome, table(plan(experiment, program, store), store)


def test_who_runs_in_turn_waits_for_a_slice_of_each_other(folder, two_workers):
    outcome, rows = run_all(folder, two_workers)
    assert (outcome.due, outcome.done, outcome.faults) == (4, 4, [])
    # Slices of s ms and n tasks in turn: a wait of (n - 1) s.
    assert list(zip(rows.slice, rows.tasks, rows.longest)) == [(2, 2, 2), (2, 4, 6), (5, 2, 5), (5, 4, 15)]
    assert set(rows.state) == {"in force"}


def test_what_is_there_is_not_done_again(folder, two_workers):
    run_all(folder, two_workers)
    assert run_all(folder, None)[0].due == 0
    (folder / "e.toml").write_text(EXPERIMENT.replace("[2, 5]", "[2, 5, 3]"))
    outcome, rows = run_all(folder, two_workers)
    assert (outcome.due, outcome.done) == (2, 2)
    assert list(rows.longest) == [2, 6, 5, 15, 3, 9]


def test_figures_that_are_asked_for_later_are_there_too(folder, two_workers):
    run_all(folder, two_workers)
    (folder / "e.toml").write_text(EXPERIMENT + 'bursts = "sum bursts(t*)"\n')
    outcome, rows = run_all(folder, None)
    # No task sleeps, so no burst was finished.
    assert outcome.due == 0
    assert list(rows.longest) == [2, 6, 5, 15] and list(rows.bursts) == [0, 0, 0, 0]


def test_sql_asks_for_a_figure(folder, two_workers):
    run_all(folder, two_workers)
    with sqlite3.connect(folder / "r.sqlite") as base:
        rows = base.execute("SELECT state, max(longest_wait_ms) FROM runs JOIN tasks ON run = id GROUP BY id ORDER BY 2")
        assert rows.fetchall() == [("in force", 2), ("in force", 5), ("in force", 6), ("in force", 15)]
        # The one processor ran for all 40 ms.
        assert base.execute("SELECT DISTINCT name, busy_ms, idle_ms FROM cpus").fetchall() == [("0", 40, 0)]


def test_a_worker_that_is_ended_loses_nothing(folder, mortal_workers):
    (folder / "e.toml").write_text(EXPERIMENT.replace("[2, 5]", "{ from = 1, to = 10 }")
                                   .replace("[2, 4]", "{ from = 2, to = 11 }"))
    victim = min(mortal_workers.run(os.getpid).values())
    ended = []

    class Ending(Store):
        def add(self, program, results):
            if not ended:
                ended.append(os.kill(victim, signal.SIGKILL))
            super().add(program, results)

    outcome, rows = run_all(folder, mortal_workers, Ending(folder / "r.sqlite"))
    assert ended and outcome.faults == []
    assert (outcome.due, outcome.done, len(rows)) == (100, 100, 100)


def test_an_interrupted_sweep_keeps_what_was_done(folder, monkeypatch, capsys):
    monkeypatch.setattr("scxlab.batches.SECONDS_HERE", float("inf"))
    monkeypatch.setattr("scxlab.batches.SECONDS_BETWEEN_RESULTS", -1.0)
    (folder / "e.toml").write_text(EXPERIMENT.replace("[2, 5]", "{ from = 1, to = 10 }")
                                   .replace("[2, 4]", "{ from = 2, to = 5 }"))
    kept = []

    class Interrupted(Store):
        def add(self, program, results):
            super().add(program, results)
            kept.extend(results)
            raise KeyboardInterrupt

    with monkeypatch.context() as within:
        within.setattr("scxlab.store.Store", Interrupted)
        assert main(["sweep", str(folder / "e.toml")]) == 130
    assert capsys.readouterr().err == f"scxlab: interrupted; what was done is kept in {folder / 'e.sqlite'}\n"
    assert main(["sweep", str(folder / "e.toml")]) == 0
    due = 40 - len(kept)
    assert 0 < due < 40 and f"40 points, {due} runs were due, {due} done" in capsys.readouterr().out


def test_a_refused_point_is_named_and_the_others_are_kept(folder, capsys):
    (folder / "e.toml").write_text(EXPERIMENT.replace("[2, 4]", "[2, 1024, 0]").replace("[2, 5]", "[2]"))
    assert main(["sweep", str(folder / "e.toml")]) == 1
    told = capsys.readouterr()
    assert told.err == "scxlab: refused: workload task: missing (1 points)\n"
    assert "3 points, 3 runs were due, 3 done" in told.out


def test_a_sweep_over_seeds_prints_its_spread_and_draws_a_chart(folder, capsys):
    (folder / "w.toml").write_text("seed = {seed}\n" + WORKLOAD)
    (folder / "e.toml").write_text(EXPERIMENT.replace("tasks = [2, 4]", "tasks = [2]\nseed = [1, 2]"))
    assert main(["sweep", str(folder / "e.toml"), "--csv", str(folder / "t.csv"), "--plot", "slice", "longest", "policy"]) == 0
    told = capsys.readouterr().out.splitlines()
    assert told[0].startswith("4 points, 2 runs were due, 2 done")
    assert told[1].split() == ["policy", "slice", "tasks", "runs", "longest", "longest_interval"]
    # Two tasks in turn wait for one slice, whatever the seed.
    assert [line.split()[1:] for line in told[2:4]] == [["p", "2", "2", "2", "2.00", "0.00"], ["p", "5", "2", "2", "5.00", "0.00"]]
    assert told[4] == f"chart in {folder / 'e.svg'}" and (folder / "e.svg").read_text().startswith("<svg")
    assert len((folder / "t.csv").read_text().splitlines()) == 5


def test_a_parameter_may_have_fractions(folder, tmp_path):
    (folder / "w.toml").write_text(WORKLOAD + "# {part}\n")
    (folder / "e.toml").write_text(EXPERIMENT.replace("[2, 4]", "[2]\npart = [1, 2.5]"))
    assert [str(values["part"]) for _, values in read_experiment(folder / "e.toml").points()] == ["1", "2.5"] * 2


@pytest.mark.parametrize("was, becomes, told", [
    ("slice = [2, 5]\n", "", "p.toml: line 11: {slice} is no parameter"),
    ("slice =", "slyce = [1]\nslice =", "e.toml: parameters.slyce: no template has {slyce}"),
    ("slice = [2, 5]", "slice = []", "parameters.slice: is no list"),
    ("slice = [2, 5]", "slice = { from = 5, to = 2 }", "parameters.slice: is no list"),
    ("longest_wait_ms", "longest_weight_ms", "longest_weight_ms is an unknown figure: known are run_ms, waits"),
    ("max longest_wait_ms(t*)", "longest wait", "'longest wait' is no figure"),
    ('"p.toml"', '"q.toml"', "e.toml: policies: .*q.toml can't be read"),
    ("workload =", "workloads =", "e.toml: workloads: unknown"),
    ("[figures]", "[sample]\nruns = 5\n[figures]", "sample.runs: out of range, the grid has 4 points"),
    ("policies", "policies =", "e.toml: not TOML"),
])
def test_what_is_wrong_with_an_experiment_is_named(folder, was, becomes, told):
    assert was in EXPERIMENT
    (folder / "e.toml").write_text(EXPERIMENT.replace(was, becomes, 1))
    with pytest.raises(LabError, match=told.replace("{", "\\{")):
        read_experiment(folder / "e.toml")


def test_a_figure_that_no_run_has_is_named(folder, two_workers):
    (folder / "e.toml").write_text(EXPERIMENT.replace("t*", "u*"))
    with pytest.raises(LabError, match=r"figures.longest: no run has max longest_wait_ms\(u\*\)"):
        run_all(folder, two_workers)


# The tables of version 1, in which the figures were a text.
OLDER = """
CREATE TABLE version (version TEXT);
CREATE TABLE file (hash TEXT PRIMARY KEY, text TEXT);
CREATE TABLE run (
    key TEXT PRIMARY KEY, program TEXT, policy TEXT, workload TEXT, state TEXT, figures TEXT, counted INTEGER);
INSERT INTO version VALUES ('1');
"""


def test_files_of_results_of_another_version_or_none_are_named(tmp_path):
    with sqlite3.connect(tmp_path / "a") as base:
        base.executescript(OLDER)
    before = (tmp_path / "a").read_bytes()
    with pytest.raises(LabError, match="a is of version 1 of results, and this scxlab reads version 2"):
        Store(tmp_path / "a")
    assert (tmp_path / "a").read_bytes() == before
    (tmp_path / "b").write_text("no data base, but long enough to be looked at as one")
    with pytest.raises(LabError, match="b is no file of results"):
        Store(tmp_path / "b")


def test_a_figure_that_is_not_known_is_named_and_nothing_of_its_batch_is_kept(tmp_path):
    store = Store(tmp_path / "r.sqlite")
    known = Result("1", "p", "w", "in force", "kind,name,figure,value\ntask,a,waits,3\n")
    with pytest.raises(LabError, match="the program writes mood of a task"):
        store.add("hash", [known, Result("2", "p", "w", "in force", "kind,name,figure,value\ntask,a,mood,3\n")])
    assert store.keys() == set() and store.get("1") is None
    store.add("hash", [known, known])
    assert store.get("1") == ("in force", {("waits", "a"): 3})


def test_another_program_is_told_from_this_one(folder, two_workers):
    experiment, program = read_experiment(folder / "e.toml"), Program(os.environ["SCXSIM"])
    other = Program(str(folder / "w.toml"))
    other.__dict__["hash"] = program.hash
    store = Store(folder / "r.sqlite")
    outcome = sweep(plan(experiment, other, store), other, store, Workers(client=two_workers))
    assert (outcome.done, set(outcome.faults)) == (0, {f"a worker has another program at {other.path}"})


def test_a_sample_has_each_point_once_and_is_the_same_each_time(folder):
    text = EXPERIMENT.replace("[2, 5]", "{ from = 1, to = 30 }")
    (folder / "e.toml").write_text(text + "[sample]\nruns = 20\nseed = 3\n")
    points = [(values["slice"], values["tasks"]) for _, values in read_experiment(folder / "e.toml").points()]
    assert len(set(points)) == 20
    assert points == [(values["slice"], values["tasks"]) for _, values in read_experiment(folder / "e.toml").points()]
    (folder / "e.toml").write_text(text + "[sample]\nruns = 60\n")
    assert len({tuple(values.items()) for _, values in read_experiment(folder / "e.toml").points()}) == 60


def test_a_count_of_tasks_is_written_out():
    text = 'cpus = 1\nms = 9\n[[group]]\nname = "g"\n[[task]]\nname = "w"\ngroup = "g"\ncount = 2\nrun = 3\n'
    assert templates.workload_of(text, "w") == (
        'cpus = 1\nms = 9\n\n[[group]]\nname = "g"\n\n[[task]]\nname = "w1"\ngroup = "g"\nrun = 3\n'
        '\n[[task]]\nname = "w2"\ngroup = "g"\nrun = 3\n')


def test_a_plain_workload_goes_as_it_stands():
    text = '# two\ncpus = 2\nms=3\n[[group]]\nname="g"\n'
    assert templates.workload_of(text, "w") == text
    assert templates.workload_of("cpus =", "w") == "cpus ="


@given(some.integers(0, 2**70), some.integers(-5, 1000), some.integers(0, 1000))
def test_drawn_numbers_lie_in_their_range_and_depend_on_seed_and_place_alone(seed, least, more):
    number = templates.drawn_by(seed)("task.0.run", least, least + more)
    assert least <= number <= least + more
    assert number == templates.drawn_by(seed)("task.0.run", least, least + more)


@given(some.text())
def test_a_text_in_a_workload_is_read_back_as_it_was(text):
    import tomllib

    try:
        text.encode()
    except UnicodeEncodeError:
        return
    assert tomllib.loads(templates.written({"key": text, "task": [{"name": text}]})) == {
        "key": text, "task": [{"name": text}]}


def test_a_figure_over_several_names():
    values = values_of("kind,name,figure,value\ntask,w1,waits,3\ntask,w2,waits,5\ntask,x,waits,7\n")
    assert [figure_of(f"{over} waits(w*)").value(values) for over in ("max", "min", "sum", "mean")] == [5, 3, 8, 4]
    assert figure_of("waits(x)").value(values) == 7
    with pytest.raises(LabError, match="is 2 figures"):
        figure_of("waits(w*)").value(values)
