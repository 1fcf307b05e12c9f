"""Files of rt-app, counted by hand."""

import os
import tomllib

import pytest
from scxlab.errors import LabError
from scxlab.fitting import fit
from scxlab.program import Program

# As rt-app's own examples have them: comments, numbers after the names of events, times in microseconds.
PHASES = """{
    /* one light and one heavy phase */
    "tasks" : {
        "Render Thread" : {
            "instance" : 2,
            "loop" : -1,
            "phases" : {
                "light" : { "loop" : 2, "run" : 1000, "sleep" : 4000 },
                "heavy" : { "run0" : 3000, "run1" : 1000, "sleep" : 6000 } // 4 ms in all
            }
        },
        "9late" : { "loop" : 1, "sleep0" : 5000, "run" : 2000, "sleep1" : 1000 }
    },
    "global" : { "duration" : 1, "calibration" : "CPU0", "default_policy" : "SCHED_OTHER" }
}
"""


def rt_app(tmp_path, tasks, **more):
    path = tmp_path / "r.json"
    path.write_text('{"tasks": %s, "global": {"duration": 1}}' % tasks if not more else more["text"])
    return path


def test_a_task_has_a_run_and_a_sleep(tmp_path):
    plan = tomllib.loads(fit(rt_app(tmp_path, '{"a": {"run": 2000, "sleep": 3000}, "b": {"instance": 2, "run": 500000}}')))
    assert (plan["cpus"], plan["ms"]) == (1, 1000)
    assert plan["task"] == [{"name": "a", "group": "all", "start": 0, "run": 2, "sleep": 3},
                            {"name": "b_1", "group": "all", "start": 0}, {"name": "b_2", "group": "all", "start": 0}]


def test_phases_are_bursts_that_differ(tmp_path):
    text = fit(rt_app(tmp_path, None, text=PHASES))
    tasks = {task["name"]: task for task in tomllib.loads(text)["task"]}
    # Of 20 ms a round takes 1 + 4 + 1 + 4 + 4 + 6: bursts of 2 and sleeps of 14 / 3 on average; there are 50 rounds.
    both = {"group": "all", "start": 0, "run": 2, "sleep": 5}
    assert tasks["render_thread_1"] == both | {"name": "render_thread_1"}
    assert tasks["render_thread_2"] == both | {"name": "render_thread_2"}
    assert tasks["t_9late"] == {"name": "t_9late", "group": "all", "start": 5, "run": 2, "sleep": 993}
    assert "# lost: a file of rt-app doesn't say how many processors there are; here is one\n" in text
    assert "# lost: render_thread_1: bursts of 1 to 4 ms are all 2 ms\n" in text


def test_events_are_those_of_the_phases(tmp_path):
    lines = tomllib.loads(fit(rt_app(tmp_path, None, text=PHASES), as_events=True, tasks=["*_1"]))["events"].splitlines()
    assert lines[:8] == [f"{at} {what} render_thread_1" for at, what in (
        (0, "wake"), (0, "sleep"), (5, "wake"), (5, "sleep"), (10, "wake"), (13, "sleep"), (20, "wake"), (20, "sleep"))]
    assert len(lines) == 300


def test_the_program_runs_it(tmp_path, policies):
    (tmp_path / "w.toml").write_text(fit(rt_app(tmp_path, '{"a": {"run": 2000, "sleep": 3000}}')))
    # Alone it runs for 2 ms of 5.
    report = Program(os.environ["SCXSIM"]).call("report", policies / "fifo.toml", tmp_path / "w.toml")
    assert report.startswith("task a run 400 ")


def test_without_a_duration_it_ends_with_the_last_loop(tmp_path):
    text = '{"tasks": {"a": {"loop": 3, "run": 2000, "sleep": 3000}, "b": {"loop": 1, "run": 20000, "sleep": 9}}}'
    plan = tomllib.loads(fit(rt_app(tmp_path, None, text=text)))
    assert plan["ms"] == 20 and plan["task"][0] == {"name": "a", "group": "all", "start": 0, "run": 2, "sleep": 3}


def test_another_unit_makes_other_milliseconds(tmp_path):
    plan = tomllib.loads(fit(rt_app(tmp_path, '{"a": {"run": 200, "sleep": 300}}'), unit=100))
    assert plan["ms"] == 10_000 and plan["task"][0]["run"] == 2


@pytest.mark.parametrize("tasks, told", [
    ('{"a": {"run": 1, "timer": {"ref": "tick", "period": 5}}}', "tasks.a.timer: no workload has it"),
    ('{"a": {"run": 1, "priority": 5}}', "tasks.a.priority: no workload has it"),
    ('{"a": {"runtime": 1}}', "tasks.a.runtime: no workload has it"),
    ('{"a": {"phases": {"p": {"lock": "m"}}}}', "tasks.a.phases.p.lock: no workload has it"),
    ('{"a": {"phases": {}, "cpus": [0]}}', "tasks.a.cpus: no workload has it"),
    ('{"a": {"run": 1.5}}', "tasks.a.run: wrong type"),
    ('{"a": {"run": -1}}', "tasks.a.run: out of range"),
    ('{"a": {"instance": 0, "run": 1}}', "tasks.a.instance: out of range"),
    ('{"a": {"run": 1, "run": 2}}', "run: twice"),
    ('{"a": {"run": 1}, "A": {"run": 1}}', "tasks.A: another task is a too"),
    ('{"a": {"run": 0, "sleep": 0}}', "a: more than 1000 runs and sleeps; give a duration, or longer ones"),
    ('{"a": {"loop": -1, "phases": {"p": {"loop": 0, "run": 1}}}}', "a: more than 1000 runs and sleeps"),
    ('{"a": [1]}', "tasks.a: wrong type"),
    ('{}', "tasks: missing"),
    ('{"a": {"run" 1}}', "is no JSON: Expecting ':' delimiter: line 1"),
])
def test_what_is_not_read_is_named(tmp_path, monkeypatch, tasks, told):
    monkeypatch.setattr("scxlab.rtapp.MOST_STEPS", 1000)
    with pytest.raises(LabError, match=f"r.json: {told}"):
        fit(rt_app(tmp_path, tasks))


@pytest.mark.parametrize("text, told", [
    ('{"tasks": {"a": {"run": 1}}, "resources": {}}', "resources: no workload has it"),
    ('{"tasks": {"a": {"run": 1}}, "global": {"default_policy": "SCHED_FIFO"}}', "global.default_policy: no workload has"),
    ('{"tasks": {"a": {"run": 1}}, "global": {"io_device": "/dev/null"}}', "global.io_device: no workload has it"),
    ('{"tasks": {"a": {"sleep": 1000}}, "global": {"duration": 1}}', "has no task *"),
])
def test_what_no_workload_has_at_the_top_is_named(tmp_path, text, told):
    with pytest.raises(LabError, match=told.replace("*", r"\*")):
        fit(rt_app(tmp_path, None, text=text))
