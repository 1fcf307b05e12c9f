"""Texts of `perf sched script`: a few lines counted by hand, and a recording of three tasks that perf itself has summed up."""

import os
import subprocess
import sys
import tomllib
from pathlib import Path

import pytest
from scxlab.command import main
from scxlab.errors import LabError
from scxlab.fitting import fit
from scxlab.perf import name_of, read_perf

SOURCES = Path(__file__).resolve().parent.parent / "src"
TYPISTS = Path(__file__).parent / "data/typists.perf.txt"

# a (8) runs from the beginning for 2 ms and sleeps; b (9) is woken and runs for 3 ms, then is stopped for 1 ms by a, which
# runs 1 ms, and runs on. Times are in seconds.
LINES = """\
a 8 [000] 5.002000: sched:sched_switch: prev_comm=a prev_pid=8 prev_prio=120 prev_state=S ==> next_comm=swapper/0 next_pid=0 next_prio=120
swapper 0 [000] 5.002500: sched:sched_stat_runtime: comm=a pid=8 runtime=2000000 [ns]
a 8 [000] 5.002000: sched:sched_waking: comm=Web Content pid=9 prio=120 target_cpu=000
swapper 0 [000] 5.003000: sched:sched_switch: prev_comm=swapper/0 prev_pid=0 prev_prio=120 prev_state=R ==> next_comm=Web Content next_pid=9 next_prio=120
swapper 0 [001] 5.005000: sched:sched_waking: comm=a pid=8 prio=120 target_cpu=000
Web Content 9 [000] 5.006000: sched:sched_switch: prev_comm=Web Content prev_pid=9 prev_prio=120 prev_state=R+ ==> next_comm=a next_pid=8 next_prio=120
a 8 [000] 5.007000: sched:sched_switch: prev_comm=a prev_pid=8 prev_prio=120 prev_state=D ==> next_comm=Web Content next_pid=9 next_prio=120
:-1 -1 [000] 5.010000: sched:sched_switch: prev_comm=Web Content prev_pid=9 prev_prio=120 prev_state=X ==> next_comm=swapper/0 next_pid=0 next_prio=120
"""
BEGIN = "b 7 [000] 5.000000: sched:sched_waking: comm=c pid=6 prio=120 target_cpu=000\n"


def recorded(text, unit=1000):
    return read_perf("perf.txt", text.splitlines(True), unit)


def bursts(recording, task):
    return [(pytest.approx(each.woke, abs=1e-6), pytest.approx(each.ran, abs=1e-6),
             each.slept and pytest.approx(each.slept, abs=1e-6)) for each in recording.bursts[task]]


def test_bursts_go_from_a_wake_to_a_switch_in_another_state_than_running():
    recording = recorded(BEGIN + LINES)
    assert bursts(recording, "a_8") == [(0, 2, 2), (5, 1, 7)]
    assert bursts(recording, "web_content_9") == [(2, 6, 10)]
    assert (recording.cpus, recording.end) == (2, pytest.approx(10))
    assert "1 tasks that woke and didn't run aren't here" in recording.losses


def test_another_unit_makes_other_milliseconds():
    assert bursts(recorded(BEGIN + LINES, unit=100), "a_8") == [(0, 20, 20), (50, 10, 70)]


def test_the_short_form_of_perf_is_read_too():
    recording = recorded("""\
swapper 0 [000] 5.000000: sched:sched_wakeup: x:1:9 [120] success=1 CPU:000
swapper 0 [000] 5.001000: sched:sched_switch: swapper/0:0 [120] R ==> x:1:9 [120]
x:1 9 [000] 5.004000: sched:sched_switch: x:1:9 [120] S ==> swapper/0:0 [120]
""")
    assert bursts(recording, "x_1_9") == [(0, 3, 4)]


def test_perf_begins_and_ends_with_one_processor_after_another():
    # Processor 1 is recorded from 3 to 6: x ran there from 3 to 5 and y from 5 to 6, though processor 0 goes on to 9.
    recording = recorded(BEGIN + """\
x 1 [001] 5.003000: sched:sched_stat_runtime: comm=x pid=1 runtime=2000000 [ns]
x 1 [001] 5.005000: sched:sched_switch: prev_comm=x prev_pid=1 prev_prio=120 prev_state=S ==> next_comm=y next_pid=2 next_prio=120
y 2 [001] 5.006000: sched:sched_stat_runtime: comm=y pid=2 runtime=1000000 [ns]
z 3 [000] 5.009000: sched:sched_stat_runtime: comm=z pid=3 runtime=1000000 [ns]
""")
    assert bursts(recording, "x_1") == [(3, 2, 5)]
    assert bursts(recording, "y_2") == [(5, 1, None)]
    assert recording.end == pytest.approx(9)


def test_lines_that_were_lost_make_no_burst_longer():
    # a is seen to stop at 7 though it slept at 2: what it ran in between isn't known.
    lost = "".join(line for line in LINES.splitlines(True) if "next_comm=a " not in line and "comm=a pid=8 prio" not in line)
    assert bursts(recorded(BEGIN + lost), "a_8") == [(0, 2, 2), (7, 0, 7)]


def test_tasks_ran_as_long_as_perf_says():
    # The column run-time of `perf sched timehist -s` of the same recording.
    recording = read_perf("typists", TYPISTS.read_text().splitlines(True), 1000)
    ran = {name: round(recording.ran(name), 2) for name in recording.bursts if not name.startswith("other")}
    assert ran == {"typist_21770": 30.69, "typist_21771": pytest.approx(53.385, abs=0.005), "builder_21775": 62.21}


def test_the_workload_has_the_load_of_the_recording(policies, tmp_path):
    # Each typist slept for 20 ms, and the builder never; in units of 0.1 ms.
    plan = tomllib.loads(fit(TYPISTS, unit=100, tasks=["typist*", "builder*"]))
    tasks = {task["name"]: task for task in plan["task"]}
    assert "run" not in tasks["builder_21775"]
    for name in ("typist_21770", "typist_21771"):
        assert tasks[name]["sleep"] == pytest.approx(200, rel=0.02)


def test_a_run_shorter_than_a_millisecond_has_a_longer_sleep(tmp_path):
    # Bursts of 0.25 ms and sleeps of 9.75 are 1 and 39.
    text = "".join(f"""\
s 0 [000] {at:.6f}: sched:sched_waking: comm=q pid=5 prio=120 target_cpu=000
s 0 [000] {at:.6f}: sched:sched_switch: prev_comm=s prev_pid=0 prev_prio=120 prev_state=R ==> next_comm=q next_pid=5 next_prio=120
q 5 [000] {at + 0.00025:.6f}: sched:sched_switch: prev_comm=q prev_pid=5 prev_prio=120 prev_state=S ==> next_comm=s next_pid=0 next_prio=120
""" for at in (1, 1.01, 1.02))
    (tmp_path / "perf.txt").write_text(text)
    told = fit(tmp_path / "perf.txt")
    assert tomllib.loads(told)["task"] == [{"name": "q_5", "group": "all", "start": 0, "run": 1, "sleep": 39}]
    assert "# lost: q_5: bursts of 0.25 ms are 1 ms\n# lost: q_5: sleeps of 9.75 ms are 39 ms\n" in told


def test_events_of_a_recording(tmp_path):
    # a sleeps from 2 to 5 and from 7 on; the other one wakes at 2 and ends at 10.
    (tmp_path / "perf.txt").write_text(BEGIN + LINES)
    plan = tomllib.loads(fit(tmp_path / "perf.txt", as_events=True))
    assert plan["events"] == "0 wake a_8\n1 sleep a_8\n2 wake web_content_9\n5 wake a_8\n6 sleep a_8\n9 sleep web_content_9\n"
    # In units of 5 ms it sleeps at 0.4 and wakes at 1; then it sleeps at 1.4.
    assert tomllib.loads(fit(tmp_path / "perf.txt", unit=5000, tasks=["a*"], as_events=True))["events"] == (
        "0 wake a_8\n0 sleep a_8\n1 wake a_8\n1 sleep a_8\n")
    # In units of 8 ms all that is one millisecond.
    told = fit(tmp_path / "perf.txt", unit=8000, tasks=["a*"], as_events=True)
    assert tomllib.loads(told)["events"] == "0 wake a_8\n0 sleep a_8\n"
    assert "# lost: 1 sleeps that ended in the millisecond in which they began aren't here\n" in told


@pytest.mark.parametrize("comm, name", [
    ("Web Content", "web_content_9"), ("migration/0", "migration_0_9"), ("9p", "t_9p_9"), ("<<<>>>", "t_9"),
    ("memfd:sealed-91", "memfd_sealed_9_9"), ("a_very_long_name_of", "a_very_long_na_9")])
def test_names_are_those_of_workloads(comm, name):
    assert name_of(comm, "9") == name and len(name) <= 16


def test_files_and_tasks_that_are_not_there_are_named(tmp_path, capsys):
    with pytest.raises(LabError, match="typists.perf.txt: has no task editor"):
        fit(TYPISTS, tasks=["editor*"])
    assert main(["fit", str(tmp_path / "nowhere")]) == 1
    assert capsys.readouterr().err.endswith("nowhere: No such file or directory\n")
    (tmp_path / "perf.txt").write_text("s 0 [000] 1.0: sched:sched_process_fork: comm=sh pid=5 child_comm=sh child_pid=6\n")
    with pytest.raises(LabError, match="has no line of sched_switch"):
        fit(tmp_path / "perf.txt")
    (tmp_path / "perf.data").write_bytes(b"PERFILE2\xff\xfe" + bytes(200))
    with pytest.raises(LabError, match="perf.data: is no timeline of scxsim, no text of perf sched script, and no file"):
        fit(tmp_path / "perf.data")


@pytest.mark.slow
def test_a_pipe_and_standard_input_are_read_whole(tmp_path):
    # A pipe can't be read twice, and its beginning is as much a part of the recording as the rest.
    whole = fit(TYPISTS)
    os.mkfifo(tmp_path / "pipe")
    for path in ("-", tmp_path / "pipe"):
        fitting = subprocess.Popen([sys.executable, "-m", "scxlab", "fit", str(path)], stdin=subprocess.PIPE,
                                   stdout=subprocess.PIPE, text=True, env=os.environ | {"PYTHONPATH": str(SOURCES)})
        with fitting.stdin if path == "-" else open(path, "w") as target:
            target.write(TYPISTS.read_text())
        assert fitting.stdout.read() == whole and fitting.wait() == 0
