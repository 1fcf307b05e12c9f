"""Slices, waits and bursts: of pages that were written and counted by hand, and of runs beside the program's figures."""

import json
import os
import struct
from base64 import encodebytes
from pathlib import Path

import pandas
import pytest
from scxlab import traces
from scxlab.errors import LabError
from scxlab.figures import values_of
from scxlab.program import Program
from scxlab.runs import Run

PROGRAM = Program(os.environ["SCXSIM"])
EXAMPLES = Path(__file__).resolve().parent.parent.parent / "examples"
PAIRS = [(policy, EXAMPLES / f"workloads/{workload}.toml") for policy in sorted(EXAMPLES.glob("policies/*.toml"))
         for workload in ("limited", "urgent")]
WAIT = 255
OVER, STOPPED, SLEPT, PARKED, RAN, WENT_ON, LET_GO = range(7)
GOES_ON, WOKE, WAS_STOPPED, WAS_LET_GO = range(0, 64, 16)
# The stretch began, or ended, as a millisecond ended.
LATE, TO_LATE = 64, 128


def page(names, ms, *rows):
    """A page with stretches: since, length, the task's number, the CPU, how it ended and began, the queue."""
    told = encodebytes(b"".join(struct.pack("<IIHBBHH", *row, 0) for row in rows)).decode()
    head = json.dumps({"ms": ms, "tasks": [{"name": name, "group": 0} for name in names]})
    return (f'<script id="head" type="application/json">{head}</script>\n'
            f'<script id="stretches" type="text/plain">\n{told}</script>\n')


def rows_of(table):
    return list(table.astype(object).itertuples(index=False, name=None))


# a runs for 2 ms between sleeps; b never sleeps; one processor, 6 ms. By millisecond: a a b b b a.
ONE_PROCESSOR = traces.stretches_of(page(
    "ab", 6, (0, 2, 0, 0, SLEPT | WOKE | TO_LATE, 0), (0, 2, 1, WAIT, RAN | WOKE | TO_LATE, 0),
    (2, 3, 1, 0, STOPPED | LATE | TO_LATE, 0), (3, 2, 0, WAIT, RAN | WOKE | TO_LATE, 0), (5, 1, 0, 0, OVER | LATE, 0),
    (5, 1, 1, WAIT, OVER | WAS_STOPPED | LATE, 0)))


def test_waits_begin_with_a_wake_or_a_stop_and_end_with_a_run_or_the_end():
    assert rows_of(traces.waits_of(ONE_PROCESSOR, "")) == [("a", 0, 0), ("b", 0, 1), ("a", 3, 1), ("b", 4, 2)]


def test_a_burst_goes_from_the_begin_of_its_wake_to_the_end_of_its_sleep():
    stretches = traces.stretches_of(page(
        "a", 20, (0, 2, 0, 0, SLEPT | WOKE | TO_LATE, 0), (5, 3, 0, WAIT, RAN | WOKE | TO_LATE, 0),
        (8, 2, 0, 0, SLEPT | LATE | TO_LATE, 0), (12, 1, 0, WAIT, SLEPT | WOKE | TO_LATE, 0), (15, 5, 0, 0, OVER | WOKE, 0)))
    # Milliseconds 0 and 1, alone; then 5 to 9, of which it ran in two; then 12 without a run; the last isn't finished.
    bursts = traces.bursts_of(stretches, "")
    assert rows_of(bursts.iloc[:2]) == [("a", 0, 2, 1.0), ("a", 5, 5, 2.5)]
    assert rows_of(bursts.iloc[2:, :3]) == [("a", 12, 1)] and bursts.slowdown.isna().tolist() == [False, False, True]


def test_slices_are_when_a_task_ran_or_was_parked():
    stretches = traces.stretches_of(page(
        "a", 20, (2, 3, 0, 1, PARKED | WOKE | TO_LATE, 0), (5, 1, 0, WAIT, LET_GO | WAS_STOPPED | LATE, 19),
        (6, 1, 0, WAIT, RAN | WAS_LET_GO | TO_LATE, 0), (7, 13, 0, 0, OVER | LATE, 0)))
    slices = traces.slices_of(stretches)
    assert rows_of(slices) == [("run", "a", 1, 2, 3), ("parked", "a", pandas.NA, 5, 1), ("run", "a", 0, 7, 13)]
    assert slices.cpu.dtype == "Int64"
    # It ran as it woke; it was parked as it stopped, and waits for no processor then; the third wait is of 6 alone.
    assert rows_of(traces.waits_of(stretches, "")) == [("a", 2, 0), ("a", 4, 0), ("a", 6, 0)]


def test_a_task_that_is_let_go_and_parked_again_at_once_waited_twice():
    stretches = traces.stretches_of(page(
        "a", 20, (0, 2, 0, 0, PARKED | WOKE | TO_LATE, 0), (2, 8, 0, WAIT, LET_GO | WAS_STOPPED | LATE, 19),
        (10, 10, 0, WAIT, OVER | WAS_LET_GO, 19)))
    assert rows_of(traces.waits_of(stretches, "")) == [("a", 0, 0), ("a", 1, 0), ("a", 10, 0)]


@pytest.mark.parametrize("lines, wait, finished", [
    ("3 stop a cpu 0\n3 insert a queue 0\n", 1, False),
    ("3 stop a cpu 0\n3 insert a queue 0\n3 run a cpu 0\n", 0, False),
    ("3 stop a cpu 0\n3 insert a queue 0\n3 sleep a\n", 0, True),
    ("3 stop a cpu 0\n3 insert a parked\n", 0, False)])
def test_what_comes_of_the_last_tick_is_in_the_trace(lines, wait, finished):
    stretches = traces.stretches_of(page("a", 4, (0, 4, 0, 0, STOPPED | WOKE | TO_LATE, 0)))
    trace = "0 wake a\n0 run a cpu 0\n" + lines
    assert rows_of(traces.waits_of(stretches, trace)) == [("a", 0, 0), ("a", 3, wait)]
    assert rows_of(traces.bursts_of(stretches, trace)) == ([("a", 0, 4, 1.0)] if finished else [])


def test_a_page_without_stretches_has_empty_tables():
    stretches = traces.stretches_of(page("a", 9))
    for table in (traces.slices_of(stretches), traces.waits_of(stretches, ""), traces.bursts_of(stretches, "")):
        assert table.empty and "task" in table


def test_a_page_of_another_version_is_named():
    with pytest.raises(LabError, match="the page of the run isn't of this version"):
        traces.stretches_of("<html></html>")


@pytest.mark.parametrize(
    "pairs", [pytest.param(PAIRS[::3], id="some"), pytest.param(PAIRS, id="all", marks=pytest.mark.slow)])
def test_tables_have_what_stats_says(pairs):
    for policy, workload in pairs:
        one = Run(PROGRAM, policy, workload)
        values = values_of(one.stats)
        for name in one.names("task"):
            waits = one.waits[one.waits.task == name]
            bursts = one.bursts[one.bursts.task == name]
            assert (len(waits), len(bursts)) == (values["waits", name], values["bursts", name])
            if len(waits):
                longest = waits[waits.wait_ms == values["longest_wait_ms", name]]
                assert longest.since_ms.min() == values["longest_wait_since_ms", name], (policy, workload, name)
                assert waits.wait_ms.mean() == pytest.approx(values["mean_wait_ms", name], abs=0.0101)
            if len(bursts):
                assert bursts.burst_ms.max() == values["longest_burst_ms", name], (policy, workload, name)
        assert slices_of_timeline(policy, workload) == sorted(rows_of(one.slices.fillna(-1)))


def slices_of_timeline(policy, workload):
    """The slices that the program draws in a timeline."""
    events = json.loads(PROGRAM.call("timeline", policy, workload))["traceEvents"]
    return sorted(("run", event["name"], event["tid"], *times_of(event)) if event["pid"] == 1 else
                  ("parked", event["name"], -1, *times_of(event))
                  for event in events if event["ph"] == "X" and event["pid"] in (1, 4))


def times_of(event):
    return event["ts"] // 1000, event["dur"] // 1000
