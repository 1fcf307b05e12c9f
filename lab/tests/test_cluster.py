"""A sweep on a running cluster: a scheduler and two workers as processes of their own, one of which is killed."""

import json
import os
import signal
import subprocess
import sys
import time
from pathlib import Path

import pytest
from scxlab.clusters import Workers, client_of
from scxlab.command import main
from scxlab.errors import LabError
from scxlab.experiment import read_experiment
from scxlab.program import Program
from scxlab.store import Store
from scxlab.sweeps import plan, sweep, table

LAB = Path(__file__).resolve().parent.parent
EXPERIMENT = f"""policies = ["{LAB}/examples/slices.policy.toml"]
workload = "{LAB}/examples/mixed.toml"
[parameters]
slice = [2, 5]
typists = [2, 8]
seed = {{ from = 1, to = 75 }}
[figures]
longest = "max longest_wait_ms(typist*)"
"""
RUNS = 300


def started(module, *words):
    command = [sys.executable, "-m", f"distributed.cli.{module}", *map(str, words)]
    return subprocess.Popen(command, env=os.environ | {"PYTHONPATH": str(LAB / "src")}, stdout=subprocess.DEVNULL,
                            stderr=subprocess.DEVNULL)


def address_in(file, scheduler):
    for _ in range(600):
        if file.is_file():
            return json.loads(file.read_text())["address"]
        assert scheduler.poll() is None, "the scheduler ended"
        time.sleep(0.1)
    raise AssertionError("no scheduler came up in a minute")


@pytest.fixture
def cluster(tmp_path):
    """The address of a scheduler, and its two workers."""
    file = tmp_path / "scheduler.json"
    scheduler = started("dask_scheduler", "--host", "127.0.0.1", "--port", 0, "--no-dashboard", "--scheduler-file", file)
    processes = [scheduler]
    try:
        address = address_in(file, scheduler)
        for number in (1, 2):
            words = ("--nthreads", 1, "--no-nanny", "--no-dashboard", "--local-directory", tmp_path / str(number))
            processes.append(started("dask_worker", address, *words))
        yield address, processes[1:]
    finally:
        for process in processes:
            process.kill()
            process.wait()


@pytest.mark.slow
def test_nothing_is_lost_with_a_worker_that_is_killed_in_the_middle(cluster, tmp_path):
    address, workers = cluster
    (tmp_path / "e.toml").write_text(EXPERIMENT)
    experiment, program = read_experiment(tmp_path / "e.toml"), Program(os.environ["SCXSIM"])
    store, done = Store(tmp_path / "r.sqlite"), []

    def tell(count):
        done.append(count)
        if len(done) == 3:
            workers[0].kill()

    with client_of(scheduler=address) as client:
        client.wait_for_workers(2, timeout=60)
    outcome = sweep(plan(experiment, program, store), program, store, Workers(scheduler=address), tell)
    assert (outcome.due, outcome.done, outcome.faults) == (RUNS, RUNS, [])
    assert sum(done[:3]) < RUNS and workers[0].wait() != 0 and workers[1].poll() is None
    rows = table(plan(experiment, program, store), store)
    assert len(rows) == RUNS and rows.longest.notna().all()


def test_a_scheduler_that_does_not_answer_is_named(monkeypatch):
    monkeypatch.setattr("scxlab.clusters.SECONDS_TO_CONNECT", 0.5)
    with pytest.raises(LabError, match="no scheduler answers at 127.0.0.1:9"):
        with client_of(scheduler="127.0.0.1:9"):
            pass


@pytest.mark.slow
def test_ctrl_c_is_one_line(tmp_path):
    # A terminal sends it to all processes of the command. A job in the background of a shell ignores it.
    (tmp_path / "e.toml").write_text(EXPERIMENT.replace("to = 75", "to = 1000"))
    command = [sys.executable, "-m", "scxlab", "sweep", str(tmp_path / "e.toml"), "--local", "2"]
    with subprocess.Popen(command, env=os.environ | {"PYTHONPATH": str(LAB / "src")}, stdout=subprocess.DEVNULL,
                          stderr=subprocess.PIPE, text=True, start_new_session=True,
                          preexec_fn=lambda: signal.signal(signal.SIGINT, signal.default_int_handler)) as process:
        results = tmp_path / "e.sqlite"
        for _ in range(600):
            time.sleep(0.1)
            if results.is_file() and len(Store(results).keys()) > 20:
                break
        os.killpg(process.pid, signal.SIGINT)
        told = process.communicate(timeout=60)[1]
    assert (process.returncode, told) == (130, f"scxlab: interrupted; what was done is kept in {results}\n")


@pytest.mark.slow
def test_a_scheduler_without_workers_is_named_at_once(cluster, tmp_path, capfd, monkeypatch):
    address, workers = cluster
    for worker in workers:
        worker.kill()
    (tmp_path / "e.toml").write_text(EXPERIMENT)
    monkeypatch.setattr("scxlab.batches.SECONDS_WITHOUT_WORKERS", 3)
    with client_of(scheduler=address) as client:
        while client.nthreads():
            time.sleep(0.1)
    assert main(["sweep", str(tmp_path / "e.toml"), "--scheduler", address]) == 1
    told = capfd.readouterr().err.splitlines()
    assert told[0] == f"scxlab: no workers at {address}; waiting for one"
    assert told[-1].startswith(f"scxlab: no worker came to {address} in 3 s: start one with `dask worker")
