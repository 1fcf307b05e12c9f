"""Shares of work: the sizes of batches, where they are done, and what is said if no worker is there."""

import signal
from collections import deque

import pytest
from scxlab.batches import Pace, Presence, done_by, done_here, done_in_batches, stays_here, told_of
from scxlab.clusters import Workers, without_interrupts
from scxlab.errors import LabError


def doubled(number):
    if number == 13:
        raise LabError("13 isn't doubled")
    return 2 * number


def test_batches_take_half_a_second_and_get_smaller_to_the_end():
    pace = Pace()
    # Each of two threads has two batches in hand, and as many wait; 8 at most before the time of one is known.
    assert (pace.size(24, 2), pace.size(1000, 2)) == (3, 8)
    pace.learn(10, 0.05)
    assert pace.size(10_000, 2) == 100
    assert [pace.size(waiting, 2) for waiting in (400, 100, 10)] == [50, 13, 10]
    pace.learn(1, 99.95)
    assert pace.size(10_000, 2) == 1


def test_all_items_are_done_by_workers_and_faults_are_named(two_workers):
    faults = []
    found = [one for part in done_by(two_workers, doubled, deque(range(12)), faults) for one in part]
    assert sorted(found) == list(range(0, 24, 2)) and faults == []
    assert list(done_by(two_workers, doubled, deque([13]), faults)) == []
    assert [told_of(fault) for fault in faults] == ["13 isn't doubled"]


def test_both_workers_have_a_share_of_a_small_work(two_workers):
    from distributed import get_worker

    def name(_):
        import time

        time.sleep(0.05)
        return get_worker().address

    found = [one for part in done_by(two_workers, name, deque(range(24)), []) for one in part]
    assert len(found) == 24 and len(set(found)) == 2
    assert all(found.count(address) >= 8 for address in set(found))


def test_a_little_work_is_done_here():
    faults = []
    assert [one for part in done_in_batches(doubled, [1, 13, 2], Workers(), faults) for one in part] == [2, 4]
    assert [str(fault) for fault in faults] == ["13 isn't doubled"]
    assert stays_here(0.5, 1, 1000) and stays_here(2, 100, 10)
    assert not stays_here(2, 100, 1000)


def test_much_work_goes_to_workers_after_a_second(monkeypatch):
    monkeypatch.setattr("scxlab.batches.SECONDS_HERE", 0)
    monkeypatch.setattr("scxlab.batches.SECONDS_TO_START", 0)
    monkeypatch.setattr("scxlab.batches.SECONDS_BETWEEN_RESULTS", 0)
    waiting = deque([1, 2, 3])
    assert list(done_here(doubled, waiting, [])) == [[2]] and list(waiting) == [2, 3]


class NoWorkers:
    """A client whose scheduler has no worker."""

    class scheduler:
        address = "tcp://127.0.0.1:8786"

    def nthreads(self):
        return {}


def test_a_scheduler_without_workers_is_named_at_once_and_refused_later(monkeypatch, capsys):
    presence = Presence(NoWorkers())
    assert presence.threads() == 1
    assert capsys.readouterr().err == "scxlab: no workers at tcp://127.0.0.1:8786; waiting for one\n"
    assert presence.threads() == 1 and capsys.readouterr().err == ""
    monkeypatch.setattr("scxlab.batches.SECONDS_WITHOUT_WORKERS", 0)
    with pytest.raises(LabError, match="start one with `dask worker tcp://127.0.0.1:8786`"):
        presence.threads()


def test_what_begins_meanwhile_has_no_interrupts():
    with without_interrupts():
        assert signal.SIGINT in signal.pthread_sigmask(signal.SIG_BLOCK, [])
    assert signal.SIGINT not in signal.pthread_sigmask(signal.SIG_BLOCK, [])
