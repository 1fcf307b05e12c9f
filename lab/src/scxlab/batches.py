"""Many small pieces of work, in this process or on workers of dask, in batches that take about the same time."""

import sys
from collections import deque
from collections.abc import Callable, Iterable, Iterator
from dataclasses import dataclass
from math import ceil
from time import monotonic
from typing import Any, TypeVar

from scxlab.clusters import Workers
from scxlab.errors import LabError

Item = TypeVar("Item")
Done = TypeVar("Done")

SECONDS_OF_A_BATCH = 0.5
SHORTEST_BATCH = 0.05
FIRST_BATCH = 8
# New worker processes take about this long to start.
SECONDS_TO_START = 3.0
SECONDS_HERE = 1.0
SECONDS_BETWEEN_RESULTS = 0.25
SECONDS_WITHOUT_WORKERS = 60.0
# A worker has one batch in hand, and the next one beside it.
BATCHES_OF_A_THREAD = 2


@dataclass
class Pace:
    """The size of the next batch, by the time that the earlier ones took."""

    done: int = 0
    seconds: float = 0.0

    def learn(self, done: int, seconds: float) -> None:
        """Adds a batch that was done."""
        self.done += done
        self.seconds += seconds

    def size(self, waiting: int, threads: int) -> int:
        """The size of the next batch. It gets smaller to the end, so that all workers end at about the same time."""
        share = ceil(waiting / (2 * BATCHES_OF_A_THREAD * threads))
        if not self.done:
            return min(share, FIRST_BATCH)
        each = max(self.seconds / self.done, 1e-6)
        least, most = round(SHORTEST_BATCH / each), round(SECONDS_OF_A_BATCH / each)
        return max(1, min(most, max(least, share), waiting))


def done_in_batches(do: Callable[[Item], Done], items: Iterable[Item], workers: Workers,
                    faults: list[Exception]) -> Iterator[list[Done]]:
    """What `do` makes of each item, in lists as they come, in no order. If a batch fails, its error is added to the
    faults, and the others go on. If the user asks for no workers, new processes start only if much remains after a
    second."""
    waiting = deque(items)
    if workers.may_be_here:
        yield from done_here(do, waiting, faults)
    if waiting:
        with workers.connected() as client:
            yield from done_by(client, do, waiting, faults)


def done_here(do: Callable[[Item], Done], waiting: deque[Item], faults: list[Exception]) -> Iterator[list[Done]]:
    """Does items in this process, as long as that is quicker than to start workers."""
    begin = kept = monotonic()
    count, results = 0, []
    while waiting and stays_here(monotonic() - begin, count, len(waiting)):
        count += 1
        try:
            results.append(do(waiting.popleft()))
        except LabError as error:
            faults.append(error)
        if monotonic() - kept > SECONDS_BETWEEN_RESULTS:
            yield results
            kept, results = monotonic(), []
    if results:
        yield results


def stays_here(seconds: float, done: int, waiting: int) -> bool:
    """Returns whether the items that wait are done sooner here than workers start."""
    return not done or seconds < SECONDS_HERE or waiting * seconds / done < SECONDS_TO_START


def do_all(do: Callable[[Item], Done], items: list[Item]) -> tuple[list[Done], float]:
    """On a worker: does a batch, and measures its seconds."""
    begin = monotonic()
    return [do(item) for item in items], monotonic() - begin


def done_by(client: Any, do: Callable[[Item], Done], waiting: deque[Item],
            faults: list[Exception]) -> Iterator[list[Done]]:
    """Does items on the workers of a client."""
    pace, presence = Pace(), Presence(client)
    running: set[Any] = set()
    try:
        while waiting or running:
            threads = presence.threads()
            while waiting and len(running) < BATCHES_OF_A_THREAD * threads:
                batch = [waiting.popleft() for _ in range(pace.size(len(waiting), threads))]
                running.add(client.submit(do_all, do, batch, pure=False))
            for future in ended(running):
                running.discard(future)
                yield from results_of(future, pace, faults)
    finally:
        client.cancel(list(running))


def results_of(future: Any, pace: Pace, faults: list[Exception]) -> Iterator[list[Any]]:
    """The results of a batch that ended; nothing if it failed."""
    try:
        # If a worker ended with a result that it had told of, this waits until another has made it anew.
        results, seconds = future.result()
    except Exception as error:
        faults.append(error)
    else:
        pace.learn(len(results), seconds)
        yield results


def ended(running: set[Any]) -> list[Any]:
    """The batches that have ended, after a second at most."""
    from distributed import wait

    try:
        wait(running, timeout=1, return_when="FIRST_COMPLETED")
    except TimeoutError:
        return []
    return [future for future in running if future.done()]


class Presence:
    """The threads of a client's workers. If it has none, that is said at once, and refused after a minute."""

    def __init__(self, client: Any) -> None:
        self.client = client
        self.since: float | None = None

    def threads(self) -> int:
        """The threads of all workers, 1 at least."""
        count = sum(map(int, self.client.nthreads().values()))
        if count:
            self.since = None
        elif self.since is None:
            self.since = monotonic()
            print(f"scxlab: no workers at {self.address}; waiting for one", file=sys.stderr, flush=True)
        elif monotonic() - self.since > SECONDS_WITHOUT_WORKERS:
            raise LabError(f"no worker came to {self.address} in {SECONDS_WITHOUT_WORKERS:g} s: "
                           f"start one with `dask worker {self.address}`")
        return max(1, count)

    @property
    def address(self) -> str:
        """The address of the scheduler."""
        return str(self.client.scheduler.address)


def told_of(error: Exception) -> str:
    """A fault as one line."""
    from distributed.scheduler import KilledWorker

    if isinstance(error, KilledWorker):
        return "several workers ended while they did the same batch"
    return str(error) or type(error).__name__
