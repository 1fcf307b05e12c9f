"""Workers of dask: processes of this machine, those of a running cluster, or those of a caller's own client."""

import logging
import os
import signal
import tempfile
from collections.abc import Iterator
from contextlib import contextmanager
from dataclasses import dataclass
from multiprocessing import resource_tracker
from typing import Any

from scxlab.errors import LabError

SECONDS_TO_CONNECT = 10


@dataclass(frozen=True)
class Workers:
    """The workers that the user asks for: `count` processes of this machine, those of the scheduler at an address, or
    those of a client. Without all three the work begins in this process."""

    count: int | None = None
    scheduler: str | None = None
    client: Any = None

    @property
    def may_be_here(self) -> bool:
        """True if the user asks for no workers."""
        return self.count is None and self.scheduler is None and self.client is None

    @contextmanager
    def connected(self) -> Iterator[Any]:
        """A client. If it is the caller's own, it stays open."""
        if self.client is not None:
            yield self.client
            return
        with client_of(self.count, self.scheduler) as client:
            yield client


@contextmanager
def client_of(local: int | None = None, scheduler: str | None = None) -> Iterator[Any]:
    """A client of the scheduler at the address, or of `local` worker processes that end with it."""
    with client_at(scheduler) if scheduler else local_client(local) as client:
        yield client


def client_at(scheduler: str) -> Any:
    """A client of the scheduler at an address."""
    from distributed import Client

    try:
        return Client(scheduler, timeout=SECONDS_TO_CONNECT)
    except (OSError, ValueError) as error:
        raise LabError(f"no scheduler answers at {scheduler}") from error


@contextmanager
def local_client(count: int | None) -> Iterator[Any]:
    """A client of new worker processes, by default one for each CPU."""
    import dask
    from distributed import Client, LocalCluster

    count = count or len(os.sched_getaffinity(0))
    # To look a hundred times a second at what a worker does would take 30 % of its own time.
    with (dask.config.set({"distributed.worker.profile.enabled": False}),
          tempfile.TemporaryDirectory(prefix="scxlab-") as folder):
        with without_interrupts():
            cluster = LocalCluster(n_workers=count, threads_per_worker=1, dashboard_address="127.0.0.1:0",
                                   local_directory=folder, silence_logs=logging.CRITICAL)
        with cluster, Client(cluster) as client:
            yield client


@contextmanager
def without_interrupts() -> Iterator[None]:
    """Blocks Ctrl-C. Processes and threads that begin meanwhile keep it blocked: a terminal sends it to all
    processes, but this one alone has to end the others."""
    # Its start would end the blocking in the thread that begins a process.
    resource_tracker.ensure_running()
    before = signal.pthread_sigmask(signal.SIG_BLOCK, {signal.SIGINT})
    try:
        yield
    finally:
        signal.pthread_sigmask(signal.SIG_SETMASK, before)
