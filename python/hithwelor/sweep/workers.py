"""Who answers the batches of a sweep: processes of this machine, or the workers of a Dask scheduler.

A pool has `room`, how many batches may be under way; `submit`, which gives a future; `result`, its answer; `mended`, which
says whether the pool works again after a future's exception; and `end`, which leaves no process behind. `answers_in_order`
hands out batches that take about its `target` of seconds, so that handing them out is little beside their work, and gives
the answers in order.
"""
from __future__ import annotations

import contextlib
import ctypes
import logging
import math
import multiprocessing
import os
import signal
import sys
import threading
import time
from collections import deque
from collections.abc import Iterator
from concurrent.futures import Future, ProcessPoolExecutor, TimeoutError
from concurrent.futures.process import BrokenProcessPool
from typing import Any, Union

from ..answers import Unavailable
from ..faults import Fault
from .cases import Batch, Plan
from .limited import end_with, kill_group
from .rows import Answer, work

AHEAD = 4
GROWTH = 8
MOST_GROUPS = 50_000
MOST_BREAKS = 3
PATIENCE, EVERY, LOOK = 20, 2, 1
# Two settings of the C library's malloc by their numbers, and what they are given: the greatest that the first one takes,
# and enough for the second one not to matter.
M_TRIM_THRESHOLD, M_MMAP_THRESHOLD = -1, -3
LARGE, KEPT = 1 << 25, 1 << 30


class Local:
    """Processes of this machine."""

    target = 0.25

    def __init__(self, jobs: int) -> None:
        self.jobs = jobs
        self.start()

    def start(self) -> None:
        context = multiprocessing.get_context("spawn")
        self.pool = ProcessPoolExecutor(self.jobs, mp_context=context, initializer=end_with, initargs=(os.getpid(),))

    def room(self) -> int:
        return self.jobs * AHEAD

    def submit(self, batch: Batch) -> Future[Answer]:
        with interrupts_held():
            try:
                return self.pool.submit(work, batch)
            except BrokenProcessPool:
                self.renew()
                return self.pool.submit(work, batch)

    def result(self, future: Future[Answer]) -> Answer:
        """The answer of a batch. A process that dies while it hands in a large answer leaves the others, and the pool's
        own thread, waiting for its rest: so where one has died all are ended, and the pool tells it."""
        while True:
            try:
                return future.result(timeout=LOOK)
            except TimeoutError:
                if not all(process.is_alive() for process in list((self.pool._processes or {}).values())):
                    self.kill()

    def renew(self) -> None:
        """A process that died leaves a pool that answers nothing more: a new one takes its place."""
        self.kill()
        self.pool.shutdown(wait=False, cancel_futures=True)
        self.start()

    def mended(self, error: Exception) -> bool:
        if not isinstance(error, BrokenProcessPool):
            return False
        self.renew()
        return True

    def end(self) -> None:
        """Ends all processes, whatever they do, and then the pool's own thread: Python's end would fall over it."""
        self.kill()
        self.pool.shutdown(wait=True, cancel_futures=True)

    def kill(self) -> None:
        """Kills the pool's processes, and closes the pipes by which its own threads may still be reading from them or
        writing to them: they would wait for ever, and Python's end for them. From 3.11.5 on Python sees to the writing.
        """
        for process in multiprocessing.active_children():
            if process.pid is not None:
                kill_group(process.pid)
            process.kill()
        # The pipes are the pool's own affair, and no type tells of them.
        pool: Any = self.pool
        with contextlib.suppress(OSError):
            pool._result_queue._writer.close()
        if sys.version_info < (3, 11, 5):
            let_go(pool._call_queue._reader)


@contextlib.contextmanager
def interrupts_held() -> Iterator[None]:
    """Lets Ctrl-C wait until the processes that are being started have been: one whose start is broken off finds nothing to
    read from its parent, and says so in a traceback."""
    if threading.current_thread() is not threading.main_thread():
        yield
        return
    came: list[int] = []
    before = signal.signal(signal.SIGINT, lambda number, frame: came.append(number))
    try:
        yield
    finally:
        signal.signal(signal.SIGINT, before)
    if came:
        raise KeyboardInterrupt


def let_go(end: Any) -> None:
    """Closes the pipe behind this end of it, and leaves its number open, on nothing: a thread of the pool closes the number
    itself, perhaps at this moment, and would fall over one that is closed."""
    with contextlib.suppress(OSError), open(os.devnull, "rb") as nothing:
        os.dup2(nothing.fileno(), end.fileno(), inheritable=False)


def keep_memory() -> None:
    """Lets the C library keep what is freed for the next answer, as it does by itself. Dask starts its workers with a variable
    by which it gives back all above 64 KB, so that each answer would be given its memory anew, page by page."""
    with contextlib.suppress(AttributeError, OSError):
        mallopt = ctypes.CDLL(None).mallopt
        mallopt(M_MMAP_THRESHOLD, LARGE)
        mallopt(M_TRIM_THRESHOLD, KEPT)


def work_there(batch: Batch) -> Answer:
    """Answers a batch: what a worker of a cluster does."""
    keep_memory()
    return work(batch)


class Cluster:
    """The workers of a Dask scheduler. One that dies has its batches made by the others: the scheduler sees to that."""

    target = 0.5

    def __init__(self, address: str) -> None:
        try:
            import distributed
        except ImportError:
            raise Fault(
                "--scheduler needs Dask's package distributed: install it by pip, or as python3-distributed"
            ) from None
        logging.disable(logging.CRITICAL)
        self.threads, self.asked = 1, -math.inf
        self.address, self.lost = address, (distributed.client.CancelledError, OSError)
        try:
            self.client = distributed.Client(address, timeout=PATIENCE / 4)
        except (OSError, ValueError) as error:
            why = str(error).split("\n", 1)[0] or type(error).__name__
            raise Fault(
                f"no scheduler answers at {address} ({why}): start one by `dask scheduler`, or leave --scheduler out"
            ) from None
        try:
            self.client.wait_for_workers(1, timeout=PATIENCE)
        except (distributed.TimeoutError, TimeoutError):
            self.end()
            raise Fault(f"the scheduler at {address} has no worker: start one by `dask worker {address}`") from None

    def room(self) -> int:
        """So many batches for each thread of a worker; the scheduler is asked for them now and then."""
        if time.monotonic() - self.asked > EVERY:
            with self.there():
                workers = self.client.scheduler_info()["workers"].values()
            self.threads, self.asked = max(1, sum(worker["nthreads"] for worker in workers)), time.monotonic()
        return self.threads * AHEAD

    def submit(self, batch: Batch) -> Any:
        with self.there():
            return self.client.submit(work_there, batch, pure=False)

    def result(self, future: Any) -> Answer:
        answer: Answer = future.result()
        return answer

    @contextlib.contextmanager
    def there(self) -> Iterator[None]:
        """Tells that the scheduler has gone where a call of the client fails: it says so by errors of many kinds."""
        try:
            yield
        except Exception:
            raise self.gone() from None

    def gone(self) -> Fault:
        """The fault that is told, in one line: what Dask's own tasks say when they are cut off at the end isn't."""
        sys.unraisablehook = lambda _: None
        return Fault(f"the scheduler at {self.address} has gone; the same words with --resume go on")

    def mended(self, error: Exception) -> bool:
        if isinstance(error, ModuleNotFoundError):
            raise Fault(
                f"a worker of {self.address} hasn't the package hithwelor: put its folder on PYTHONPATH there"
            ) from None
        if isinstance(error, self.lost):
            raise self.gone() from None
        return False

    def end(self) -> None:
        with contextlib.suppress(Exception):
            self.client.close(timeout=2)


Pool = Union[Local, Cluster]
# A batch with its future.
Waiting = deque[tuple[Batch, Any]]


def grown(size: int, answer: Answer, target: float) -> int:
    """The size of the next batches, from what one took."""
    wanted = int(answer.groups * target / max(answer.seconds, 1e-6))
    return max(1, min(wanted, size * GROWTH, MOST_GROUPS))


def result_of(pool: Pool, waiting: Waiting) -> Answer:
    """The answer to the first of the batches under way. Where a worker died with it, all of them are handed out again."""
    for _ in range(MOST_BREAKS):
        try:
            return pool.result(waiting[0][1])
        except Unavailable as error:
            raise Fault(f"a worker: {error}") from None
        except Exception as error:
            if not pool.mended(error):
                raise Fault(f"the workers don't answer ({type(error).__name__}: {str(error)[:200]})") from error
            again = [(batch, pool.submit(batch)) for batch, _ in waiting]
            waiting.clear()
            waiting.extend(again)
    raise Fault(
        "a worker's process died three times, perhaps for want of memory: take fewer --jobs, or --seconds, which tells the case"
    )


def answers_in_order(pool: Pool, plan: Plan, first: int, last: int) -> Iterator[Answer]:
    """The answers to the groups from one number up to another, batch by batch in their order."""
    waiting: Waiting = deque()
    start, size = first, 1
    while waiting or start < last:
        while start < last and len(waiting) < pool.room():
            end = min(last, start + size)
            batch = plan.batch(start, end)
            waiting.append((batch, pool.submit(batch)))
            start = end
        answer = result_of(pool, waiting)
        waiting.popleft()
        size = grown(size, answer, pool.target)
        yield answer
