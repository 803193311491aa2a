"""Workers: processes of this machine, or those of a Dask cluster. A worker may be killed at any
moment: what it was asked is asked again."""
from __future__ import annotations

import logging
import multiprocessing
import os
import signal
from collections.abc import Iterable, Iterator
from concurrent.futures import FIRST_COMPLETED, Executor, Future, ProcessPoolExecutor, wait
from concurrent.futures.process import BrokenProcessPool
from contextlib import contextmanager
from typing import Any

from .leaving import leave_with
from .work import Answer, Asked, FaultError, Programs, Task, last_line

# How often workers may be killed before the work ends with a fault
BREAKS = 100


SIGNALS = (signal.SIGINT, signal.SIGTERM)


def begin(parent: int) -> None:
    """A worker ends with the day, and leaves the keyboard's interrupts to it."""
    signal.signal(signal.SIGINT, signal.SIG_IGN)
    signal.signal(signal.SIGTERM, signal.SIG_DFL)
    signal.pthread_sigmask(signal.SIG_UNBLOCK, SIGNALS)
    leave_with(parent)


@contextmanager
def whole() -> Iterator[None]:
    """Has signals wait: a process whose start was cut short would complain."""
    before = signal.pthread_sigmask(signal.SIG_BLOCK, SIGNALS)
    try:
        yield
    finally:
        signal.pthread_sigmask(signal.SIG_SETMASK, before)


class Workers:
    """Processes of this machine."""

    def __init__(self, count: int) -> None:
        self.count, self.breaks = count, 0
        self.pool: Executor = self.opened()

    def opened(self) -> Executor:
        return ProcessPoolExecutor(self.count, multiprocessing.get_context("spawn"), begin, (os.getpid(),))

    def restore(self) -> None:
        """New workers, where one was killed."""
        self.breaks += 1
        if self.breaks > BREAKS:
            raise FaultError(f"workers were killed {self.breaks} times")
        self.pool.shutdown(wait=False, cancel_futures=True)
        self.pool = self.opened()

    def close(self) -> None:
        """Ends the workers, whatever they do."""
        self.pool.shutdown(wait=False, cancel_futures=True)
        for it in multiprocessing.active_children():
            it.kill()
            it.join()


class Cluster(Workers):
    """The workers of a Dask cluster, which gives what a lost worker was asked to another one."""

    def __init__(self, address: str) -> None:
        try:
            import distributed
        except ImportError:
            raise FaultError("--scheduler needs Dask (python3-distributed), which isn't here") from None
        # (what happens is told in one line)
        logging.getLogger("distributed").setLevel(logging.CRITICAL)
        try:
            self.client: Any = distributed.Client(address, set_as_default=False)
        except (OSError, ValueError):
            raise FaultError(f"no scheduler answers at {address}") from None
        super().__init__(max(1, len(self.client.scheduler_info()["workers"])))

    def opened(self) -> Executor:
        executor: Executor = self.client.get_executor(pure=False, retries=10)
        return executor

    def close(self) -> None:
        # (Dask's executor can't cancel; its client leaves what nobody waits for)
        self.pool.shutdown(wait=False)
        self.client.close()


def answer_of(future: Future[Any]) -> Any:
    """What a task answered. Where it failed in a way that it doesn't tell of itself, that is a
    fault."""
    try:
        return future.result()
    except FaultError:
        raise
    except Exception as why:
        raise FaultError(f"a worker failed: {type(why).__name__}: {last_line(str(why))}") from None


class Crew:
    """Has tasks done. What is answered comes in any order."""

    def __init__(self, workers: Workers, programs: Programs) -> None:
        self.workers, self.programs = workers, programs
        self.running: dict[Future[Any], tuple[Task[Any, Any], Any]] = {}

    @property
    def is_full(self) -> bool:
        return len(self.running) >= 4 * self.workers.count

    def start(self, task: Task[Asked, Answer], asked: Asked) -> None:
        try:
            future = self.submitted(task, asked)
        except BrokenProcessPool:
            self.again()
            future = self.submitted(task, asked)
        self.running[future] = task, asked

    def submitted(self, task: Task[Asked, Answer], asked: Asked) -> Future[Any]:
        with whole():
            return self.workers.pool.submit(task, self.programs, asked)

    def again(self) -> None:
        """Asks new workers what those that were lost were asked."""
        self.workers.restore()
        lost, self.running = list(self.running.values()), {}
        for task, asked in lost:
            self.start(task, asked)

    def answers(self) -> Iterator[Any]:
        """Waits for an answer at least, and hands over those that are there."""
        done, _ = wait(self.running, return_when=FIRST_COMPLETED)
        if any(not it.cancelled() and isinstance(it.exception(), BrokenProcessPool) for it in done):
            self.again()
            return
        for future in done:
            del self.running[future]
        yield from map(answer_of, done)

    def each(self, task: Task[Asked, Answer], asked: Iterable[Asked]) -> Iterator[Answer]:
        """The answer to each, in any order."""
        left = iter(asked)
        while True:
            while not self.is_full and (it := next(left, None)) is not None:
                self.start(task, it)
            if not self.running:
                return
            yield from self.answers()
