"""The parts of a day are thinned side by side, each by a process of its own, and what they tell each
second is kept."""
from __future__ import annotations

import multiprocessing
import os
from collections.abc import Callable, Mapping
from dataclasses import dataclass
from multiprocessing.connection import Connection, wait
from multiprocessing.process import BaseProcess

from .cut import Part
from .joining import Move
from .limits import Fits
from .pool import BREAKS, begin, whole
from .progress import Progress
from .thinning import Kept, Thinning, Told, groups_of
from .work import FaultError

# Below so many wishes a process more costs more than it saves
FEW = 20_000
Keep = Callable[[int, Told], None]


def thin(telling: Connection, parent: int, edges: Part, fits: Fits, kept: Kept) -> None:
    """What a process does: it thins one part, and tells each second how far it is."""
    begin(parent)
    for told in Thinning(edges, fits, kept).run():
        telling.send(told)
    telling.send(None)
    telling.close()


@dataclass
class Running:
    """A part that a process thins."""

    part: int
    process: BaseProcess
    hearing: Connection


class Cutting:
    """Has parts thinned, the largest first, and keeps what is told of each."""

    def __init__(self, parts: list[Part], fits: Fits, kept: Mapping[int, Kept], keep: Keep, progress: Progress) -> None:
        self.parts, self.fits, self.keep, self.progress = parts, fits, keep, progress
        self.kept = {part: kept.get(part, Kept()) for part in range(len(parts))}
        self.moves: dict[int, list[Move]] = {part: list(it.moves) for part, it in self.kept.items()}
        self.running: list[Running] = []
        self.breaks = 0

    def run(self, workers: int) -> list[list[list[int]]]:
        """The groups of each part."""
        sizes = {part: len(it) for part, it in enumerate(self.parts)}
        waiting = sorted(sizes, key=lambda part: (sizes[part], part))
        self.progress.begin("wishes cut", sum(self.share(part) for part in waiting), sum(sizes.values()))
        if workers == 1 or sum(sizes.values()) < FEW:
            for part in reversed(waiting):
                for told in Thinning(self.parts[part], self.fits, self.kept[part]).run():
                    self.take(part, told)
        else:
            self.side_by_side(waiting, workers)
        return [groups_of(self.moves[part]) for part in range(len(self.parts))]

    def share(self, part: int, whole: int = 0) -> int:
        """How many of a part's wishes are done, by the steps that are."""
        size = len(self.parts[part])
        return min(size, size * self.kept[part].at // max(1, whole or 3 * size))

    def take(self, part: int, told: Told) -> None:
        """Keeps what was told."""
        self.keep(part, told)
        before = self.share(part, told.whole)
        self.moves[part] += told.moves
        self.kept[part] = Kept(told.at, told.state or self.kept[part].state)
        self.progress.step(max(0, self.share(part, told.whole) - before))

    def side_by_side(self, waiting: list[int], workers: int) -> None:
        try:
            while waiting or self.running:
                while waiting and len(self.running) < workers:
                    self.start(waiting.pop())
                heard = {it.hearing: it for it in self.running}
                for hearing in wait(list(heard)):
                    self.hear(heard[hearing])  # type: ignore[index]
        finally:
            for it in self.running:
                it.process.kill()

    def start(self, part: int) -> None:
        context = multiprocessing.get_context("spawn")
        hearing, telling = context.Pipe(duplex=False)
        it = self.kept[part]
        words = telling, os.getpid(), self.parts[part], self.fits, Kept(it.at, it.state, tuple(self.moves[part]))
        process = context.Process(target=thin, args=words, daemon=True)
        with whole():
            process.start()
        telling.close()
        self.running.append(Running(part, process, hearing))

    def hear(self, it: Running) -> None:
        """Takes what was told. A process that ended before its part did is started again behind what
        was kept."""
        try:
            told = it.hearing.recv()
        except (EOFError, OSError):
            self.breaks += 1
            if self.breaks > BREAKS:
                raise FaultError(f"workers were killed {self.breaks} times") from None
            self.running.remove(it)
            self.start(it.part)
            return
        if told is None:
            self.running.remove(it)
            it.process.join()
        else:
            self.take(it.part, told)
