"""The dies of a device: they work in rounds, and the power fails inside a program or erase that is named."""
from __future__ import annotations

from typing import List, NamedTuple, Optional

from butcherford import Device, Job, JobKind

LEFTS = ("old", "new", "torn")


class Cut(NamedTuple):
    """A power cut to come: inside the program or erase with this number, or inside the next erase.

    What it is inside of is left old, new or torn.
    """

    number: int
    left: str
    is_in_erase: bool = False

    def is_in(self, number: int, job: Job) -> bool:
        """Whether the power fails inside this job, the first of which that is so."""
        return number >= self.number and (job.kind is JobKind.ERASE or not self.is_in_erase)


class PowerFailed(Exception):
    """The power fails now, with these programs and erases in flight. The first one was named."""

    def __init__(self, jobs: List[Job], lefts: List[str]) -> None:
        super().__init__()
        self.jobs = jobs
        self.lefts = lefts

    def cut(self, device: Device) -> None:
        """The power goes and comes back: each job in flight leaves what was chosen for it. The device mends
        when the next kernel comes."""
        left = {what: [job.die for job, it in zip(self.jobs, self.lefts) if it == what] for what in LEFTS}
        device.power_cut(new=left["new"], torn=left["torn"], mend=False)

    def __str__(self) -> str:
        first, *others = [f"die {job.die} {left}" for job, left in zip(self.jobs, self.lefts)]
        return f"{name_of(self.jobs[0])}: {first}" + (f" (beside it {', '.join(others)})" if others else "")


def name_of(job: Job) -> str:
    """A job in words."""
    place = f"page {job.page} of block {job.block}" if job.kind is JobKind.PROGRAM else f"block {job.block}"
    return f"{job.kind.name.lower()} of {place}"


class Dies:
    """The dies of a device. In a round each of them has a job in flight before any of them does it."""

    def __init__(self, device: Device, cut: Optional[Cut] = None) -> None:
        self._device = device
        self._cut = cut
        self.started = 0
        """How many programs and erases began."""
        self.erases: List[int] = []
        """The numbers of the erases among them."""

    def round(self) -> bool:
        """A turn, and a job of each die that has one. It says whether there was anything to do."""
        is_busy = self._device.turn()
        jobs = [job for job in map(self._device.take, range(self._device.dies)) if job is not None]
        self._count([job for job in jobs if job.kind is not JobKind.READ])
        for job in jobs:
            self._device.work(job.die)
        return is_busy or bool(jobs)

    def _count(self, jobs: List[Job]) -> None:
        numbered = list(enumerate(jobs, self.started + 1))
        self.started += len(jobs)
        self.erases += [number for number, job in numbered if job.kind is JobKind.ERASE]
        cut = self._cut
        if cut is None:
            return
        first = next((place for place, it in enumerate(numbered) if cut.is_in(*it)), None)
        if first is not None:
            turn = LEFTS.index(cut.left)
            lefts = [LEFTS[(turn + place) % len(LEFTS)] for place in range(len(jobs))]
            raise PowerFailed(jobs[first:] + jobs[:first], lefts)
