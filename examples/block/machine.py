"""A device that works beside connections: it takes messages, and its dies go on step by step.

`Device.command` waits for one command. Here many may be open, of many connections: each is a `Task` that
hears of its own replies. A step ends the jobs of the dies and begins the next ones, so between two steps each
die that has something to do is inside a job, and that is where a power cut finds it.
"""
from __future__ import annotations

import argparse
import enum
import os
import sys
from collections import deque
from pathlib import Path
from typing import Callable, Deque, Dict, Iterator, List, Optional, Protocol

from butcherford import Device, Job, JobKind, NoAnswer, Refusal, UfsError, messages

# The tags below those of the package. At most 32 tasks and 32 short exchanges of the device are open.
TAGS = range(0x80)
# So many steps the dies go on though no command waits: behind the last message of a host, and behind a BUSY.
STEPS_BEHIND, STEPS_BEHIND_BUSY = 4096, 64
TASK_MANAGEMENT_REQUEST, TASK_MANAGEMENT_RESPONSE = 0x04, 0x24
ADDRESS = "127.0.0.1"
CONTROL = """takes lines from standard input. `cut LEFT N` cuts the power inside the Nth program or erase from
now on. It leaves there what LEFT says: old, new or torn. Without N it is now, without LEFT old. `save` saves
the image, and `end` ends"""


class Left(enum.Enum):
    """What a power cut leaves of a page or a block that a die programs or erases at that moment."""

    OLD = "old"
    NEW = "new"
    TORN = "torn"


class Function(enum.IntEnum):
    """What a TASK MANAGEMENT REQUEST asks for (JESD220, 10.7.6)."""

    ABORT_TASK = 0x01
    ABORT_TASK_SET = 0x02
    CLEAR_TASK_SET = 0x04
    LOGICAL_UNIT_RESET = 0x08
    QUERY_TASK = 0x80
    QUERY_TASK_SET = 0x81


class Service(enum.IntEnum):
    """The service response to it (JESD220, 10.7.7)."""

    COMPLETE = 0x00
    NOT_SUPPORTED = 0x04
    SUCCEEDED = 0x08
    NO_SUCH_UNIT = 0x09


class Task(Protocol):
    """Who waits for the replies of a command."""

    lun: int
    tag: int

    def on_reply(self, message: bytes, reply: messages.Reply) -> None:
        """A READY TO TRANSFER, a DATA IN, or the RESPONSE, behind which the tag is free."""


class Machine:
    """A device, the tasks that are open, and the jobs of its dies."""

    def __init__(self, device: Device, is_lazy: bool = False) -> None:
        self.device = device
        self._steps_behind = 0 if is_lazy else STEPS_BEHIND
        self.tasks: Dict[int, Task] = {}
        """The open tasks by their task tag."""
        self.cuts = 0
        """How often the power went."""
        self.on_cut: List[Callable[[], None]] = []
        """Is called when it went."""
        self._jobs: Dict[int, Job] = {}
        self._steps_left = self._steps_behind
        self._cut_in = 0
        self._cut_left = Left.OLD
        self._last_tag = -1
        self._to_device: Deque[bytes] = deque()
        self._is_exchanging = False
        self._later: List[Callable[[], None]] = []

    # Messages

    def start(self, task: Task, cdb: bytes, flags: int, expected: int) -> None:
        """Hands the device a COMMAND, and gives the task its tag."""
        task.tag = self._free_tag()
        self.tasks[task.tag] = task
        self._host(messages.command(task.lun, task.tag, cdb, flags, expected))

    def send(self, task: Task, offset: int, data: bytes) -> None:
        """Hands the device the data that it asked for."""
        self._host(messages.data_out(task.lun, task.tag, offset, data))

    def manage(self, function: Function, lun: int, tag: int = 0) -> int:
        """A TASK MANAGEMENT REQUEST. The device answers it at once, by a service response."""
        own = self._free_tag()
        fields = bytes([0, 0, 0, lun, 0, 0, 0, tag])
        self.device.host(messages.header(TASK_MANAGEMENT_REQUEST, lun, own, fields, function=function))
        for message in self._replies():
            if message[0] == TASK_MANAGEMENT_RESPONSE and message[3] == own:
                return message[15]
            self._tell(message)
        raise NoAnswer("the device did not answer a TASK MANAGEMENT REQUEST at once")

    def abort(self, task: Task) -> None:
        """Ends a task without a reply."""
        if self.tasks.get(task.tag) is task:
            self.manage(Function.ABORT_TASK, task.lun, task.tag)
            self.tasks.pop(task.tag, None)

    def later(self, act: Callable[[], None], is_first: bool = False) -> None:
        """Does this behind the next step of the dies, before or behind what else waits for that."""
        self._later.insert(0 if is_first else len(self._later), act)

    @property
    def is_crowded(self) -> bool:
        """Whether something waits for the next step."""
        return bool(self._later)

    def _host(self, message: bytes) -> None:
        self._steps_left = max(self._steps_left, self._steps_behind)
        self._to_device.append(message)
        self._exchange()

    def _exchange(self) -> None:
        """Tells the replies that are due, and hands over messages. A task may send more meanwhile: they go
        behind."""
        if self._is_exchanging:
            return
        self._is_exchanging = True
        try:
            self._tell_all()
            while self._to_device:
                self.device.host(self._to_device.popleft())
                self._tell_all()
        finally:
            self._is_exchanging = False

    def _free_tag(self) -> int:
        """A tag of no open task. It is not the one that was used last, so a late message of that one fits
        none."""
        for number in TAGS:
            tag = (self._last_tag + 1 + number) % len(TAGS)
            if tag not in self.tasks:
                self._last_tag = tag
                return tag
        raise NoAnswer("all task tags are in use")

    def _replies(self) -> Iterator[bytes]:
        message = self.device.reply()
        while message is not None:
            yield message
            message = self.device.reply()

    def _tell_all(self) -> None:
        for message in self._replies():
            self._tell(message)

    def _tell(self, message: bytes) -> None:
        reply = messages.read_reply(message)
        task = self.tasks.get(reply.tag)
        if reply.code == messages.Code.RESPONSE:
            self.tasks.pop(reply.tag, None)
            is_busy = reply.status == messages.BUSY
            self._steps_left = max(self._steps_left, STEPS_BEHIND_BUSY if is_busy else 0)
        if task is not None:
            task.on_reply(message, reply)

    # The dies

    def step(self) -> bool:
        """Each die ends its job and begins its next one. It says whether another step may bring something."""
        for die in tuple(self._jobs):
            self.device.work(die)
        self._jobs.clear()
        self._exchange()
        if not (self.tasks or self._later or self._steps_left > 0):
            return False
        self._steps_left -= 1
        has_turned = self.device.turn()
        self._do_later()
        self._take()
        if self._cut_in < 0:
            self.cut(self._cut_left)
        return has_turned or bool(self._jobs) or bool(self._later)

    def _do_later(self) -> None:
        acts, self._later = self._later, []
        for act in acts:
            act()

    def _take(self) -> None:
        for die in range(self.device.dies):
            job = self.device.take(die)
            if job is not None:
                self._jobs[die] = job
                self._count(job)

    def _count(self, job: Job) -> None:
        """Looks whether this is the job in which the power is to go."""
        if self._cut_in > 0 and job.kind is not JobKind.READ:
            self._cut_in = -1 if self._cut_in == 1 else self._cut_in - 1

    # The power

    def cut_in(self, left: Left, jobs: int) -> None:
        """The power is to go inside the program or erase that begins as number `jobs` from now on."""
        self._cut_in, self._cut_left = jobs, left

    def cut(self, left: Left) -> None:
        """The power goes and comes back, and the device is made ready: it mends, and its attentions end. No
        task is open then."""
        dies = range(self.device.dies)
        told = ", ".join(f"die {die} {describe(job)}" for die, job in sorted(self._jobs.items())) or "no job"
        self._cut_in = 0
        self._jobs.clear()
        self.tasks.clear()
        self._to_device.clear()
        self._later.clear()
        self.device.power_cut(new=dies if left is Left.NEW else (), torn=dies if left is Left.TORN else ())
        self.cuts += 1
        for act in self.on_cut:
            act()
        print(f"cut {left.value}: {told}", flush=True)

    def finish(self) -> None:
        """Makes durable what the device accepted, and leaves no job in flight. A reset of the device's own LUN
        may have left it an attention."""
        try:
            self.device.settle()
            self.device.end_attentions()
            self.device.command(messages.LUN_DEVICE, messages.blocks_cdb(messages.SYNCHRONIZE_CACHE_10, 0, 0))
        except Refusal as refusal:
            print(f"the write cache is not saved: {refusal}", file=sys.stderr)


def describe(job: Job) -> str:
    """A job in words."""
    where = f"block {job.block}" if job.kind is JobKind.ERASE else f"page {job.page} of block {job.block}"
    return f"{job.kind.name.lower()} {where}"


# The command line

def numbers(text: str) -> List[int]:
    """Numbers with commas between them."""
    return [int(it) for it in text.split(",")]


def add_options(parser: argparse.ArgumentParser) -> None:
    """The words that both programs have."""
    parser.add_argument("--port", type=int, default=0, help="of 127.0.0.1; 0, the default, takes a free one")
    parser.add_argument("--dies", type=int, default=4, help="how many dies (4)")
    parser.add_argument("--blocks", type=int, default=64, help="blocks of a die (64)")
    parser.add_argument("--pages", type=int, default=64, help="pages of a block (64)")
    parser.add_argument("--units", type=numbers, default=[8192], metavar="B,B..",
                        help="for each unit its blocks of 4096 bytes (8192)")
    parser.add_argument("--slots", type=int, default=256, help="blocks of the write cache (256)")
    parser.add_argument("--spare", type=int, default=4, help="blocks that may go bad (4)")
    parser.add_argument("--profile", type=int, choices=(0, 1), default=1, help="1, the default: the device "
                        "tells its serial number, its limits and its mode pages; 0: it has a few commands")
    parser.add_argument("--serial", type=int, default=1, metavar="N", help="the serial number (1)")
    parser.add_argument("--lazy", action="store_true", help="the dies work only while a command waits for "
                        "them: what is not flushed stays in the write cache, and a power cut loses it")
    parser.add_argument("--image", type=Path, metavar="FILE", help="the dies are those of this image, if it "
                        "is there, and are saved to it at the end")
    parser.add_argument("--control", action="store_true", help=CONTROL)


def opened(asked: argparse.Namespace) -> Device:
    """The device of these words: over new dies, or over those of the image. It is made ready, so no command of
    a client meets the attention of an opening."""
    words = (asked.dies, asked.blocks, asked.pages, asked.units, (1, 0, 0, 0), asked.slots, asked.spare)
    image: Optional[bytes] = None
    try:
        if asked.image is not None and asked.image.exists():
            image = asked.image.read_bytes()
        return Device(*words, profile=asked.profile, serial=asked.serial, image=image)
    except (ImportError, OSError, UfsError, ValueError) as fault:
        where = f"{asked.image}: " if image is not None else ""
        sys.exit(f"{where}{fault}")


def save(device: Device, file: Optional[Path]) -> None:
    """Saves the dies. The file is the old one or the new one, also if the program is killed."""
    if file is None:
        return
    beside = file.with_name(f"{file.name}.new")
    with open(beside, "wb") as into:
        into.write(device.image())
        into.flush()
        os.fsync(into.fileno())
    os.replace(beside, file)
    print(f"saved {file}", flush=True)
