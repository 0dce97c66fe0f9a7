"""What is shown of Linux over the device: disks, a file system, the RPMB, and power cuts."""
from __future__ import annotations

import sys
from dataclasses import dataclass
from pathlib import Path
from typing import Any, Dict, NamedTuple, Optional, Set

from butcherford import Device

import rpmb_frames
from dies import LEFTS, Cut
from machine import Machine, Run

BLOCK, SECTOR, KIB = 4096, 512, 1024
# Four dies that have few more pages than the disks have blocks, so that blocks are collected and erased while
# files are written. Half of the write cache may be full before the dies work. The server has the device mend.
UNITS = (6144, 64, 64)
NUMBERS: Dict[str, Any] = {"dies": 4, "blocks": 132, "pages": 16, "units": UNITS, "slots": 256, "spare": 4,
                           "profile": 1, "mend": False}
MOST_KEPT = NUMBERS["slots"] // 2
MOST_BLOCKS = 128
DRIVER = "ufshcd"
# What stands in a file of sysfs of each disk, and what it means.
QUEUE = {"write_cache": ("write back", "Linux flushes the write cache"),
         "fua": ("1", "Linux uses FUA"),
         "rotational": ("0", "Linux knows that nothing rotates"),
         "provisioning_mode": ("unmap", "Linux discards blocks by UNMAP"),
         "discard_max_bytes": (str(MOST_BLOCKS * BLOCK), f"an UNMAP has at most {MOST_BLOCKS} blocks")}
# How sg_raw ends for CHECK CONDITION with UNIT ATTENTION, and for GOOD, and sg_verify for MISCOMPARE (sg3_utils, exit
# status).
MET, GOOD, DIFFERS = "6", "0", "14"
# The pages of vital product data: 00h, 80h, 83h, 87h, B0h, B1h and B2h.
PAGES = 7
# How many files the work writes, and how many of them stay.
FILES, KEPT = 80, 20
# On a busy machine a kernel may take many times longer than on an idle one.
BOOT_SECONDS, WORK_SECONDS = 600, 1200
LAST_LINES = 30


class Tally:
    """What passed and what failed, told as it comes. `log` keeps what each kernel said."""

    def __init__(self, log: Optional[Path]) -> None:
        self.passed = self.failed = 0
        self._log = log

    def count(self, is_right: bool, text: str, run: Optional[Run] = None) -> None:
        """One thing that was to be shown. Where it was wrong, the last lines of its kernel follow."""
        self.passed += is_right
        self.failed += not is_right
        print(f"{'passed' if is_right else 'FAILED'}  {text}", flush=True)
        if run is not None and not is_right:
            print("\n".join(run.console.splitlines()[-LAST_LINES:]), file=sys.stderr)

    def keep(self, title: str, run: Run) -> Run:
        """Keeps what a kernel said."""
        if self._log is not None:
            with self._log.open("a", encoding="utf-8") as log:
                log.write(f"== {title}\n{run.console}\n")
        return run


@dataclass(frozen=True)
class Bench:
    """A kernel, the files of its guest, a folder for what it needs, and the tally."""

    kernel: Path
    files: Path
    folder: Path
    tally: Tally

    def machine(self, device: Device) -> Machine:
        """A machine with this device."""
        return Machine(self.kernel, self.files, self.folder, device, MOST_KEPT)

    def boot(self, machine: Machine, test: str, title: str, cut: Optional[Cut] = None) -> Run:
        """Boots it with a test."""
        seconds = WORK_SECONDS if test == "work" else BOOT_SECONDS
        words = f"disks={len(UNITS)} files={FILES} kept={KEPT} most={MOST_BLOCKS}"
        run = machine.run(test, words, seconds, cut)
        return self.tally.keep(title, run)


def show_disks(bench: Bench, machine: Machine) -> None:
    """The driver finds the device, its disks have their sizes, and Linux takes what they tell it."""
    run = bench.boot(machine, "look", "disks")
    count = bench.tally.count
    count(run.words("driver") == [DRIVER], f"driver: {' '.join(run.words('driver'))}", run)
    for number, blocks in enumerate(UNITS):
        disk = f"sd{chr(ord('a') + number)}"
        is_there = f"{disk} {blocks * BLOCK // SECTOR}" in run.words("disk")
        count(is_there, f"/dev/{disk} has {blocks} blocks", run)
    for name, (value, text) in QUEUE.items():
        found = run.words(name)
        count(found == [value] * len(UNITS), f"{text}: {name} is {' or '.join(sorted(set(found)))}", run)
    most = [int(told) for told in run.words("max_sectors_kb") if told.isdecimal()]
    has_limit = len(most) == len(UNITS) and max(most) <= MOST_BLOCKS * BLOCK // KIB
    count(has_limit, f"a READ or WRITE has at most {MOST_BLOCKS} blocks", run)
    count(run.words("log") == ["0"], "no disk hid its write cache, and none was waited for", run)


def show_discard(bench: Bench, machine: Machine) -> None:
    """Blocks are discarded: they read as zeros, and those beside them as they were written."""
    run = bench.boot(machine, "discard", "discard")
    texts = {"written": "blocks were written", "discarded": "blocks were discarded",
             "zeros": "they are zeros, and those beside them are there"}
    for name, text in texts.items():
        bench.tally.count(run.words(name) == ["0"], text, run)


def show_file_system(bench: Bench, machine: Machine) -> None:
    """ext4 is made, written, trimmed, read back and clean."""
    run = bench.boot(machine, "make", "file system")
    texts = {"made": "ext4 was made", "written": "files were written",
             "trimmed": "fstrim discarded what is free",
             "same": "the files were read back after another mount", "checked": "e2fsck -f finds it clean"}
    for name, text in texts.items():
        bench.tally.count(run.words(name) == ["0"], text, run)


def show_rpmb(bench: Bench, machine: Machine) -> None:
    """The first command meets the attention of the LUN. Then a key is programmed by sg, and the write counter
    comes signed."""
    run = bench.boot(machine, "rpmb", "rpmb")
    result, counter = (bytes.fromhex("".join(run.words(name))) for name in ("result", "counter"))
    count = bench.tally.count
    count(run.words("ready") == [MET, GOOD], "RPMB: the first command to it meets an attention", run)
    count(rpmb_frames.is_key_result(result), "RPMB: a key was programmed", run)
    count(rpmb_frames.is_first_counter(counter), "RPMB: the write counter is 0, and its MAC is right", run)


def show_tools(bench: Bench, machine: Machine) -> None:
    """The programs of sg3_utils have their answers."""
    run = bench.boot(machine, "tools", "sg3_utils")
    bench.tally.count(run.words("vpd") == ["0"] * PAGES, f"sg_vpd shows {PAGES} pages", run)
    texts = {"capacity": "sg_readcap --16 shows the capacity",
             "provisioning": "with blocks that are discarded, and read as zeros then",
             "modes": "sg_modes shows the mode pages", "modes_6": "by MODE SENSE(6) too",
             "operations": "sg_opcodes shows the commands", "test": "sg_senddiag tests the unit",
             "luns": "sg_luns shows the units", "verify": "sg_verify has each block of a disk verified",
             "compare": "and blocks compared with what was read of them"}
    for name, text in texts.items():
        bench.tally.count(run.words(name) == ["0"], text, run)
    bench.tally.count(run.words("differ") == [DIFFERS], "and zeros are told to be other ones", run)


def show_resets(bench: Bench, machine: Machine) -> None:
    """A unit is reset by task management, and the controller by its registers; what was written is there."""
    run = bench.boot(machine, "resets", "resets")
    texts = {"unit": "a unit was reset, by task management", "host": "the host controller was reset",
             "same": "what was written before is there"}
    for name, text in texts.items():
        bench.tally.count(run.words(name) == ["0"], text, run)


def promised(run: Run) -> Set[int]:
    """The files whose fsync returned, and whose removal had not begun."""
    return set(map(int, run.words("promised"))) - set(map(int, run.words("removing")))


@dataclass(frozen=True)
class Found:
    """What was there after a power cut."""

    files: Set[int]
    is_mounted: bool
    is_clean: bool
    is_recovered: bool

    @property
    def text(self) -> str:
        """It in words."""
        return f"{'mounted' if self.is_mounted else 'NOT MOUNTED'}, " \
               f"{'journal recovered' if self.is_recovered else 'journal empty'}, " \
               f"{'e2fsck clean' if self.is_clean else 'e2fsck NOT CLEAN'}"


def look_after(bench: Bench, machine: Machine, work: Run, title: str, begin: str) -> None:
    """Boots the kernel again, and counts whether all is there that was promised."""
    run = bench.boot(machine, "check", title)
    found = Found(set(map(int, run.words("kept"))), run.words("mounted") == ["0"],
                  run.words("checked") == ["0"], run.words("recovered") == ["1"])
    wanted = promised(work)
    lost = sorted(wanted - found.files)
    text = f"{begin}; {len(wanted)} files promised, {len(wanted) - len(lost)} came; {found.text}"
    is_right = not lost and found.is_mounted and found.is_clean
    bench.tally.count(is_right, text + (f"; LOST: {lost}" if lost else ""), run)


class Work(NamedTuple):
    """How many programs and erases there are until the last fsync, and the number of the first erase."""

    total: int
    first_erase: int


def show_work(bench: Bench, image: bytes) -> Work:
    """Files are written without a cut."""
    with Device.from_image(image, **NUMBERS) as device, bench.machine(device) as machine:
        work = bench.boot(machine, "work", "work")
        is_whole = work.words("promised") == [str(number) for number in range(1, FILES + 1)]
        total = work.started_at("promised")
        text = f"without a cut {FILES} files were written, by {total} programs and erases, " \
               f"{len(work.erases)} of which were erases"
        bench.tally.count(is_whole, text, work)
        look_after(bench, machine, work, "work, check", "power off behind the work")
    return Work(total, min(work.erases, default=total))


def cut_of(work: Work, place: int, cuts: int) -> Cut:
    """The cuts are spread over the work. Once blocks are erased, each second one is inside an erase."""
    number = 1 + work.total * (2 * place + 1) // (2 * cuts)
    return Cut(number, LEFTS[place % len(LEFTS)], place % 2 == 1 and number > work.first_erase)


def show_cut(bench: Bench, image: bytes, title: str, cut: Cut) -> None:
    """Files are written until the power fails, and the kernel is booted again over what is left."""
    with Device.from_image(image, **NUMBERS) as device, bench.machine(device) as machine:
        work = bench.boot(machine, "work", f"{title}, work", cut)
        if work.failed is None:
            bench.tally.count(False, f"{title}: the work has no program or erase {cut.number}", work)
        else:
            look_after(bench, machine, work, f"{title}, check", f"{title}, {work.failed}")


def show(bench: Bench, cuts: int) -> None:
    """Shows all of it."""
    with Device(**NUMBERS) as device, bench.machine(device) as machine:
        show_disks(bench, machine)
        show_discard(bench, machine)
        show_file_system(bench, machine)
        show_rpmb(bench, machine)
        show_tools(bench, machine)
        show_resets(bench, machine)
        image = device.image()
    work = show_work(bench, image)
    for place in range(cuts):
        cut = cut_of(work, place, cuts)
        show_cut(bench, image, f"cut {place + 1} of {cuts}, at {cut.number} of {work.total}", cut)
