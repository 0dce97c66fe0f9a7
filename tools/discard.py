#!/usr/bin/env python3
"""Counts what the dies do when a whole unit is discarded, and for each write behind that.

usage: discard.py [--no-build] [--writes N] [--seed N]

The device has the dies and units of `make linux`: four dies of 132 blocks of 16 pages, units of 6144, 64 and 64
blocks, 256 slots, 4 spare blocks. On new dies UNMAPs discard each block of the first unit, as `mkfs.ext4` does. Then N
blocks (30,000) are overwritten one by one with FUA, at random, by a seed: first over a quarter of the unit, and, on
other dies, over all of it. The same is counted without the discard.

The library for C is proved and built first, unless --no-build is given: it takes the one that is there. The counts
decide nothing: the status is 0 where each was made.
"""
import argparse
import collections
import os
import random
import sys
from typing import Any, Dict

import clients
import libufs

NUMBERS: Dict[str, Any] = {"dies": 4, "blocks": 132, "pages": 16, "units": (6144, 64, 64), "slots": 256, "spare": 4}
BLOCK = 4096
# The overwritten part of the unit, as one of so many.
PARTS = (4, 1)
# Rounds in which the dies have nothing more to do.
ROUNDS = 1024


def discard(device):
    """Discards each block of the first unit, and lets the dies work until it is durable."""
    unit = device.units[0]
    unit.unmap(0, unit.blocks)
    unit.flush()
    device.settle(ROUNDS)


def overwrite(device, count, writes, seed):
    """Overwrites blocks one by one."""
    chosen = random.Random(seed)
    for number in range(writes):
        device.units[0].write(chosen.randrange(count), number.to_bytes(4, "big") * (BLOCK // 4), fua=True)


def counted(device, act):
    """How many jobs of each kind the dies take while this is done."""
    jobs = collections.Counter()
    device.on_job = lambda job: jobs.update([job.kind.name])
    act()
    device.on_job = None
    return jobs


def show(asked, part, is_discarded):
    """Prints the counts of one device."""
    from butcherford import Device
    with Device(**NUMBERS) as device:
        if is_discarded:
            jobs = counted(device, lambda: discard(device))
            print(f"a discard of {device.units[0].blocks} blocks: {jobs['PROGRAM']} programs, {jobs['ERASE']} erases")
        count = device.units[0].blocks // part
        jobs = counted(device, lambda: overwrite(device, count, asked.writes, asked.seed))
        print(f"{'with' if is_discarded else 'without'} a discard, {asked.writes} overwrites of {count} blocks: "
              f"{jobs['PROGRAM'] / asked.writes:.3f} programs and {jobs['ERASE'] / asked.writes:.3f} erases each",
              flush=True)


def main():
    parser = argparse.ArgumentParser(description=__doc__, formatter_class=argparse.RawTextHelpFormatter)
    parser.add_argument("--no-build", action="store_true", help="takes the archive that is there")
    parser.add_argument("--writes", type=int, default=30_000, metavar="N", help="how many blocks are overwritten")
    parser.add_argument("--seed", type=int, default=1, metavar="N", help="which blocks")
    asked = parser.parse_args()
    os.environ["BUTCHERFORD_LIBRARY"] = str(clients.SHARED)
    sys.path[:0] = [str(clients.CLIENT)]
    try:
        if not asked.no_build:
            libufs.build()
        clients.make_library()
    except clients.Fault as fault:
        print(f"discard: {fault}", file=sys.stderr)
        return 1
    for part in PARTS:
        for is_discarded in (False, True):
            show(asked, part, is_discarded)
    return 0


if __name__ == "__main__":
    sys.exit(main())
