#!/usr/bin/env python3
"""Simulates a plain greedy collector, and counts the pages that are programmed for each page that is written.

usage: collector_simulation.py [--dies D] [--blocks B] [--pages P] [--slots S] [--spare R] [--bad N] [--writes W]
                               [--seed N] [--fill PERCENT..]

It knows nothing of the device's code and shares only its rules: one open block a die, into which pages go die after
die; with g = D + 2 + 2 * ceil(S / P) hosts leave g + m blocks free, g to copies and marks and m to the blocks that may
still go bad, which are R less those that are bad; a collection is due if fewer than 2 * D + 4 + m or than g + 2 + m
blocks are free and there is a victim; the victim is the closed block with the fewest live pages, the lowest of
several, and none that is wholly live; its live pages are copied, then comes one page for the mark, and the block is
free. A page that a host writes is programmed only while at least g + m blocks are free, and opens one only while more
are; while fewer are free a copy or a mark opens one only where none is open. With --bad so many blocks are bad from
the start, the lowest ones of all dies in turn, and none goes bad later.

For each filling, in percent of the greatest unit that a configuration of these numbers may have, the unit is written
once in order, and then overwritten W times, in order or at random. The second half of these is counted. The last
numbers are what a formula gives for random overwrites; docs/BENCHMARKS.md says which. A run in which a write waits
while collections gain no room says "no room" and how many overwrites came before it.
"""
import argparse
import math
import random
from typing import Any, List

FREE, OPEN, CLOSED, BAD = range(4)
# So many collections in a row for one write gain no room, and none after them will: each one made the next one's like.
GAINS_NOTHING = 4


class NoRoom(Exception):
    """A write waits, and collections gain no room."""


class Dies:
    """Blocks of pages, a page of which holds an address, None for a mark, or nothing."""

    def __init__(self, arguments):
        dies, blocks, pages = arguments.dies, arguments.blocks, arguments.pages
        self.dies, self.blocks, self.pages = dies, blocks, pages
        self.left, self.wanted = left_by_hosts(arguments), wanted_free(arguments)
        self.states = [[FREE] * blocks for _ in range(dies)]
        for number in range(arguments.bad):
            self.states[number % dies][number // dies] = BAD
        self.open: List[Any] = [None] * dies
        self.held = [[[] for _ in range(blocks)] for _ in range(dies)]
        self.live = [[0] * blocks for _ in range(dies)]
        self.where = {}
        self.free = dies * blocks - arguments.bad
        self.next_die = 0
        self.programmed = 0

    def may_open(self, is_hosts):
        """Whether a block may be opened now."""
        if is_hosts:
            return self.free > self.left
        return self.free >= self.left or all(block is None for block in self.open)

    def open_block(self, die, is_hosts):
        """The block that the die fills, opened if need be; None if it has none."""
        if self.open[die] is None:
            if FREE not in self.states[die] or not self.may_open(is_hosts):
                return None
            self.open[die] = self.states[die].index(FREE)
            self.states[die][self.open[die]] = OPEN
            self.free -= 1
        return self.open[die]

    def program(self, address, is_hosts):
        """Programs a page to the next die that has room; whether one had."""
        if is_hosts and self.free < self.left:
            return False
        for step in range(self.dies):
            die = (self.next_die + step) % self.dies
            block = self.open_block(die, is_hosts)
            if block is None:
                continue
            self.next_die = (die + 1) % self.dies
            self.programmed += 1
            if address is not None:
                if address in self.where:
                    old_die, old_block, _ = self.where[address]
                    self.live[old_die][old_block] -= 1
                self.where[address] = (die, block, len(self.held[die][block]))
                self.live[die][block] += 1
            self.held[die][block].append(address)
            if len(self.held[die][block]) == self.pages:
                self.states[die][block] = CLOSED
                self.open[die] = None
            return True
        return False

    def victim(self):
        """The closed block with the fewest live pages, if it is not wholly live."""
        found = None
        fewest = self.pages
        for die in range(self.dies):
            for block in range(self.blocks):
                if self.states[die][block] == CLOSED and self.live[die][block] < fewest:
                    found, fewest = (die, block), self.live[die][block]
        return found

    def collect(self):
        """One collection, if one is due; how many pages it gained, or None."""
        if self.free >= self.wanted:
            return None
        found = self.victim()
        if found is None:
            return None
        die, block = found
        copies = [a for page, a in enumerate(self.held[die][block]) if self.where.get(a) == (die, block, page)]
        for address in copies:
            if not self.program(address, False):
                raise NoRoom
        if not self.program(None, False):
            raise NoRoom
        self.states[die][block] = FREE
        self.held[die][block] = []
        self.live[die][block] = 0
        self.free += 1
        return self.pages - len(copies) - 1

    def collect_all(self):
        """Collections until none is due."""
        in_vain = 0
        while True:
            gained = self.collect()
            if gained is None:
                return
            in_vain = in_vain + 1 if gained == 0 else 0
            if in_vain > GAINS_NOTHING * self.dies * self.blocks:
                raise NoRoom

    def write(self, address):
        """A host's write, and then what collections are due."""
        while not self.program(address, True):
            if self.collect() is None:
                raise NoRoom
        self.collect_all()


def least_room(arguments):
    """How many free blocks copies and marks need while no block goes bad."""
    return arguments.dies + 2 + 2 * -(-arguments.slots // arguments.pages)


def may_go_bad(arguments):
    """How many blocks may still go bad before a device takes no writes."""
    return max(arguments.spare - arguments.bad, 0)


def left_by_hosts(arguments):
    """How many free blocks a host's pages leave."""
    return least_room(arguments) + may_go_bad(arguments)


def wanted_free(arguments):
    """With fewer free blocks than this many a collection is due."""
    return max(2 * arguments.dies + 4, least_room(arguments) + 2) + may_go_bad(arguments)


def greatest_unit(arguments):
    """The blocks of the greatest unit of a configuration with these numbers, and RPMB of 32 pages."""
    left = arguments.dies * arguments.blocks - arguments.spare - 4 * arguments.dies - 8
    return left * arguments.pages - 4 * arguments.slots - 32 - 2


def addresses(kind, unit, writes, seed):
    """The addresses that are overwritten."""
    dice = random.Random(seed)
    for count in range(writes):
        yield count % unit if kind == "in order" else dice.randrange(unit)


def simulated(arguments, unit, kind):
    """Pages programmed for each page written, or how many writes came before there was no room."""
    dies = Dies(arguments)
    count = 0
    try:
        for address in range(unit):
            dies.write(address)
        for count, address in enumerate(addresses(kind, unit, arguments.writes, arguments.seed)):
            if count == arguments.writes // 2:
                before = dies.programmed
            dies.write(address)
    except NoRoom:
        return f"no room after {count} overwrites"
    return f"{(dies.programmed - before) / (arguments.writes - arguments.writes // 2):.3f}"


def on_paper(arguments, unit):
    """The formula for random overwrites: with u the share of live pages in a victim, and s that of the unit's pages in
    all blocks that are not kept free, s = (1 - u) / ln(1 / u), and each page written costs 1 / (1 - u) programs."""
    kept = arguments.dies * arguments.blocks - arguments.bad - wanted_free(arguments)
    share = unit / (kept * arguments.pages)
    low, high = 1e-12, 1 - 1e-12
    for _ in range(200):
        middle = (low + high) / 2
        if (1 - middle) / math.log(1 / middle) < share:
            low = middle
        else:
            high = middle
    # Of the pages of a block that were not live, one goes to the mark.
    gained = arguments.pages * (1 - low) - 1
    with_mark = f"{arguments.pages / gained:.3f}" if gained > 0 else "for ever"
    return f"{1 / (1 - low):.3f}, with a mark for each victim {with_mark}"


def main():
    reader = argparse.ArgumentParser(description=__doc__, formatter_class=argparse.RawDescriptionHelpFormatter)
    reader.add_argument("--dies", type=int, default=4)
    reader.add_argument("--blocks", type=int, default=16)
    reader.add_argument("--pages", type=int, default=64)
    reader.add_argument("--slots", type=int, default=64)
    reader.add_argument("--spare", type=int, default=4)
    reader.add_argument("--bad", type=int, default=0)
    reader.add_argument("--writes", type=int, default=8192)
    reader.add_argument("--seed", type=int, default=1)
    reader.add_argument("--fill", type=float, nargs="+", default=[50, 80, 95])
    arguments = reader.parse_args()
    if not 0 <= arguments.bad <= arguments.spare:
        reader.error("--bad is from 0 to the number of spare blocks")
    for percent in arguments.fill:
        unit = int(greatest_unit(arguments) * percent / 100)
        print(f"{percent:g} percent, a unit of {unit} blocks: "
              f"in order {simulated(arguments, unit, 'in order')}, "
              f"at random {simulated(arguments, unit, 'at random')}; "
              f"on paper {on_paper(arguments, unit)}", flush=True)


if __name__ == "__main__":
    main()
