"""What is counted of what a kernel told."""
from types import SimpleNamespace

import pytest

import shows
from machine import Run, Told

# The exit status of each program of sg3_utils, in the order in which the guest runs them (sg3_utils, exit status;
# 14 is MISCOMPARE).
TOLD = [("vpd", "0")] * 7 + [(it, "0") for it in ("capacity", "provisioning", "modes", "modes_6", "operations", "test",
                                                  "luns", "verify", "compare")] + [("differ", "14")]


def tally_of(told):
    """What is counted where the guest told this of the programs."""
    run = Run(told=[Told(name, status, 0) for name, status in told])
    bench = SimpleNamespace(tally=shows.Tally(None), boot=lambda machine, test, title: run)
    shows.show_tools(bench, None)
    return bench.tally.passed, bench.tally.failed


def test_each_program_is_counted():
    """The seven pages are counted as one."""
    assert tally_of(TOLD) == (len(TOLD) - 6, 0)


@pytest.mark.parametrize("place", range(6, len(TOLD)))
def test_a_program_that_ends_otherwise_is_told(place):
    name, status = TOLD[place]
    wrong = [*TOLD[:place], (name, "5" if status == "0" else "0"), *TOLD[place + 1:]]
    assert tally_of(wrong) == (len(TOLD) - 7, 1)
    assert tally_of([*TOLD[:place], *TOLD[place + 1:]]) == (len(TOLD) - 7, 1)
