"""A plugin for pytest: a test is run once for each moment at which the power may go.

A test with the mark `every_power_cut` has its code under test in `with power_cuts:`. It runs once without a cut,
which counts the programs and erases that the dies start inside that block. Then it runs once for each of them and
for each of what it may leave (old, new, torn), and once with the power gone right behind the block. The cut raises
`PowerCut` inside the block, which ends there; what follows it runs on the device that was opened again.
"""
from __future__ import annotations

from dataclasses import dataclass, field
from types import TracebackType
from typing import Any, Dict, Iterator, List, Optional, Type

import pytest

from .device import Device, Job, JobKind
from .errors import PowerCut

MARK = "every_power_cut"
LEFTS = ("old", "new", "torn")


@dataclass(frozen=True)
class Cut:
    """A moment at which the power goes: inside a job, or behind the code where there is no job."""

    job: Optional[Job] = None
    number: int = 0
    total: int = 0
    left: str = ""

    @property
    def name(self) -> str:
        """What the id of a test calls it."""
        if self.job is None:
            return "behind-the-code"
        return f"{self.job.kind.name.lower()}-{self.number}-of-{self.total}-{self.left}"

    @property
    def text(self) -> str:
        """It in words."""
        if self.job is None:
            return "the power went right behind the code, with no job under way"
        what = f"page {self.job.page} of block {self.job.block}" if self.job.kind is JobKind.PROGRAM \
            else f"block {self.job.block}"
        return f"the power went inside the {self.job.kind.name.lower()} of {what} of die {self.job.die}, " \
               f"job {self.number} of {self.total}: it is {self.left}"


@dataclass
class Runs:
    """What the runs of one test have in common."""

    jobs: List[Job] = field(default_factory=list)
    has_failed: bool = False
    is_last: bool = False


CUT = pytest.StashKey[Cut]()
RUNS = pytest.StashKey[Runs]()


class PowerCuts:
    """The block of a test in which the power goes: `with power_cuts:`, once in a test."""

    def __init__(self, device: Device, runs: Runs, cut: Optional[Cut]) -> None:
        self._device = device
        self._runs = runs
        self._cut = cut
        self._started = 0
        self._was_entered = False

    def __enter__(self) -> PowerCuts:
        if self._was_entered:
            pytest.fail("a test has one `with power_cuts:`")
        self._was_entered = True
        self._device.on_job = self._see
        return self

    def _see(self, job: Job) -> None:
        """Counts a program or an erase that starts; cuts the power where it is the one that is meant."""
        if job.kind is JobKind.READ:
            return
        self._started += 1
        if self._cut is None:
            self._runs.jobs.append(job)
        elif self._cut.job is not None and self._started == self._cut.number:
            expect_same(job[:4] == self._cut.job[:4])
            dies = [job.die]
            self._device.power_off(new=dies if self._cut.left == "new" else [],
                                   torn=dies if self._cut.left == "torn" else [])
            raise PowerCut(self._cut.text)

    def __exit__(self, kind: Optional[Type[BaseException]], fault: Optional[BaseException],
                 trace: Optional[TracebackType]) -> bool:
        self._device.on_job = None
        if kind is None and self._device.is_on and self._cut is not None:
            expect_same(self._cut.job is None and self._started == self._cut.total)
            self._device.power_off()
        if self._device.is_on:
            return False
        self._device.power_on()
        return isinstance(fault, PowerCut)


def expect_same(is_same: bool) -> None:
    """The code under test has to start the jobs that were counted."""
    if not is_same:
        pytest.fail("the code started other programs and erases than when they were counted; it has to do the same "
                    "in each run")


@pytest.fixture
def device_options() -> Dict[str, Any]:
    """The words of `Device` for the fixture `device`: override it for another configuration."""
    return {}


@pytest.fixture
def device(device_options: Dict[str, Any]) -> Iterator[Device]:
    """A device over new dies, which is ready."""
    with Device(**device_options) as found:
        yield found


@pytest.fixture
def power_cuts(request: pytest.FixtureRequest, device: Device) -> Iterator[PowerCuts]:
    """The block in which the power of `device` goes, in a test with the mark `every_power_cut`."""
    runs = request.node.stash.get(RUNS, None)
    if runs is None:
        pytest.fail(f"the fixture power_cuts is for a test with the mark {MARK}")
    found = PowerCuts(device, runs, request.node.stash.get(CUT, None))
    yield found
    if not found._was_entered:
        pytest.fail("a test with the fixture power_cuts has its code in `with power_cuts:`")


def pytest_addoption(parser: pytest.Parser) -> None:
    """Tells pytest the option."""
    parser.getgroup("butcherford").addoption(
        "--power-cut", metavar="NAME", default="", help="of the runs with a cut, only those with NAME in their id")


def pytest_configure(config: pytest.Config) -> None:
    """Tells pytest the mark."""
    config.addinivalue_line("markers", f"{MARK}: runs the test once for each moment at which the power may go")


def pytest_runtest_setup(item: pytest.Item) -> None:
    """A test with the mark has to say where the power goes."""
    if RUNS in item.stash and "power_cuts" not in getattr(item, "fixturenames", ()):
        pytest.fail(f"a test with the mark {MARK} takes the fixture power_cuts")


@pytest.hookimpl(tryfirst=True)
def pytest_runtest_protocol(item: pytest.Item, nextitem: Optional[pytest.Item]) -> Optional[bool]:
    """Runs a test with the mark: without a cut, and then once for each cut, each time as a test of its own."""
    if not isinstance(item, pytest.Function) or item.get_closest_marker(MARK) is None or RUNS in item.stash:
        return None
    runs = item.stash[RUNS] = Runs()
    # How many runs follow is not known yet. So what the next item does not need is made again for them.
    item.ihook.pytest_runtest_protocol(item=item, nextitem=nextitem)
    if not runs.has_failed:
        run_cuts(item, runs, nextitem)
    return True


def run_cuts(item: pytest.Function, runs: Runs, nextitem: Optional[pytest.Item]) -> None:
    """Runs the test once for each cut."""
    wanted = item.config.getoption("power_cut", "")
    tests = [with_cut(item, runs, cut) for cut in cuts_of(runs.jobs) if wanted in cut.name]
    item.session.testscollected += len(tests)
    for test, behind in zip(tests, [*tests[1:], nextitem]):
        if item.session.shouldstop or item.session.shouldfail:
            return
        runs.is_last = test is tests[-1]
        item.ihook.pytest_runtest_protocol(item=test, nextitem=behind)


def cuts_of(jobs: List[Job]) -> List[Cut]:
    """Three cuts for each job, and one behind all."""
    inside = [Cut(job, number, len(jobs), left) for number, job in enumerate(jobs, 1) for left in LEFTS]
    return [*inside, Cut(total=len(jobs))]


def with_cut(item: pytest.Function, runs: Runs, cut: Cut) -> pytest.Function:
    """The same test, with a cut. Its id tells which."""
    name = f"{item.name[:-1]}-{cut.name}]" if item.name.endswith("]") else f"{item.name}[{cut.name}]"
    words = {"callspec": item.callspec} if hasattr(item, "callspec") else {}
    test: pytest.Function = pytest.Function.from_parent(
        item.parent, name=name, originalname=item.originalname, fixtureinfo=item._fixtureinfo, **words)
    test.stash[RUNS] = runs
    test.stash[CUT] = cut
    test.add_report_section("call", "power", cut.text)
    return test


@pytest.hookimpl(hookwrapper=True, tryfirst=True)
def pytest_runtest_makereport(item: pytest.Item, call: pytest.CallInfo[None]) -> Iterator[None]:
    """Reads the mark xfail for all runs together: where one fails, the others may pass; where none does, the last
    one is reported as a test that was to fail and passed."""
    outcome: Any = yield
    runs = item.stash.get(RUNS, None)
    if runs is None:
        return
    report = outcome.get_result()
    if call.excinfo is not None:
        runs.has_failed = True
    elif call.when == "call" and (runs.has_failed or not runs.is_last):
        report.outcome, report.longrepr = "passed", None
        vars(report).pop("wasxfail", None)
