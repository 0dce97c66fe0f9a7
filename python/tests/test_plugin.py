"""The plugin: how often it runs a test, under which ids, and what it tells of wrong use.

On a new device of one die the first block is open, with a mark in page 0. So a write with FUA of one block is one
program, and one of two blocks is two. Each has three cuts. One run is without a cut, and one has it behind the code.
"""
import pytest

HEAD = """
import hashlib

import pytest
from butcherford import PowerCut

ZEROS, NEW = bytes(4096), b"n" * 4096

@pytest.fixture
def device_options():
    return {"dies": 1, "blocks": 64}
"""
ONE_WRITE = """
@pytest.mark.every_power_cut
def test_write(device, power_cuts):
    with power_cuts:
        device.units[0].write(0, NEW, fua=True)
    assert device.units[0].read(0) in (ZEROS, NEW)
"""


@pytest.fixture
def run(pytester):
    """Runs a file of tests, and gives what came."""
    def running(text, *words):
        pytester.makepyfile(HEAD + text)
        return pytester.runpytest_inprocess("-v", "-p", "butcherford.pytest_plugin", "-p", "no:cacheprovider", *words)

    return running


def ids(result):
    """The ids of the runs with their outcomes, without the name of the file."""
    lines = [it for it in result.outlines if "::" in it and it.endswith("%]")]
    return [tuple(it.split("::")[1].split()[:2]) for it in lines]


def test_one_write_makes_three_runs_and_two_more(run):
    result = run(ONE_WRITE)
    assert ids(result) == [(name, "PASSED") for name in (
        "test_write", "test_write[program-1-of-1-old]", "test_write[program-1-of-1-new]",
        "test_write[program-1-of-1-torn]", "test_write[behind-the-code]")]
    result.assert_outcomes(passed=5)


@pytest.mark.parametrize("blocks, runs", [(1, 5), (2, 8), (5, 17)])
def test_each_program_has_three_runs(blocks, runs, run):
    run(ONE_WRITE.replace("NEW, fua", f"NEW * {blocks}, fua")).assert_outcomes(passed=runs)


def test_an_erase_has_three_runs_too(run):
    """Nothing is lost at the first cut, so the device is mended when it opens. The block with the page that was
    kept is closed then, and the next one is erased before its first program."""
    result = run("""
@pytest.mark.every_power_cut
def test_write(device, power_cuts):
    device.units[0].write(0, NEW, fua=True)
    device.power_cut()
    with power_cuts:
        device.units[0].write(1, NEW, fua=True)
    assert device.units[0].read(0) == NEW
    assert device.units[0].read(1) in (ZEROS, NEW)
""")
    cuts = [f"{job}-of-2-{left}" for job in ("erase-1", "program-2") for left in ("old", "new", "torn")]
    assert [name for name, _ in ids(result)[1:-1]] == [f"test_write[{cut}]" for cut in cuts]
    result.assert_outcomes(passed=8)


def test_the_cuts_that_are_asked_for(run):
    result = run(ONE_WRITE, "--power-cut", "program-1-of-1-torn")
    assert [name for name, _ in ids(result)] == ["test_write", "test_write[program-1-of-1-torn]"]


def test_only_the_block_is_counted(run):
    run("""
@pytest.mark.every_power_cut
def test_write(device, power_cuts):
    device.units[0].write(0, NEW, fua=True)
    with power_cuts:
        device.units[0].read(0)
    device.units[0].write(1, NEW, fua=True)
    assert device.units[0].read(0, 2) == NEW + NEW
""").assert_outcomes(passed=2)


def test_each_cut_leaves_what_its_id_says(run):
    """Page 1 of block 0 is behind the first 14 bytes of the image, the byte of the block, and page 0."""
    result = run("""
@pytest.mark.every_power_cut
def test_write(device, power_cuts, request):
    with power_cuts:
        device.units[0].write(0, NEW, fua=True)
    name = request.node.name
    has_gone = name.endswith(("old]", "torn]"))
    assert device.units[0].read(0) == (ZEROS if has_gone else NEW)
    page = device.image()[14 + 1 + 4192:][:4192]
    assert page[:4096] == (b"\\xff" * 4096 if name.endswith("old]") else NEW)
    right = hashlib.sha256(page[:4160]).digest()
    torn = bytes([right[0] ^ 1]) + right[1:]
    assert page[4160:] == (b"\\xff" * 32 if name.endswith("old]") else torn if name.endswith("torn]") else right)
""")
    result.assert_outcomes(passed=5)


def test_a_write_without_fua_is_found_out_behind_the_code(run):
    """No die has a job inside the block, so there is one cut."""
    result = run("""
@pytest.mark.every_power_cut
def test_write(device, power_cuts):
    with power_cuts:
        device.units[0].write(0, NEW)
    assert device.units[0].read(0) == NEW
""")
    assert ids(result) == [("test_write", "PASSED"), ("test_write[behind-the-code]", "FAILED")]
    result.stdout.fnmatch_lines(["*the power went right behind the code, with no job under way*"])


def test_a_failure_tells_the_job(run):
    result = run(ONE_WRITE.replace("in (ZEROS, NEW)", "== NEW"))
    result.assert_outcomes(passed=3, failed=2)
    result.stdout.fnmatch_lines(
        ["*the power went inside the program of page 1 of block 0 of die 0, job 1 of 1: it is torn*"])


def test_the_code_sees_the_power_cut(run):
    """It may clean up, and whatever it calls says PowerCut again."""
    run("""
@pytest.mark.every_power_cut
def test_write(device, power_cuts):
    with power_cuts:
        try:
            device.units[0].write(0, NEW, fua=True)
        except PowerCut:
            with pytest.raises(PowerCut):
                device.units[0].read(0)
    assert device.units[0].read(0) in (ZEROS, NEW)
""").assert_outcomes(passed=5)


def test_another_exception_comes_out(run):
    result = run("""
@pytest.mark.every_power_cut
def test_write(device, power_cuts):
    with power_cuts:
        try:
            device.units[0].write(0, NEW, fua=True)
        except PowerCut:
            raise KeyError("of the code")
""")
    result.assert_outcomes(passed=2, failed=3)


def test_a_test_that_fails_without_a_cut_has_no_other_runs(run):
    run(ONE_WRITE.replace("in (ZEROS, NEW)", "== ZEROS")).assert_outcomes(failed=1)


def test_parameters_come_before_the_cut(run):
    result = run(ONE_WRITE.replace("def test_write(", "@pytest.mark.parametrize('at', [3])\ndef test_write(at, "))
    assert ids(result)[3] == ("test_write[3-program-1-of-1-torn]", "PASSED")


def test_a_method_and_the_test_behind_it(run):
    """A fixture of the class is made once for the class, also where it has more tests."""
    result = run("""
class TestWrites:
    made = []

    @pytest.fixture(scope="class", autouse=True)
    def one(self):
        self.made.append(1)

    @pytest.mark.every_power_cut
    def test_write(self, device, power_cuts):
        with power_cuts:
            device.units[0].write(0, NEW, fua=True)

    def test_behind_it(self):
        assert self.made == [1]
""")
    result.assert_outcomes(passed=6)


def test_first_failure_ends_it(run):
    run(ONE_WRITE.replace("in (ZEROS, NEW)", "== NEW"), "-x").assert_outcomes(passed=1, failed=1)


def test_xfail_is_of_all_runs_together(run):
    marked = "\n@pytest.mark.xfail(strict=True)" + ONE_WRITE
    run(marked.replace("in (ZEROS, NEW)", "== NEW")).assert_outcomes(passed=3, xfailed=2)
    result = run(marked)
    result.assert_outcomes(passed=4, failed=1)
    assert ids(result)[-1] == ("test_write[behind-the-code]", "FAILED")


@pytest.mark.parametrize("blocks, opens_again, failed", [
    ((1, 0, 0, 0, 0), False, 4), ((1, 1, 1, 1, 2), False, 1), ((1, 1, 1, 1, 1), True, 4)],
    ids=("fewer jobs", "one more", "other jobs"))
def test_code_that_does_not_do_the_same_each_time(blocks, opens_again, failed, run):
    """`blocks` are those that each run writes, and each is a program. Where a run opens the device again, an erase
    comes first."""
    result = run(f"""
RUNS = iter(range(5))

@pytest.mark.every_power_cut
def test_write(device, power_cuts):
    number, unit = next(RUNS), device.units[0]
    unit.write(0, NEW, fua=True)
    if {opens_again} and number:
        device.power_cut()
    with power_cuts:
        unit.write(1, NEW * {blocks}[number], fua=True)
""")
    result.assert_outcomes(passed=5 - failed, failed=failed)
    result.stdout.fnmatch_lines(["*it has to do the same in each run*"])


@pytest.mark.parametrize("text, told", [
    (ONE_WRITE.replace("@pytest.mark.every_power_cut", ""), "*is for a test with the mark every_power_cut*"),
    ("""
@pytest.mark.every_power_cut
def test_write(device, power_cuts):
    pass
""", "*has its code in `with power_cuts:`*"),
    ("""
@pytest.mark.every_power_cut
def test_write(device, power_cuts):
    for _ in range(2):
        with power_cuts:
            pass
""", "*a test has one `with power_cuts:`*"),
    ("""
@pytest.mark.every_power_cut
def test_write(device):
    device.units[0].write(0, NEW, fua=True)
""", "*takes the fixture power_cuts*")], ids=("no mark", "no block", "two blocks", "no fixture"))
def test_wrong_use_is_told(text, told, run):
    result = run(text)
    assert result.ret != 0
    result.stdout.fnmatch_lines([told])
