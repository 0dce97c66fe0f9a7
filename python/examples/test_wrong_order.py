"""The journal of test_journal.py with its two writes turned around, which is a bug.

The runs in which the power goes between the two find it: the commit is there, and its entry is not. The mark xfail
says that a run has to fail; the others may pass.
"""
import pytest

ENTRY, COMMIT = b"e" * 4096, b"c" * 4096


@pytest.mark.xfail(strict=True, reason="the commit is written before its entry")
@pytest.mark.every_power_cut
def test_a_commit_has_its_entry(device, power_cuts):
    unit, is_done = device.units[0], False
    with power_cuts:
        unit.write(0, COMMIT, fua=True)
        unit.write(1, ENTRY, fua=True)
        is_done = True
    has_commit = unit.read(0) == COMMIT
    assert has_commit or not is_done
    assert unit.read(1) == ENTRY or not has_commit
