"""A journal of two blocks: an entry, and a commit that says that the entry is there. Each write has FUA.

The entry is written first. So whenever the power goes, a commit that is there has its entry.
"""
import pytest

ENTRY, COMMIT = b"e" * 4096, b"c" * 4096


@pytest.mark.every_power_cut
def test_a_commit_has_its_entry(device, power_cuts):
    unit, is_done = device.units[0], False
    with power_cuts:
        unit.write(1, ENTRY, fua=True)
        unit.write(0, COMMIT, fua=True)
        is_done = True
    has_commit = unit.read(0) == COMMIT
    assert has_commit or not is_done
    assert unit.read(1) == ENTRY or not has_commit
