"""Which unit boots is a setting, and a device keeps it, whenever the power goes.

The attribute bBootLunEn names the unit: 0 is none, 1 the one with boot number 1, 2 that with 2.
"""
import pytest


@pytest.fixture
def device_options():
    return {"units": [(64, 1, 0), (16, 2, 0)]}


@pytest.mark.every_power_cut
def test_the_boot_setting_is_the_old_or_the_new_one(device, power_cuts):
    is_done = False
    device.attributes["bBootLunEn"] = 1
    with power_cuts:
        device.attributes["bBootLunEn"] = 2
        is_done = True
    assert device.attributes["bBootLunEn"] in ([2] if is_done else [1, 2])
    assert device.descriptors.unit(1)["bBootLunID"] == 2
