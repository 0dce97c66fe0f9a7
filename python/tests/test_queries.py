"""Attributes, flags and descriptors by their names. What comes is told by docs/PROFILE_1.md and docs/FORMATS.md."""
import pytest

from butcherford import Device, Fields, PowerCut, QueryError, UnitNumbers, messages
from butcherford.parameters import DESCRIPTOR_NAMED

UNITS = [UnitNumbers(64, boot=1), UnitNumbers(16, protect=2)]
ATTRIBUTES = {"bBootLunEn": 0, "bCurrentPowerMode": 0x11, "bActiveICCLevel": 0, "bOutOfOrderDataEn": 0,
              "bPurgeStatus": 0, "bMaxDataInSize": 8, "bMaxDataOutSize": 8, "dDynCapNeeded": 0, "bRefClkFreq": 1,
              "bConfigDescrLock": 1, "bDeviceFFUStatus": 0, "bPSAState": 0, "dPSADataSize": 0}
FLAGS = {"fDeviceInit": False, "fPermanentWPEn": False, "fPowerOnWPEn": False, "fBackgroundOpsEn": True,
         "fDeviceLifeSpanModeEn": False, "fPhyResourceRemoval": False, "fBusyRTC": False,
         "fPermanentlyDisableFwUpdate": False}
DESCRIPTORS = ["Device", "Configuration", "Unit", "RPMB Unit", "Interconnect", "String", "Geometry", "Power"]
# What is not zero in the descriptors of two such units.
DEVICE = {"bLength": 64, "bNumberLU": 2, "bNumberWLU": 4, "bBootEnable": 1, "bDescrAccessEn": 1, "bInitPowerMode": 1,
          "bHighPriorityLUN": 0x7F, "bSecurityLU": 1, "bBackgroundOpsTermLat": 1, "wSpecVersion": 0x0210,
          "wManufactureDate": 0x1125, "iManufacturerName": 1, "iProductName": 2, "iSerialNumber": 3, "iOemID": 4,
          "bUD0BaseOffset": 0x10, "bUDConfigPLength": 0x10, "bDeviceRTTCap": 0x20, "bQueueDepth": 0x20,
          "wDeviceVersion": 1, "iProductRevisionLevel": 5}
DEVICE_OF_PROFILE_0 = {"bLength": 64, "bNumberLU": 2, "bNumberWLU": 4, "bBootEnable": 1, "bDescrAccessEn": 1,
                       "bSecurityLU": 1, "wSpecVersion": 0x0210}
CONFIGURATION = {"bLength": 144, "bDescriptorIDN": 1, "bBootEnable": 1, "bDescrAccessEn": 1, "bInitPowerMode": 1,
                 "bHighPriorityLUN": 0x7F,
                 "bLUEnable[0]": 1, "bBootLunID[0]": 1, "dNumAllocUnits[0]": 64, "bDataReliability[0]": 1,
                 "bLogicalBlockSize[0]": 12, "bProvisioningType[0]": 3,
                 "bLUEnable[1]": 1, "bLUWriteProtect[1]": 2, "dNumAllocUnits[1]": 16, "bDataReliability[1]": 1,
                 "bLogicalBlockSize[1]": 12, "bProvisioningType[1]": 3}
UNIT = {"bLength": 35, "bDescriptorIDN": 2, "bDataReliability": 1, "bLogicalBlockSize": 12, "dEraseBlockSize": 1,
        "bProvisioningType": 3}
UNIT_0 = {**UNIT, "bLUEnable": 1, "bBootLunID": 1, "qLogicalBlockCount": 64, "qPhyMemResourceCount": 64}
UNIT_1 = {**UNIT, "bUnitIndex": 1, "bLUEnable": 1, "bLUWriteProtect": 2, "qLogicalBlockCount": 16,
          "qPhyMemResourceCount": 16}
RPMB_UNIT = {"bLength": 35, "bDescriptorIDN": 2, "bUnitIndex": 0xC4, "bLUEnable": 1, "bLUQueueDepth": 1,
             "bMemoryType": 0x0F, "bLogicalBlockSize": 8, "qLogicalBlockCount": 512, "qPhyMemResourceCount": 512}
GEOMETRY = {"bLength": 72, "bDescriptorIDN": 7, "qTotalRawDeviceCapacity": 8 * 80, "dSegmentSize": 8,
            "bAllocationUnitSize": 1, "bMinAddrBlockSize": 8, "bOptimalReadBlockSize": 8, "bOptimalWriteBlockSize": 8,
            "bMaxInBufferSize": 8, "bMaxOutBufferSize": 8, "bRPMB_ReadWriteSize": 8, "bMaxContexIDNumber": 5,
            "bSupportedSecRTypes": 1, "wSupportedMemoryTypes": 0x8001}


@pytest.fixture
def device_options():
    return {"units": UNITS, "serial": 0x0123456789ABCDEF}


@pytest.fixture
def old():
    """A device of profile 0."""
    with Device(units=UNITS, profile=0) as device:
        yield device


def nonzero(fields):
    return {name: value for name, value in fields.items() if value}


def sets(of, name, value):
    """A call that gives it a value."""
    return lambda device: getattr(device, of).__setitem__(name, value)


def test_attributes_after_an_opening(device):
    """What the device has beside these, it tells too."""
    told = dict(device.attributes)
    assert told == {**told, **ATTRIBUTES} and len(device.attributes) == len(told)
    assert not {"dSecondsPassed", "wContextConf"} & set(told)


def test_attributes_are_written(device):
    """What a reset of the link leaves, and what a power cut does."""
    device.attributes["bActiveICCLevel"] = 15
    device.attributes["bRefClkFreq"] = 3
    device.attributes["bBootLunEn"] = 1
    kept = ("bActiveICCLevel", "bRefClkFreq", "bBootLunEn")
    assert [device.attributes[it] for it in kept] == [15, 3, 1]
    device.link_event(messages.Reset.LINK)
    assert [device.attributes[it] for it in kept] == [0, 3, 1]
    device.power_cut()
    assert [device.attributes[it] for it in kept] == [0, 1, 1]


def test_attributes_of_units_and_contexts(device):
    for unit in (0, 1):
        assert device.attributes.read("dDynCapNeeded", unit) == 0
        for selector in range(1, 16):
            device.attributes.write("wContextConf", 0, unit, selector)
            assert device.attributes.read("wContextConf", unit=unit, selector=selector) == 0
    device.attributes["dSecondsPassed"] = 0xFFFFFFFF


def test_flags_after_an_opening(device):
    assert dict(device.flags) == FLAGS
    assert all(isinstance(it, bool) for it in device.flags.values())


def test_flags_are_set_cleared_and_toggled(device):
    name = "fBackgroundOpsEn"
    device.flags[name] = False
    assert device.flags[name] is False
    assert [device.flags.toggle(name), device.flags.toggle(name)] == [True, False]
    device.flags[name] = True
    assert device.flags[name] is True
    device.flags["fPowerOnWPEn"] = True
    device.flags[name] = device.flags["fDeviceLifeSpanModeEn"] = False
    assert nonzero(device.flags) == {"fPowerOnWPEn": True}
    device.power_cut()
    assert dict(device.flags) == FLAGS


def test_a_unit_is_protected_by_a_flag(device):
    """Unit 1 is protected by fPermanentWPEn, for ever."""
    device.flags["fPermanentWPEn"] = True
    device.power_cut()
    assert device.flags["fPermanentWPEn"]
    assert [it.mode_sense().is_protected for it in device.units] == [False, True]


@pytest.mark.parametrize("response, meaning, call", [
    (0xF6, "parameter not readable", lambda it: it.attributes["dSecondsPassed"]),
    (0xF6, "parameter not readable", lambda it: it.flags["fPurgeEnable"]),
    (0xF7, "parameter not writeable", sets("attributes", "bPurgeStatus", 0)),
    (0xF7, "parameter not writeable", sets("flags", "fBusyRTC", True)),
    (0xF7, "parameter not writeable", sets("flags", "fDeviceInit", False)),
    (0xF7, "parameter not writeable", lambda it: it.flags.toggle("fPowerOnWPEn")),
    (0xF8, "parameter already written", sets("attributes", "bConfigDescrLock", 1)),
    (0xFA, "invalid value", sets("attributes", "bRefClkFreq", 4)),
    (0xFA, "invalid value", sets("attributes", "bMaxDataInSize", 7)),
    (0xFA, "invalid value", lambda it: it.attributes.write("wContextConf", 1, 0, 1)),
    (0xFB, "invalid SELECTOR", lambda it: it.attributes["wContextConf"]),
    (0xFB, "invalid SELECTOR", lambda it: it.attributes.read("wContextConf", 0, 16)),
    (0xFB, "invalid SELECTOR", lambda it: it.attributes.read("bRefClkFreq", selector=1)),
    (0xFC, "invalid INDEX", lambda it: it.attributes.read("dDynCapNeeded", unit=2)),
    (0xFC, "invalid INDEX", lambda it: it.attributes.read("bRefClkFreq", unit=1)),
    (0xFC, "invalid INDEX", lambda it: it.descriptors.unit(8)),
    (0xFC, "invalid INDEX", lambda it: it.descriptors.string(6)),
    (0xFC, "invalid INDEX", lambda it: it.descriptors.read("Geometry", 1))])
def test_refused_queries(response, meaning, call, device):
    """The lines of the table in docs/PROFILE_1.md, with the names of JESD220, 10.7.9."""
    with pytest.raises(QueryError, match=f"query response {response:02X}h: {meaning}") as told:
        call(device)
    assert (told.value.response, told.value.response_name) == (response, meaning)


def test_a_refusal_tells_what_was_asked(device):
    with pytest.raises(QueryError) as told:
        device.flags["fBusyRTC"] = True
    assert told.value.parameter == "fBusyRTC"
    assert str(told.value) == "fBusyRTC: query response F7h: parameter not writeable"
    with pytest.raises(QueryError) as told:
        device.set_flag(9)
    assert told.value.parameter == "" and str(told.value) == "query response F7h: parameter not writeable"


@pytest.mark.parametrize("close, call", [
    ("bRefClkFreq", lambda it: it.attributes["bRefClkFrek"]), ("bRefClkFreq", sets("attributes", "brefclkfreq", 1)),
    ("fPowerOnWPEn", lambda it: it.flags["fPowerOnWpEn"]), ("fPowerOnWPEn", sets("flags", "fPowerOn", True)),
    ("fBackgroundOpsEn", lambda it: it.flags.toggle("fBackgroundOps")),
    ("Geometry", lambda it: it.descriptors["geometri"]), ("bNumberLU", lambda it: it.descriptors.device["bNumberLUs"])])
def test_names_that_are_not_there(close, call, device):
    """The error tells close ones."""
    with pytest.raises(KeyError, match=f"close to it: .*{close}"):
        call(device)


def test_numbers_that_no_query_has_room_for(device):
    for call in (sets("attributes", "bRefClkFreq", -1), sets("attributes", "bRefClkFreq", 1 << 32),
                 lambda it: it.attributes.read("dDynCapNeeded", unit=256), lambda it: it.descriptors.unit(-1)):
        with pytest.raises(ValueError):
            call(device)


def test_the_words_of_a_mapping(device, monkeypatch):
    """A refusal that does not say that there is none is an error."""
    attributes = device.attributes
    assert "bRefClkFreq" in attributes and attributes.get("bRefClkFreq") == 1
    for name in ("wContextConf", "dSecondsPassed", "bRefClkFrek", 10):
        assert name not in attributes and attributes.get(name) is None and attributes.get(name, 7) == 7

    def refuse(*_):
        raise QueryError(0xFF)

    monkeypatch.setattr(device, "read_attribute", refuse)
    with pytest.raises(QueryError, match="bBootLunEn: .*general failure"):
        list(attributes)


def test_profile_0_has_few(old):
    """It refuses the others, and says so."""
    assert dict(old.attributes) == {"bBootLunEn": 0}
    assert dict(old.flags) == {"fDeviceInit": False, "fPermanentWPEn": False, "fPowerOnWPEn": False}
    assert list(old.descriptors) == ["Device", "Unit"]
    assert nonzero(old.descriptors.device) == DEVICE_OF_PROFILE_0
    assert nonzero(old.descriptors.unit(1)) == UNIT_1
    assert "bRefClkFreq" not in old.attributes and old.attributes.get("bRefClkFreq", 1) == 1
    for name, call in (("bRefClkFreq", lambda: old.attributes["bRefClkFreq"]),
                       ("fBackgroundOpsEn", lambda: old.flags.toggle("fBackgroundOpsEn")),
                       ("Geometry descriptor", lambda: old.descriptors.geometry)):
        with pytest.raises(QueryError, match=f"^{name}: query response FDh: invalid IDN$"):
            call()
    with pytest.raises(QueryError, match="^RPMB Unit descriptor: query response FCh: invalid INDEX$"):
        assert old.descriptors.rpmb_unit


def test_descriptors(device):
    """What they tell that is not zero."""
    told = device.descriptors
    assert list(told)[:len(DESCRIPTORS)] == DESCRIPTORS
    assert nonzero(told.device) == nonzero(told["Device"]) == DEVICE
    assert nonzero(told.configuration) == CONFIGURATION
    assert nonzero(told.geometry) == GEOMETRY
    assert nonzero(told.interconnect) == {"bLength": 6, "bDescriptorIDN": 4, "bcdUniproVersion": 0x0160,
                                          "bcdMphyVersion": 0x0300}
    assert nonzero(told.power) == {"bLength": 98, "bDescriptorIDN": 8} and len(told.power) == 50
    assert nonzero(told.rpmb_unit) == RPMB_UNIT
    assert told.interconnect.raw.hex() == "060401600300" and len(told.configuration.raw) == 144
    assert "Unit" in told and "Units" not in told


def test_descriptors_of_units(device):
    """There are eight, whether the units are there or not."""
    told = device.descriptors
    assert nonzero(told.unit(0)) == nonzero(told["Unit"]) == UNIT_0
    assert nonzero(told.unit(1)) == UNIT_1
    assert nonzero(told.unit(7)) == {**UNIT, "bUnitIndex": 7}


def test_strings(device):
    texts = [device.descriptors.string(it) for it in range(1, 6)]
    assert texts == ["PROFILE ", "UFS PROFILE 2.1 ", "0123456789abcdef", "PROFILE ", "0001"]
    assert device.descriptors.string(device.descriptors.device["iProductName"]) == "UFS PROFILE 2.1 "
    assert device.descriptors["String"].raw.hex() == "1205" "00500052004f00460049004c00450020"


def test_fields_of_a_descriptor():
    """They are those that its bytes have."""
    row = DESCRIPTOR_NAMED["Device Health"]
    told = Fields(row, bytes.fromhex("2509020304") + bytes(32))
    assert dict(told) == {"bLength": 37, "bDescriptorIDN": 9, "bPreEOLInfo": 2, "bDeviceLifeTimeEstA": 3,
                          "bDeviceLifeTimeEstB": 4}
    short = Fields(row, told.raw[:3])
    assert list(short) == ["bLength", "bDescriptorIDN", "bPreEOLInfo"] and "bDeviceLifeTimeEstA" not in short
    assert repr(short) == "<Device Health descriptor {'bLength': 37, 'bDescriptorIDN': 9, 'bPreEOLInfo': 2}>"


def test_without_power_nothing_is_told(device):
    device.power_off()
    for call in (lambda: device.attributes["bBootLunEn"], lambda: "fBusyRTC" in device.flags,
                 lambda: device.descriptors.device):
        with pytest.raises(PowerCut):
            call()
    device.power_on()
