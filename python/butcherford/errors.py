"""What goes wrong: the faults of the library, the refusals of the device, and the power cut."""
from __future__ import annotations

from typing import Dict, Optional, Tuple, Type


class UfsError(Exception):
    """A call went wrong.

    `number` is the fault of the library (`enum ufs_fault` in include/ufs.h), or 0 where the library took the
    message and the device refused it. `text` says it in words.
    """

    def __init__(self, number: int, text: str) -> None:
        super().__init__(text)
        self.number = number
        self.text = text


class DeviceClosed(UfsError):
    """The device is closed."""


class ConfigurationError(UfsError):
    """The numbers give no device: one is out of its range, or they leave too few blocks."""


class ImageError(UfsError):
    """The bytes are no image of such dies, or hold another configuration."""


class MessageFault(UfsError):
    """The device did not take a message, and changed nothing."""


class Refusal(UfsError):
    """The device took a message, and did not do what it asks."""

    def __init__(self, text: str) -> None:
        super().__init__(0, text)


class CheckCondition(Refusal):
    """A command ended with CHECK CONDITION.

    `key`, `code` and `qualifier` are the sense key, the additional sense code (ASC) and its qualifier (ASCQ).
    """

    def __init__(self, key: int, code: int, qualifier: int) -> None:
        super().__init__(f"CHECK CONDITION {key:X}/{code:02X}/{qualifier:02X}")
        self.key = key
        self.code = code
        self.qualifier = qualifier

    @property
    def sense(self) -> Tuple[int, int, int]:
        """Key, code and qualifier together."""
        return self.key, self.code, self.qualifier


class Busy(Refusal):
    """A command ended with BUSY: the write cache has no room for it, though the dies had time to work."""

    def __init__(self) -> None:
        super().__init__("BUSY")


class TaskSetFull(Refusal):
    """A command ended with TASK SET FULL: 32 of them are open."""

    def __init__(self) -> None:
        super().__init__("TASK SET FULL")


class NoAnswer(Refusal):
    """The dies worked for many rounds, and no answer came: as where a device is nearly full."""


# The names of the standard for the response codes of a refused query (JESD220, 10.7.9).
QUERY_RESPONSES: Dict[int, str] = {
    0xF6: "parameter not readable", 0xF7: "parameter not writeable",
    0xF8: "parameter already written", 0xF9: "invalid LENGTH", 0xFA: "invalid value",
    0xFB: "invalid SELECTOR", 0xFC: "invalid INDEX", 0xFD: "invalid IDN",
    0xFE: "invalid OPCODE", 0xFF: "general failure"}


class QueryError(Refusal):
    """A query was refused.

    `response` is the response code, F6h to FFh, and `response_name` its name in the standard.
    `parameter` is the name of what was asked for, if it was asked for by its name, and else empty.
    """

    def __init__(self, response: int, parameter: str = "") -> None:
        name = QUERY_RESPONSES.get(response, "unknown")
        asked = f"{parameter}: " if parameter else ""
        super().__init__(f"{asked}query response {response:02X}h: {name}")
        self.response = response
        self.response_name = name
        self.parameter = parameter


RPMB_RESULTS: Dict[int, str] = {
    1: "general failure", 2: "authentication failure", 3: "counter failure", 4: "address failure",
    5: "write failure", 6: "read failure", 7: "authentication key not yet programmed"}


class RpmbError(Refusal):
    """A request to the RPMB failed. `result` is the result code of the response."""

    def __init__(self, result: int, text: Optional[str] = None) -> None:
        super().__init__(text or f"RPMB result {result:04X}h: {RPMB_RESULTS.get(result & 0x7F, 'unknown')}")
        self.result = result


class RpmbResponseError(RpmbError):
    """A response of the RPMB is not what it has to be: its MAC, nonce, type, address or counter is wrong."""

    def __init__(self, result: int, what: str) -> None:
        super().__init__(result, f"RPMB response: {what} is wrong")


class PowerCut(Exception):
    """The power is away: each call of the device ends so, until the power is back.

    It is no `UfsError`, so code that catches these does not go on as if the power were there.
    """


def fault_class(number: int) -> Type[UfsError]:
    """The class of a fault of the library."""
    if number == 1:
        return DeviceClosed
    if number in (4, 5, 6):
        return ConfigurationError
    if number in (7, 8):
        return ImageError
    return MessageFault if 21 <= number <= 29 else UfsError
