"""The text keys of iSCSI (RFC 7143, section 13): what an initiator offers, and what it is answered."""
from __future__ import annotations

from dataclasses import dataclass
from typing import Callable, Dict, List, Optional, Sequence, Tuple

from iscsi_pdu import Pdu
from loop import Malformed

TARGET_NAME = "iqn.2020-01.example:butcherford"
PORTAL_GROUP = 1
NOT_UNDERSTOOD, REJECT, IRRELEVANT = "NotUnderstood", "Reject", "Irrelevant"
YES, NO, NONE = "Yes", "No", "None"
MOST_SEGMENT = (1 << 24) - 1
LEAST_SEGMENT = 512
MOST_SECONDS = 3600
CONTINUE = 0x40
MOST_TEXT = 1 << 16
Pairs = List[Tuple[str, str]]


@dataclass
class Parameters:
    """What was negotiated. The values here hold where an initiator offers nothing (section 13)."""

    data_of_initiator: int = 8192
    first_burst: int = 65536
    most_burst: int = 262144
    immediate: bool = True
    is_discovery: bool = False
    initiator: str = ""
    target: str = ""


class Text:
    """The text of a request, which may come in several PDUs."""

    def __init__(self) -> None:
        self._came = bytearray()

    def take(self, pdu: Pdu) -> Optional[Pairs]:
        """The keys, once all of them came: with the C bit more follow."""
        self._came += pdu.data
        if len(self._came) > MOST_TEXT:
            raise Malformed("a text is too long")
        if pdu.flags & CONTINUE:
            return None
        pairs = read_keys(bytes(self._came))
        self._came.clear()
        return pairs


def read_keys(text: bytes) -> Pairs:
    """The pairs `key=value` of a data segment, each with a zero byte behind it."""
    pairs = (it.decode("utf-8", "replace").partition("=") for it in text.split(b"\0") if it)
    return [(key, value) for key, _, value in pairs]


def write_keys(pairs: Sequence[Tuple[str, str]]) -> bytes:
    """A data segment with these pairs."""
    return b"".join(f"{key}={value}".encode() + b"\0" for key, value in pairs)


def one_of(*known: str) -> Callable[[Parameters, str], str]:
    """A list of values in the initiator's order: the first one that is known is taken."""
    def answer(_: Parameters, value: str) -> str:
        return next((it for it in value.split(",") if it in known), REJECT)
    return answer


def always(result: str) -> Callable[[Parameters, str], str]:
    """A Yes or No, of which this target takes one alone: by the key's own function that is what comes out."""
    return lambda _, value: result if value in (YES, NO) else REJECT


def least(low: int, high: int, own: int) -> Callable[[Parameters, str], str]:
    """The lesser one of what both want."""
    def answer(_: Parameters, value: str) -> str:
        number = read_number(value)
        return REJECT if number is None or not low <= number <= high else str(min(number, own))
    return answer


def read_number(value: str) -> Optional[int]:
    """A number, decimal or hexadecimal."""
    try:
        return int(value, 16 if value[:2].lower() == "0x" else 10)
    except ValueError:
        return None


def burst(name: str) -> Callable[[Parameters, str], str]:
    """MaxBurstLength or FirstBurstLength: the lesser one of what both want, and kept."""
    def answer(parameters: Parameters, value: str) -> str:
        told = least(LEAST_SEGMENT, MOST_SEGMENT, getattr(Parameters, name))(parameters, value)
        if told != REJECT:
            setattr(parameters, name, int(told))
        return told
    return answer


def immediate_data(parameters: Parameters, value: str) -> str:
    """As the initiator wants."""
    if value not in (YES, NO):
        return REJECT
    parameters.immediate = value == YES
    return value


def greatest(own: int) -> Callable[[Parameters, str], str]:
    """The greater one of what both want."""
    def answer(_: Parameters, value: str) -> str:
        number = read_number(value)
        return REJECT if number is None or not 0 <= number <= MOST_SECONDS else str(max(number, own))
    return answer


# Unsolicited data are refused here: InitialR2T is Yes as soon as one side says so. The order of data is kept.
NEGOTIATED: Dict[str, Callable[[Parameters, str], str]] = {
    "AuthMethod": one_of(NONE),
    "HeaderDigest": one_of(NONE),
    "DataDigest": one_of(NONE),
    "MaxConnections": least(1, 65535, 1),
    "InitialR2T": always(YES),
    "ImmediateData": immediate_data,
    "MaxBurstLength": burst("most_burst"),
    "FirstBurstLength": burst("first_burst"),
    "DefaultTime2Wait": greatest(0),
    "DefaultTime2Retain": least(0, MOST_SECONDS, 0),
    "MaxOutstandingR2T": least(1, 65535, 1),
    "DataPDUInOrder": always(YES),
    "DataSequenceInOrder": always(YES),
    "ErrorRecoveryLevel": least(0, 2, 0),
    "IFMarker": always(NO),
    "OFMarker": always(NO),
    "IFMarkInt": lambda *_: IRRELEVANT,
    "OFMarkInt": lambda *_: IRRELEVANT,
    "TaskReporting": one_of("RFC3720"),
    "iSCSIProtocolLevel": least(0, 31, 1),
}
# What the initiator says of itself and is not answered.
DECLARED = ("InitiatorName", "InitiatorAlias", "TargetName", "SessionType", "MaxRecvDataSegmentLength")


def answer_keys(parameters: Parameters, pairs: Pairs) -> Pairs:
    """Takes what was offered, and gives what is answered."""
    told = []
    for key, value in pairs:
        if key in DECLARED:
            declare(parameters, key, value)
        else:
            told.append((key, NEGOTIATED[key](parameters, value) if key in NEGOTIATED else NOT_UNDERSTOOD))
    parameters.first_burst = min(parameters.first_burst, parameters.most_burst)
    return told


def declare(parameters: Parameters, key: str, value: str) -> None:
    """Keeps what the initiator says of itself."""
    if key == "InitiatorName":
        parameters.initiator = value
    elif key == "TargetName":
        parameters.target = value
    elif key == "SessionType":
        parameters.is_discovery = value == "Discovery"
    elif key == "MaxRecvDataSegmentLength":
        number = read_number(value) or 0
        if LEAST_SEGMENT <= number <= MOST_SEGMENT:
            parameters.data_of_initiator = number
