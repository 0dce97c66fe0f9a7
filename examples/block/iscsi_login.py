"""The login of iSCSI (RFC 7143, sections 6 and 11.12): its stages, without authentication."""
from __future__ import annotations

import enum
from typing import NamedTuple, Sequence, Tuple

from iscsi_keys import PORTAL_GROUP, REJECT, TARGET_NAME, Pairs, Parameters, Text, answer_keys
from iscsi_pdu import MOST_DATA, Pdu

TRANSIT = 0x80


class Stage(enum.IntEnum):
    """The stages of a login."""

    SECURITY = 0
    OPERATIONAL = 1
    FULL_FEATURE = 3


class Status(enum.IntEnum):
    """Status class and detail of a login response (11.13.5)."""

    SUCCESS = 0x0000
    INITIATOR_ERROR = 0x0200
    AUTHENTICATION_FAILURE = 0x0201
    NOT_FOUND = 0x0203
    UNSUPPORTED_VERSION = 0x0205
    MISSING_PARAMETER = 0x0207
    NO_SUCH_SESSION_TYPE = 0x0209
    NO_SUCH_SESSION = 0x020A
    INVALID_REQUEST = 0x020B


class Answer(NamedTuple):
    """What a login request is answered."""

    status: Status
    flags: int = 0
    pairs: Sequence[Tuple[str, str]] = ()
    is_last: bool = False


class Login:
    """What a connection has said of itself so far."""

    def __init__(self) -> None:
        self.parameters = Parameters()
        self._text = Text()
        self._has_told_group = False
        self._has_told_length = False

    def take(self, pdu: Pdu) -> Answer:
        """A step of the login."""
        stage, following = pdu.flags >> 2 & 3, pdu.flags & 3
        pairs = self._text.take(pdu)
        if pairs is None:
            return Answer(Status.SUCCESS, stage << 2)
        told = answer_keys(self.parameters, pairs)
        status = self._fault(pdu, pairs, told)
        if status is not Status.SUCCESS:
            return Answer(status)
        told += self._own_keys(stage)
        if not pdu.flags & TRANSIT:
            return Answer(status, stage << 2, told)
        return Answer(status, TRANSIT | stage << 2 | following, told, following == Stage.FULL_FEATURE)

    def _fault(self, pdu: Pdu, pairs: Pairs, told: Pairs) -> Status:
        """Why a login is refused, or SUCCESS."""
        parameters = self.parameters
        stage, following = pdu.flags >> 2 & 3, pdu.flags & 3
        if pdu.header[3]:
            return Status.UNSUPPORTED_VERSION
        if stage not in (Stage.SECURITY, Stage.OPERATIONAL) or (pdu.flags & TRANSIT and following <= stage):
            return Status.INVALID_REQUEST
        if any(pdu.header[14:16]):
            return Status.NO_SUCH_SESSION
        if any(key == "SessionType" and value not in ("Normal", "Discovery") for key, value in pairs):
            return Status.NO_SUCH_SESSION_TYPE
        if ("AuthMethod", REJECT) in told:
            return Status.AUTHENTICATION_FAILURE
        if not parameters.initiator or not (parameters.is_discovery or parameters.target):
            return Status.MISSING_PARAMETER
        if parameters.target not in ("", TARGET_NAME):
            return Status.NOT_FOUND
        return Status.SUCCESS

    def _own_keys(self, stage: int) -> Pairs:
        """What this target declares: its portal group in its first answer, its length in the operational
        stage."""
        own: Pairs = []
        if not self._has_told_group and not self.parameters.is_discovery:
            own.append(("TargetPortalGroupTag", str(PORTAL_GROUP)))
        self._has_told_group = True
        if not self._has_told_length and stage == Stage.OPERATIONAL:
            self._has_told_length = True
            own.append(("MaxRecvDataSegmentLength", str(MOST_DATA)))
        return own
