"""Unit attentions of a target with several sessions (SAM-5, 5.14), over a device that has one host.

The device refuses the first command that comes to a unit behind a reset of it, and then its attention has
ended. So that tells one session. Each other one is told by this target.
"""
from __future__ import annotations

from typing import TYPE_CHECKING, Dict, Iterable, Set

if TYPE_CHECKING:
    from iscsi_session import Session


class Attentions:
    """Which sessions are to be told yet that a unit was reset, and of which units the device will tell it."""

    def __init__(self) -> None:
        self._to_tell: Dict[int, Set[Session]] = {}
        self._of_device: Set[int] = set()

    def begin(self, lun: int, sessions: Iterable[Session]) -> None:
        """The unit was reset, and the device has an attention for it."""
        self._to_tell[lun] = set(sessions)
        self._of_device.add(lun)

    def take(self, lun: int, session: Session) -> bool:
        """Whether this target has to tell the session, which it does at once."""
        is_due = lun not in self._of_device and session in self._to_tell.get(lun, ())
        if is_due:
            self._to_tell[lun].remove(session)
        return is_due

    def told(self, lun: int, session: Session) -> None:
        """The device has told the session."""
        self._of_device.discard(lun)
        self._to_tell.get(lun, set()).discard(session)

    def forget(self, session: Session) -> None:
        """The session has ended."""
        for sessions in self._to_tell.values():
            sessions.discard(session)
