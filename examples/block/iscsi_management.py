"""Task management of iSCSI (RFC 7143, 11.5 and 11.6), by that of the device (JESD220, 10.7.6)."""
from __future__ import annotations

import enum
from typing import TYPE_CHECKING, Callable, Dict, Iterator, Tuple

from butcherford import messages
from iscsi_pdu import Pdu, is_before
from iscsi_task import CommandTask, lun_of
from machine import Function, Service

if TYPE_CHECKING:
    from iscsi_session import Session

FUNCTION = 0x7F


class Asked(enum.IntEnum):
    """What an initiator asks for."""

    ABORT_TASK = 1
    ABORT_TASK_SET = 2
    CLEAR_ACA = 3
    CLEAR_TASK_SET = 4
    LOGICAL_UNIT_RESET = 5
    TARGET_WARM_RESET = 6
    TARGET_COLD_RESET = 7
    TASK_REASSIGN = 8


class Response(enum.IntEnum):
    """What it is answered."""

    COMPLETE = 0
    NO_TASK = 1
    NO_UNIT = 2
    NO_REASSIGNMENT = 4
    NOT_SUPPORTED = 5


def answer_of(service: int) -> Response:
    """The answer that goes with a service response of the device."""
    return Response.NO_UNIT if service == Service.NO_SUCH_UNIT else Response.COMPLETE


def manage(session: Session, pdu: Pdu) -> Response:
    """Does what is asked for."""
    acts: Dict[int, Callable[[Session, Pdu], Response]] = {
        Asked.ABORT_TASK: abort_task, Asked.ABORT_TASK_SET: abort_task_set, Asked.CLEAR_TASK_SET: clear_unit,
        Asked.LOGICAL_UNIT_RESET: clear_unit, Asked.TARGET_WARM_RESET: reset_target,
        Asked.TARGET_COLD_RESET: reset_target, Asked.TASK_REASSIGN: lambda *_: Response.NO_REASSIGNMENT}
    act = acts.get(pdu.flags & FUNCTION)
    return act(session, pdu) if act is not None else Response.NOT_SUPPORTED


def abort_task(session: Session, pdu: Pdu) -> Response:
    """One task. If it is not there, the command may be on its way yet: then it counts as aborted (11.6.1)."""
    task = session.tasks.get(pdu.word(20))
    if task is None:
        number = pdu.word(32)
        is_coming = is_before(number, pdu.word(24)) and session.take_as_received(number)
        return Response.COMPLETE if is_coming else Response.NO_TASK
    if task.lun_field != pdu.lun:
        return Response.NO_TASK
    task.abort()
    return Response.COMPLETE


def abort_task_set(session: Session, pdu: Pdu) -> Response:
    """The tasks of this session alone: so they are aborted one by one."""
    lun = lun_of(pdu.lun)
    answer = answer_of(session.machine.manage(Function.QUERY_TASK_SET, lun))
    for task in [task for task in session.tasks.values() if task.lun == lun]:
        task.abort()
    return answer


def clear_unit(session: Session, pdu: Pdu) -> Response:
    """All tasks of a unit, by the device's own function. Those of other sessions are told."""
    lun = lun_of(pdu.lun)
    is_reset = pdu.flags & FUNCTION == Asked.LOGICAL_UNIT_RESET
    service = reset(session, lun) if is_reset else session.machine.manage(Function.CLEAR_TASK_SET, lun)
    end_all(session, (lun,))
    return answer_of(service)


def reset(session: Session, lun: int) -> int:
    """A unit is reset by the device's own function. On a device of profile 1 it has an attention for each
    session then, also for the one that asks (SAM-5, 6.3.3)."""
    service = session.machine.manage(Function.LOGICAL_UNIT_RESET, lun)
    if service == Service.COMPLETE and session.machine.device.profile:
        session.sessions.attentions.begin(lun, session.sessions.all.values())
    return service


def reset_target(session: Session, pdu: Pdu) -> Response:
    """Each unit of the device is reset, well-known ones too. After a cold reset all connections of the target
    end."""
    units = (*(unit.number for unit in session.machine.device.units), *messages.WELL_KNOWN_LUNS)
    for lun in units:
        reset(session, lun)
    end_all(session, units)
    if pdu.flags & FUNCTION == Asked.TARGET_COLD_RESET:
        session.sessions.end_all()
    return Response.COMPLETE


def end_all(session: Session, luns: Tuple[int, ...]) -> None:
    """Forgets the tasks of these units, which the device has ended."""
    for owner, task in tuple(tasks_of(session, luns)):
        task.abort(is_told=owner is not session)


def tasks_of(session: Session, luns: Tuple[int, ...]) -> Iterator[Tuple[Session, CommandTask]]:
    """The tasks of these units, in all sessions."""
    for owner in session.sessions.all.values():
        yield from ((owner, task) for task in owner.tasks.values() if task.lun in luns)
