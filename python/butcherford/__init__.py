"""A Universal Flash Storage device in software (JESD220), for hosts and test benches in Python.

The device is the library libufs, whose functions are proved; this package is tested. docs/CLIENTS.md shows both
it and the fixtures for pytest, and docs/FORMATS.md has every byte of the messages.
"""
from .device import Attribute, Descriptor, Device, Flag, Job, JobKind, UnitNumbers
from .errors import (Busy, CheckCondition, ConfigurationError, DeviceClosed, ImageError, MessageFault, NoAnswer,
                     PowerCut, QueryError, Refusal, RpmbError, RpmbResponseError, TaskSetFull, UfsError)
from .queries import Attributes, Descriptors, Fields, Flags
from .rpmb import Rpmb
from .told import Capacity, ModePage, Modes, ModeValues, SupportedOperation, VpdPage
from .unit import Unit

__all__ = ["Attribute", "Attributes", "Busy", "Capacity", "CheckCondition", "ConfigurationError", "Descriptor",
           "Descriptors", "Device", "DeviceClosed", "Fields", "Flag", "Flags", "ImageError", "Job", "JobKind",
           "MessageFault", "ModePage", "Modes", "ModeValues", "NoAnswer", "PowerCut", "QueryError", "Refusal", "Rpmb",
           "RpmbError", "RpmbResponseError", "SupportedOperation", "TaskSetFull", "UfsError", "Unit", "UnitNumbers",
           "VpdPage"]
