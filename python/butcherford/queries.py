"""The attributes, flags and descriptors of a device as mappings, by the names of the standard."""
from __future__ import annotations

import contextlib
from typing import TYPE_CHECKING, Iterator, Mapping, Optional, Sequence, TypeVar, Union, overload

from .errors import QueryError
from .messages import number_at
from .parameters import (ATTRIBUTE_NAMED, DESCRIPTOR_NAMED, FLAG_NAMED, DescriptorRow, Indexes,
                         row_named)

if TYPE_CHECKING:
    from .device import Device

Value = TypeVar("Value")
Other = TypeVar("Other")
# With these a device says that it has no such parameter.
INVALID_INDEX, INVALID_IDN = 0xFC, 0xFD
LARGEST = 0xFFFFFFFF


@contextlib.contextmanager
def telling(parameter: str) -> Iterator[None]:
    """A query that is refused inside it raises an error that tells the name."""
    try:
        yield
    except QueryError as refusal:
        raise QueryError(refusal.response, parameter) from None


class Told(Mapping[str, Value]):
    """What a device tells of itself, by names. Each look asks the device, and nothing is kept.

    Those are in it that the device has and tells at index 0. A name that the standard does not have
    raises `KeyError`, and a query that the device refuses raises `QueryError`.
    """

    def __init__(self, device: Device, names: Sequence[str]) -> None:
        self._device = device
        self._names = tuple(names)

    def __iter__(self) -> Iterator[str]:
        return filter(self._is_told, self._names)

    def __len__(self) -> int:
        return sum(1 for _ in self)

    def __contains__(self, name: object) -> bool:
        return isinstance(name, str) and name in self._names and self._is_told(name)

    @overload
    def get(self, name: str, /) -> Optional[Value]: ...

    @overload
    def get(self, name: str, /, default: Union[Value, Other]) -> Union[Value, Other]: ...

    def get(self, name: str, /, default: object = None) -> object:
        """The value, or `default` for a name that is not in it."""
        return self[name] if name in self else default

    def _is_told(self, name: str) -> bool:
        """Whether the device has it. Another refusal than that it has none is raised."""
        try:
            self[name]
        except QueryError as refusal:
            if refusal.response not in (INVALID_INDEX, INVALID_IDN):
                raise
            return False
        return True


class Attributes(Told[int]):
    """The attributes of a device (JESD220, 14.3). To give one a value is to write it."""

    def __init__(self, device: Device) -> None:
        # A context is named by a selector, which is never 0.
        super().__init__(device, [it.name for it in ATTRIBUTE_NAMED.values()
                                  if "R" in it.access and it.indexes is not Indexes.CONTEXTS])

    def __getitem__(self, name: str) -> int:
        return self.read(name)

    def __setitem__(self, name: str, value: int) -> None:
        self.write(name, value)

    def read(self, name: str, unit: int = 0, selector: int = 0) -> int:
        """The value of an attribute, which may be one of a unit, or of a context of it."""
        row = row_named(ATTRIBUTE_NAMED, name, "attribute")
        with telling(name):
            return self._device.read_attribute(row.idn, unit, selector)

    def write(self, name: str, value: int, unit: int = 0, selector: int = 0) -> None:
        """Writes an attribute. Which values there are is for the device to say."""
        row = row_named(ATTRIBUTE_NAMED, name, "attribute")
        if not 0 <= value <= LARGEST:
            raise ValueError(f"a query has no room for this value: {value}")
        with telling(name):
            self._device.write_attribute(row.idn, value, unit, selector)


class Flags(Told[bool]):
    """The flags of a device (JESD220, 14.2). To make one `True` sets it, and `False` clears it."""

    def __init__(self, device: Device) -> None:
        super().__init__(device, [it.name for it in FLAG_NAMED.values() if "R" in it.access])

    def __getitem__(self, name: str) -> bool:
        row = row_named(FLAG_NAMED, name, "flag")
        with telling(name):
            return self._device.read_flag(row.idn)

    def __setitem__(self, name: str, value: bool) -> None:
        row = row_named(FLAG_NAMED, name, "flag")
        with telling(name):
            if value:
                self._device.set_flag(row.idn)
            else:
                self._device.clear_flag(row.idn)

    def toggle(self, name: str) -> bool:
        """Turns a flag over, and says whether it is set then."""
        row = row_named(FLAG_NAMED, name, "flag")
        with telling(name):
            return self._device.toggle_flag(row.idn)


class Fields(Mapping[str, int]):
    """The numbers in a descriptor, by the names of its fields. They are as the device told them."""

    def __init__(self, row: DescriptorRow, raw: bytes) -> None:
        self.name = row.name
        """The name of the descriptor."""
        self.raw = raw
        """All its bytes."""
        self._fields = {it.name: it for it in row.fields if it.offset + it.size <= len(raw)}

    def __getitem__(self, name: str) -> int:
        field = row_named(self._fields, name, f"field of the {self.name} descriptor")
        return number_at(self.raw, field.offset, field.size)

    def __iter__(self) -> Iterator[str]:
        return iter(self._fields)

    def __len__(self) -> int:
        return len(self._fields)

    def __repr__(self) -> str:
        return f"<{self.name} descriptor {dict(self)}>"


class Descriptors(Told[Fields]):
    """The descriptors of a device, by their names (JESD220, 14.1). `["Unit"]` is that of unit 0."""

    def __init__(self, device: Device) -> None:
        super().__init__(device, [*DESCRIPTOR_NAMED])

    def __getitem__(self, name: str) -> Fields:
        return self.read(name)

    def read(self, name: str, index: Optional[int] = None) -> Fields:
        """A descriptor with this index; without one, the first that there is."""
        row = row_named(DESCRIPTOR_NAMED, name, "descriptor")
        with telling(f"{name} descriptor"):
            at = row.first if index is None else index
            return Fields(row, self._device.read_descriptor(row.idn, at))

    @property
    def device(self) -> Fields:
        """What the device is."""
        return self["Device"]

    @property
    def configuration(self) -> Fields:
        """How its units are configured: `["dNumAllocUnits[0]"]` is of unit 0."""
        return self["Configuration"]

    @property
    def geometry(self) -> Fields:
        """How much it has, and in which pieces."""
        return self["Geometry"]

    @property
    def interconnect(self) -> Fields:
        """The versions of its interconnect."""
        return self["Interconnect"]

    @property
    def power(self) -> Fields:
        """The currents of its levels: `["wActiveICCLevelsVCC[0]"]` is of level 0."""
        return self["Power"]

    @property
    def health(self) -> Fields:
        """How worn it is."""
        return self["Device Health"]

    @property
    def rpmb_unit(self) -> Fields:
        """What the unit of the RPMB is."""
        return self["RPMB Unit"]

    def unit(self, number: int) -> Fields:
        """What a unit is."""
        return self.read("Unit", number)

    def string(self, index: int) -> str:
        """The text of a string. The device descriptor has the indexes, as iProductName."""
        raw = self.read("String", index).raw
        return raw[2:raw[0]].decode("utf-16-be")
