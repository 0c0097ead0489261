"""Legs, claims, fills and roots as values, and as the 32 and 16 bytes that the library takes."""

from __future__ import annotations

import dataclasses
import enum
import struct
from typing import ClassVar, Iterable, List, Type, TypeVar, Union


class Side(enum.IntEnum):
    """Whether an option is held or written."""

    LONG = 1
    SHORT = 2


class Kind(enum.IntEnum):
    """The type of an option."""

    CALL = 1
    PUT = 2


class Style(enum.IntEnum):
    """When an option can be exercised."""

    AMERICAN = 1
    EUROPEAN = 2


class Market(enum.IntEnum):
    """Where an option is traded."""

    LISTED = 1
    OTC = 2


class Settlement(enum.IntEnum):
    """What an exercise is settled by."""

    NOT_STATED = 0
    CASH = 1
    PHYSICAL = 2


class Action(enum.IntEnum):
    """What a fill does to the lot of its side."""

    OPEN = 1
    CLOSE = 2


class _Packed:
    """A record of fixed layout. Only what no byte can hold is refused here: the library looks at the rest."""

    layout: ClassVar[struct.Struct]

    def to_bytes(self) -> bytes:
        try:
            return self.layout.pack(*self._fields())
        except struct.error as error:
            raise ValueError(f"{self}: {error}") from None

    def _fields(self) -> tuple:
        raise NotImplementedError


@dataclasses.dataclass(frozen=True)
class Leg(_Packed):
    """One record of the holdings (group 0) or of the placement (group 0 is not placed)."""

    side: Side
    kind: Kind
    strike: int  # mills for one unit
    expiry: int  # like 20110521
    contracts: int
    underlying: int
    unit_size: int = 100
    style: Style = Style.AMERICAN
    market: Market = Market.LISTED
    settlement: Settlement = Settlement.NOT_STATED
    paid: bool = False
    group: int = 0

    layout: ClassVar[struct.Struct] = struct.Struct("<HBBBBHIIIIBB6x")

    def in_group(self, group: int) -> Leg:
        """The same leg, placed in a group."""
        return dataclasses.replace(self, group=group)

    def _fields(self) -> tuple:
        return (self.group, self.side, self.kind, self.style, self.market, self.unit_size, self.underlying,
                self.strike, self.expiry, self.contracts, self.settlement, self.paid)

    @classmethod
    def from_bytes(cls, record: bytes) -> Leg:
        (group, side, kind, style, market, unit_size, underlying, strike, expiry, contracts, settlement,
         paid) = cls.layout.unpack(record)
        return cls(Side(side), Kind(kind), strike, expiry, contracts, underlying, unit_size, Style(style),
                   Market(market), Settlement(settlement), bool(paid), group)


@dataclasses.dataclass(frozen=True)
class Claim(_Packed):
    """The margin, in mills, that is claimed for a group."""

    group: int
    margin: int

    layout: ClassVar[struct.Struct] = struct.Struct("<H6xQ16x")

    def _fields(self) -> tuple:
        return (self.group, self.margin)

    @classmethod
    def from_bytes(cls, record: bytes) -> Claim:
        return cls(*cls.layout.unpack(record))


@dataclasses.dataclass(frozen=True)
class Fill(_Packed):
    """What a fill opens or closes; the leg has group 0 and no paid mark."""

    action: Action
    leg: Leg

    def to_bytes(self) -> bytes:
        record = bytearray(self.leg.to_bytes())
        record[26] = self.action
        return bytes(record)


@dataclasses.dataclass(frozen=True)
class Root(_Packed):
    """What the root of an option symbol stands for."""

    name: str
    underlying: int
    unit_size: int = 100
    style: Style = Style.AMERICAN
    market: Market = Market.LISTED
    settlement: Settlement = Settlement.NOT_STATED

    layout: ClassVar[struct.Struct] = struct.Struct("<6sBBHBxI")

    def _fields(self) -> tuple:
        name = self.name.encode("ascii", "replace")
        if len(name) > 6:
            raise ValueError(f"a root has at most six characters: {self.name}")
        return (name.ljust(6), self.style, self.market, self.unit_size, self.settlement, self.underlying)


Record = Union[Leg, Claim, Fill, Root]
Read = TypeVar("Read", Leg, Claim)
BYTES = (bytes, bytearray, memoryview)


def table(records: Union[bytes, bytearray, memoryview, Iterable[Record]]) -> bytes:
    """The bytes of a table: the records' own, or, of a table that is bytes already, as it stands."""
    if isinstance(records, BYTES):
        return bytes(records)
    return b"".join(record.to_bytes() for record in records)


def records(kind: Type[Read], table: bytes) -> List[Read]:
    """The records of a table that the library has written or accepted."""
    return [kind.from_bytes(record) for (record,) in struct.iter_unpack("32s", table)]
