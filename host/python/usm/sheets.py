"""Margins, worksheets and the verdict on a sheet that is given as tables."""

from __future__ import annotations

import ctypes
import dataclasses
import enum
from typing import Iterable, List, Tuple, Union

from .library import Lent, call
from .records import Claim, Leg, table

Legs = Union[bytes, Iterable[Leg]]
Claims = Union[bytes, Iterable[Claim]]
MOST_LEGS = 256
MOST_CLAIMS = 32


class Table(enum.IntEnum):
    """The tables of a sheet."""

    HOLDINGS = 1
    PLACEMENT = 2
    CLAIMS = 3


@dataclasses.dataclass(frozen=True)
class Accepted:
    """A sheet that is accepted: its groups, its total margin in mills, and how many values that took."""

    groups: int
    total: int
    work: int

    @property
    def line(self) -> str:
        """The line that usm_check prints of it."""
        return f"ACCEPT {self.groups} {self.total}"


def check_table(kind: Table, records: Union[Legs, Claims]) -> int:
    """How many records a table has, if its size and all its fields are right."""
    return call("usm_check_table", kind, table(records))[0]


def margin(placement: Legs, group: int) -> int:
    """The margin of a group of the placement, in mills."""
    return call("usm_margin", table(placement), group)[0]


def cash(placement: Legs, group: int) -> int:
    """The cash, in mills, that a group requires in a cash account."""
    return call("usm_cash", table(placement), group)[0]


def margins(placement: Legs, groups: int) -> List[int]:
    """The margins of groups 1 to `groups`, in mills."""
    out = Lent(ctypes.c_int64, MOST_CLAIMS)
    count = call("usm_margins", table(placement), groups, out)[0]
    return out.first(count)


def worksheet(placement: Legs, group: int) -> List[Tuple[int, int]]:
    """The distinct strikes of a group, ascending, each with the group's net there, all in mills."""
    strikes, nets = Lent(ctypes.c_uint32, MOST_LEGS), Lent(ctypes.c_int64, MOST_LEGS)
    count = call("usm_worksheet", table(placement), group, strikes, nets)[0]
    return list(zip(strikes.first(count), nets.first(count)))


def check_sheet(holdings: Legs, placement: Legs, claims: Claims) -> Accepted:
    """The verdict on a sheet; one that is not accepted is raised as a `Refusal`."""
    return Accepted(*call("usm_check_sheet", table(holdings), table(placement), table(claims)))
