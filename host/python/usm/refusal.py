"""What is refused, and why."""

from __future__ import annotations

import enum


class Reason(enum.IntEnum):
    """The refusals by number, under the names that usm.h has for them."""

    WRONG_SIZE = 1
    CHECKS_DIFFER = 2
    BLOCK_OUT_OF_FORM = 3
    FIELD_OUT_OF_RANGE = 4
    GROUPS_MISNUMBERED = 5
    NO_LEG = 6
    UNDERLYINGS_DIFFER = 7
    STYLES_DIFFER = 8
    MARKETS_DIFFER = 9
    SERIES_LONG_AND_SHORT = 10
    CALL_UNITS_UNEQUAL = 11
    PUT_UNITS_UNEQUAL = 12
    SHORT_OUTLIVES_LONG = 13
    CONTRACTS_DIFFER = 14
    NOT_PLACED = 15
    CLAIM_NOT_MARGIN = 16
    NO_ROOM = 17
    MORE_CLOSED_THAN_HELD = 18
    TOO_MUCH_HELD = 19
    WRONG_ACCOUNT = 20
    NOT_FIT_FOR_CASH = 21
    LINE_MALFORMED = 22
    ROOTS_ILL_FORMED = 23
    NOT_IN_ROOTS = 24
    EXPIRY_BEFORE_VALUATION = 25

    @property
    def sentence(self) -> str:
        """The reason in words."""
        return _SENTENCES[self]


_SENTENCES = {
    Reason.WRONG_SIZE: "a table, a list or a file of a wrong size",
    Reason.CHECKS_DIFFER: "a block's check sums differ, or nothing can be salvaged",
    Reason.BLOCK_OUT_OF_FORM: "a fault of a block's form, number or order, or a table past its limit",
    Reason.FIELD_OUT_OF_RANGE: "a field is out of range",
    Reason.GROUPS_MISNUMBERED: "claims are not numbered 1 to n, or a placed group is above n",
    Reason.NO_LEG: "the group has no leg, or is not 1 to 32",
    Reason.UNDERLYINGS_DIFFER: "underlyings differ in a group",
    Reason.STYLES_DIFFER: "styles differ in a group",
    Reason.MARKETS_DIFFER: "markets differ in a group",
    Reason.SERIES_LONG_AND_SHORT: "a series is both long and short in a group",
    Reason.CALL_UNITS_UNEQUAL: "long and short call units are unequal",
    Reason.PUT_UNITS_UNEQUAL: "long and short put units are unequal",
    Reason.SHORT_OUTLIVES_LONG: "a short outlives a long",
    Reason.CONTRACTS_DIFFER: "holdings and placement differ in the contracts of a line and side",
    Reason.NOT_PLACED: "a short, or a long without the paid mark, is not placed",
    Reason.CLAIM_NOT_MARGIN: "a claim is not its group's margin",
    Reason.NO_ROOM: "there is no room in a lent buffer",
    Reason.MORE_CLOSED_THAN_HELD: "a fill closes more contracts than are held",
    Reason.TOO_MUCH_HELD: "more than 100,000 contracts of a line and side, or a 257th line and side",
    Reason.WRONG_ACCOUNT: "an account that is zero, or not that of the first block",
    Reason.NOT_FIT_FOR_CASH: "the group is not fit for a cash account",
    Reason.LINE_MALFORMED: "a line of a list is malformed, or has no newline",
    Reason.ROOTS_ILL_FORMED: "a table of roots of a wrong size, or a root that is ill formed or there twice",
    Reason.NOT_IN_ROOTS: "a root, or the terms of a holding, are not in the table of roots",
    Reason.EXPIRY_BEFORE_VALUATION: "an expiry before the valuation date",
}

_TABLES = ("no table", "holdings", "placement", "claims", "fills", "roots", "list")


class Refusal(Exception):
    """The first refusal in the rules' order. Records, blocks, roots and lines count from 0, groups from 1."""

    def __init__(self, number: int, table: int, place: int) -> None:
        super().__init__(number, table, place)
        self.number = number
        self.table = table
        self.place = place

    @property
    def reason(self) -> Reason:
        """The number by its name."""
        return Reason(self.number)

    @property
    def line(self) -> str:
        """The line that usm_check prints of a sheet that is refused so."""
        return f"REFUSE {self.number} {self.table} {self.place}"

    def __str__(self) -> str:
        return f"refusal {self.number}, {_TABLES[self.table]}, place {self.place}: {self.reason.sentence}"

    def __eq__(self, other: object) -> bool:
        return isinstance(other, Refusal) and self.args == other.args

    def __hash__(self) -> int:
        return hash(self.args)
