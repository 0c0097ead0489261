"""The margin of credit event binary options."""

from __future__ import annotations

from .library import call
from .records import Side


def binary_margin(side: Side, spread: int, valuation: int, expiry: int, contracts: int) -> int:
    """The margin of a position, in mills. The spread is in basis points, dates are like 20110315."""
    return call("usm_binary_margin", side, spread, valuation, expiry, contracts)[0]


def binary_pair(
    valuation: int,
    *,
    long_reference: int,
    long_spread: int,
    long_expiry: int,
    long_contracts: int,
    long_paid: bool,
    short_reference: int,
    short_spread: int,
    short_expiry: int,
    short_contracts: int,
) -> int:
    """The margin, in mills, of a long and a short beside each other, each on a reference obligation."""
    return call(
        "usm_binary_pair", valuation, long_reference, long_spread, long_expiry, long_contracts, long_paid,
        short_reference, short_spread, short_expiry, short_contracts,
    )[0]
