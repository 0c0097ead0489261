"""Members' lists of option symbols."""

from __future__ import annotations

import ctypes
from typing import Iterable, List, Union

from .library import Lent, call
from .records import Leg, Root, records, table
from .sheets import Legs

Roots = Union[bytes, Iterable[Root]]
_LEGS_BYTES, _LIST_BYTES, _RECORD_BYTES = 8_192, 7_936, 32


def import_list(roots: Roots, text: str) -> List[Leg]:
    """The holdings of a list: one line each, like 'AAPL  110521C00060000 L 10' and a newline."""
    # What is no ASCII is no line, and the library says which.
    listed = text.encode("ascii", "replace")
    holdings = Lent(ctypes.c_uint8, _LEGS_BYTES)
    count = call("usm_import", table(roots), listed, holdings)[0]
    return records(Leg, holdings.bytes(count * _RECORD_BYTES))


def export_list(roots: Roots, holdings: Legs) -> str:
    """The list of holdings: imported again, by the same roots, it is the same holdings."""
    text = Lent(ctypes.c_uint8, _LIST_BYTES)
    length = call("usm_export", table(roots), table(holdings), text)[0]
    return text.bytes(length).decode("ascii")
