"""Sheet files: the verdict, reading and writing, the two forms, the paid mark, and salvage."""

from __future__ import annotations

import ctypes
import dataclasses
import os
from typing import List, Optional

from .library import Lent, call, printed
from .records import BYTES, Claim, Leg, records, table
from .refusal import Reason
from .sheets import Accepted, Legs

LONGEST_FILE = 19_968
MOST_BLOCKS = 39
_LEGS_BYTES, _CLAIMS_BYTES, _RECORD_BYTES = 8_192, 1_024, 32
_OLD_FORM, _NEW_FORM = 1, 2


@dataclasses.dataclass
class Sheet:
    """What a sheet file says. With an account the file is of the new form, without one of the old."""

    holdings: List[Leg]
    placement: List[Leg]
    claims: List[Claim]
    account: Optional[int] = None


@dataclasses.dataclass(frozen=True)
class Dropped:
    """A block that a salvage has dropped: its index in the file, from 0, and why."""

    block: int
    reason: Reason


@dataclasses.dataclass(frozen=True)
class Salvaged:
    """A sound file of what was kept, and what was dropped."""

    file: bytes
    dropped: List[Dropped]


def _taken(file: object) -> bytes:
    # bytes() alone would make zeros of a number.
    if isinstance(file, BYTES):
        return bytes(file)
    named = isinstance(file, (str, os.PathLike))
    advice = "; open the file with mode 'rb' and read it" if named else ""
    raise TypeError(f"expected the bytes of a file, found {type(file).__name__}{advice}")


def check_file(file: bytes) -> Accepted:
    """The verdict on a sheet file; one that is not accepted is raised as a `Refusal`."""
    return Accepted(*call("usm_check_file", _taken(file)))


def file_line(file: bytes) -> str:
    """The line that usm_check prints for this file, with its newline."""
    return printed("usm_file_line", _taken(file), 64)


def file_table(file: bytes) -> str:
    """The table that usm_table prints for this file."""
    return printed("usm_file_table", _taken(file), 8_704)


def read(file: bytes) -> Sheet:
    """Takes a sheet file apart; whether its sheet is accepted is for `check_file` to say."""
    holdings, placement = Lent(ctypes.c_uint8, _LEGS_BYTES), Lent(ctypes.c_uint8, _LEGS_BYTES)
    claims, origin = Lent(ctypes.c_uint8, _CLAIMS_BYTES), (ctypes.c_uint64 * 2)()
    counts = call("usm_read_file", _taken(file), holdings, placement, claims, behind=(origin,))
    tables = [lent.bytes(count * _RECORD_BYTES) for lent, count in zip((holdings, placement, claims), counts)]
    form, account = origin
    return Sheet(
        records(Leg, tables[0]),
        records(Leg, tables[1]),
        records(Claim, tables[2]),
        account if form == _NEW_FORM else None,
    )


def write(sheet: Sheet) -> bytes:
    """The file of a sheet. One that no check would accept is written all the same."""
    form, account = (_OLD_FORM, 0) if sheet.account is None else (_NEW_FORM, sheet.account)
    tables = (table(sheet.holdings), table(sheet.placement), table(sheet.claims))
    return _file("usm_write_file", *tables, form, account)


def to_new(file: bytes, account: int) -> bytes:
    """Moves a file of the old form to the new one, with the number of its account in each block."""
    return _file("usm_move_to_new", _taken(file), account)


def to_old(file: bytes) -> bytes:
    """Moves a file of the new form to the old one, which has no account."""
    return _file("usm_move_to_old", _taken(file))


def _file(name: str, *parts: object) -> bytes:
    out = Lent(ctypes.c_uint8, LONGEST_FILE)
    return out.bytes(call(name, *parts, out)[0])


def mark_paid(placement: Legs) -> List[Leg]:
    """The placement with the paid mark on every unplaced long, and all else as it was."""
    before = table(placement)
    lent = Lent(ctypes.c_uint8, len(before))
    lent.entries[:] = before
    call("usm_mark_paid", lent)
    return records(Leg, lent.bytes(len(before)))


def salvage(damaged: bytes) -> Salvaged:
    """Makes a sound file of what is whole in a damaged one, and lists each block that was dropped."""
    out, indices = Lent(ctypes.c_uint8, LONGEST_FILE), Lent(ctypes.c_uint32, MOST_BLOCKS)
    numbers = Lent(ctypes.c_uint8, MOST_BLOCKS)
    length, entries, _ = call("usm_salvage", _taken(damaged), out, indices, numbers)
    dropped = zip(indices.first(entries), numbers.first(entries))
    return Salvaged(out.bytes(length), [Dropped(block, Reason(number)) for block, number in dropped])
