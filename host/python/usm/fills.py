"""Holdings built from the day's fills."""

from __future__ import annotations

import ctypes
import dataclasses
from typing import Iterable, List, Union

from .library import Lent, call
from .records import Fill, Leg, records, table
from .refusal import Reason
from .sheets import Legs

MOST_FILLS = 1_024
_LEGS_BYTES, _RECORD_BYTES = 8_192, 32


@dataclasses.dataclass(frozen=True)
class RefusedFill:
    """A fill that was refused: its index, from 0, and why. It changed nothing."""

    index: int
    reason: Reason


@dataclasses.dataclass(frozen=True)
class Played:
    """What is held in the end, one record for each line and side, and the fills that were refused."""

    holdings: List[Leg]
    refused: List[RefusedFill]


def play(holdings: Legs, fills: Union[bytes, Iterable[Fill]]) -> Played:
    """Plays fills, in order, over yesterday's holdings."""
    result = Lent(ctypes.c_uint8, _LEGS_BYTES)
    indices, numbers = Lent(ctypes.c_uint32, MOST_FILLS), Lent(ctypes.c_uint8, MOST_FILLS)
    held, listed, _ = call("usm_play_fills", table(holdings), table(fills), result, indices, numbers)
    refused = zip(indices.first(listed), numbers.first(listed))
    return Played(
        records(Leg, result.bytes(held * _RECORD_BYTES)),
        [RefusedFill(index, Reason(number)) for index, number in refused],
    )
