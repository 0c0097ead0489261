"""Universal spread margin and the placement sheet, for Python callers.

The calls are those of the proved library; the rules they keep stand in docs/RULES.md, and what each call promises
in include/usm.h. Every input is answered: with a result, or with a `Refusal`, which is raised and has number,
table, place and reason. Amounts are mills (1/1000 dollar), dates numbers like 20110521.

    from usm import Leg, Claim, Side, Kind, check_sheet

    legs = [Leg(Side.LONG, Kind.CALL, 60_000, 20110521, 1, underlying=7),
            Leg(Side.SHORT, Kind.CALL, 50_000, 20110521, 1, underlying=7)]
    check_sheet(legs, [leg.in_group(1) for leg in legs], [Claim(1, 1_000_000)])

No call keeps any state: all may be made from any number of threads at once.
"""

from .binaries import binary_margin, binary_pair
from .files import Sheet, check_file, file_line, file_table, mark_paid, read, salvage, to_new, to_old, write
from .files import Dropped, Salvaged
from .fills import Played, RefusedFill, play
from .lists import export_list, import_list
from .records import Action, Claim, Fill, Kind, Leg, Market, Root, Settlement, Side, Style
from .refusal import Reason, Refusal
from .sheets import Accepted, Table, cash, check_sheet, check_table, margin, margins, worksheet

__all__ = [
    "Accepted", "Action", "Claim", "Dropped", "Fill", "Kind", "Leg", "Market", "Played", "Reason", "Refusal",
    "RefusedFill", "Root", "Salvaged", "Settlement", "Sheet", "Side", "Style", "Table", "binary_margin",
    "binary_pair", "cash", "check_file", "check_sheet", "check_table", "export_list", "file_line", "file_table",
    "import_list", "margin", "margins", "mark_paid", "play", "read", "salvage", "to_new", "to_old", "worksheet",
    "write",
]
