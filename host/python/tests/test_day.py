"""What comes before a sheet, or beside it: fills, lists of symbols, credit event binaries."""

import unittest
from dataclasses import replace

from usm import (Action, Fill, Kind, Leg, Reason, Refusal, Root, Settlement, Side, Style, binary_margin,
                 binary_pair, export_list, import_list, play)

CALL = Leg(Side.LONG, Kind.CALL, 60_000, 20110521, 5, underlying=7)
ROOTS = [Root("SPX", 7, style=Style.EUROPEAN, settlement=Settlement.CASH), Root("AAPL", 8)]
LIST = "AAPL  110521C00060000 L 10\nSPX   110521P01300000 S 3\n"


class Day(unittest.TestCase):
    def test_fills_open_and_close(self):
        played = play([CALL], [Fill(Action.OPEN, CALL), Fill(Action.CLOSE, replace(CALL, contracts=11)),
                               Fill(Action.CLOSE, replace(CALL, contracts=3))])
        self.assertEqual([leg.contracts for leg in played.holdings], [7])
        self.assertEqual([(one.index, one.reason) for one in played.refused], [(1, Reason.MORE_CLOSED_THAN_HELD)])
        self.assertEqual(play([CALL], [Fill(Action.CLOSE, CALL)]).holdings, [])
        many = play([], [Fill(Action.CLOSE, CALL)] * 1_024)
        self.assertEqual((many.holdings, len(many.refused), many.refused[-1].index), ([], 1_024, 1_023))
        with self.assertRaises(Refusal) as caught:
            play([], [Fill(Action.OPEN, CALL)] * 1_025)
        self.assertEqual(caught.exception, Refusal(1, 0, 0))

    def test_a_list_becomes_holdings_and_a_list_again(self):
        holdings = import_list(ROOTS, LIST)
        self.assertEqual([(leg.underlying, leg.kind, leg.strike, leg.contracts) for leg in holdings],
                         [(8, Kind.CALL, 60_000, 10), (7, Kind.PUT, 1_300_000, 3)])
        self.assertEqual(export_list(ROOTS, holdings), LIST)
        self.assertEqual(import_list(ROOTS, ""), [])
        for text, refusal in (
            (LIST + "AAPL  110521C00060000 L 10", Refusal(22, 6, 2)),
            ("AÄPL  110521C00060000 L 10\n", Refusal(22, 6, 0)),
            ("IBM   110521C00060000 L 10\n", Refusal(24, 6, 0)),
        ):
            with self.assertRaises(Refusal) as caught:
                import_list(ROOTS, text)
            self.assertEqual(caught.exception, refusal)
        with self.assertRaises(Refusal) as caught:
            import_list(ROOTS + ROOTS[:1], LIST)
        self.assertEqual(caught.exception, Refusal(23, 5, 2))
        with self.assertRaises(ValueError):
            import_list([Root("TOOLONG", 7)], LIST)

    def test_binaries(self):
        self.assertEqual(binary_margin(Side.SHORT, 250, 20110315, 20160620, 10), 700_000)
        pair = dict(long_reference=7, long_spread=250, long_expiry=20160620, long_contracts=8, long_paid=True,
                    short_reference=7, short_spread=250, short_expiry=20160620, short_contracts=10)
        self.assertEqual(binary_pair(20110315, **pair), 140_000)
        pair["short_expiry"] = 20110314
        with self.assertRaises(Refusal) as caught:
            binary_pair(20110315, **pair)
        self.assertEqual(caught.exception, Refusal(25, 0, 1))
