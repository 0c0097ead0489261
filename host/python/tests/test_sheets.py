"""Margins, worksheets and verdicts: document 01's bench, and every refusal as an exception."""

import dataclasses
import threading
import unittest

from usm import (Accepted, Claim, Kind, Leg, Reason, Refusal, Settlement, Side, Style, Table, cash, check_sheet,
                 check_table, margin, margins, mark_paid, worksheet)

DATE = 20110521


def leg(side: Side, kind: Kind, strike: int, **fields) -> Leg:
    return Leg(side, kind, strike * 1000, DATE, 1, underlying=7, **fields)


P1 = [leg(Side.LONG, Kind.CALL, 60), leg(Side.SHORT, Kind.CALL, 50)]
BOX = [leg(Side.LONG, Kind.CALL, 50), leg(Side.SHORT, Kind.CALL, 60), leg(Side.LONG, Kind.PUT, 60),
       leg(Side.SHORT, Kind.PUT, 50)]


def placed(legs, group=1, **fields):
    return [dataclasses.replace(one, group=group, **fields) for one in legs]


class Sheets(unittest.TestCase):
    def refused(self, number, table, place, call, *arguments):
        with self.assertRaises(Refusal) as caught:
            call(*arguments)
        refusal = caught.exception
        self.assertEqual((refusal.number, refusal.table, refusal.place), (number, table, place))
        self.assertEqual(refusal.reason, Reason(number))
        return refusal

    def test_the_margin_and_the_worksheet_of_a_vertical(self):
        placement = placed(P1)
        self.assertEqual(margin(placement, 1), 1_000_000)
        self.assertEqual(margins(placement, 1), [1_000_000])
        self.assertEqual(worksheet(placement, 1), [(50_000, 0), (60_000, -1_000_000)])

    def test_a_european_box_needs_half_and_no_cash(self):
        american = placed(BOX)
        european = placed(BOX, style=Style.EUROPEAN, settlement=Settlement.CASH)
        self.assertEqual((margin(american, 1), margin(european, 1), cash(european, 1)), (0, 500_000, 0))
        self.refused(21, 2, 1, cash, american, 1)

    def test_the_verdict_on_a_sheet(self):
        accepted = check_sheet(P1, placed(P1), [Claim(1, 1_000_000)])
        self.assertEqual(accepted, Accepted(1, 1_000_000, 4))
        self.assertEqual(accepted.line, "ACCEPT 1 1000000")
        self.assertEqual(check_sheet([], [], []), Accepted(0, 0, 0))
        refusal = self.refused(16, 3, 1, check_sheet, P1, placed(P1), [Claim(1, 999_999)])
        self.assertEqual(refusal.line, "REFUSE 16 3 1")
        self.assertEqual(str(refusal), "refusal 16, claims, place 1: a claim is not its group's margin")
        self.refused(14, 1, 0, check_sheet, P1, [], [])
        self.refused(7, 2, 1, margin, [P1[0].in_group(1), *placed(P1[1:], underlying=8)], 1)

    def test_numbers_past_every_limit_are_answered(self):
        self.refused(6, 2, 0, margin, placed(P1), 0)
        self.refused(6, 2, 2**64 - 1, margin, placed(P1), 2**64 - 1)
        self.refused(6, 2, 2, margins, placed(P1), 33)
        self.refused(1, 0, 0, check_sheet, b"x", [], [])
        self.refused(4, 1, 0, check_table, Table.HOLDINGS, placed(P1))
        self.assertEqual(check_table(Table.PLACEMENT, placed(P1)), 2)
        for wrong in (-1, 2**64):
            with self.assertRaises(ValueError):
                margin(placed(P1), wrong)
        for fields in ({"group": 65_536}, {"unit_size": -1}, {"underlying": 2**32}, {"settlement": 256}):
            with self.assertRaises(ValueError):
                margin([dataclasses.replace(P1[0], **fields)], 1)

    def test_the_greatest_margin_fits(self):
        legs = [Leg(side, Kind.CALL, strike, DATE, 100_000, 7, unit_size=1_000, group=1)
                for side, strike in ((Side.LONG, 99_999_999), (Side.SHORT, 1)) for _ in range(128)]
        self.assertEqual(margin(legs, 1), 128 * 100_000 * 1_000 * 99_999_998)

    def test_a_lone_long_is_free_once_it_is_marked(self):
        lone = [P1[0]]
        self.refused(15, 2, 0, check_sheet, lone, lone, [])
        marked = mark_paid(lone)
        self.assertEqual([one.paid for one in marked], [True])
        self.assertEqual(check_sheet(lone, marked, []), Accepted(0, 0, 0))
        self.assertEqual(mark_paid([]), [])

    def test_threads_do_not_disturb_each_other(self):
        wrong = []

        def check(group):
            for _ in range(50):
                if margin(placed(P1, group), group) != 1_000_000:
                    wrong.append(group)

        threads = [threading.Thread(target=check, args=(group,)) for group in range(1, 9)]
        for thread in threads:
            thread.start()
        for thread in threads:
            thread.join()
        self.assertEqual(wrong, [])
