"""Files: the samples, reading and writing, the two forms, and salvage."""

import dataclasses
import re
import unittest

from usm import (Claim, Reason, Refusal, check_file, file_line, file_table, mark_paid, read, salvage, to_new,
                 to_old, write)

from . import SAMPLES, sample


def line_of(file: bytes) -> str:
    try:
        return check_file(file).line
    except Refusal as refusal:
        return refusal.line


class Files(unittest.TestCase):
    def test_the_samples_have_the_lines_of_their_table(self):
        rows = re.findall(r"^\| `([^/`]+\.usm)` \| `([A-Z0-9 ]+)` \|", (SAMPLES / "README.md").read_text(), re.M)
        self.assertGreaterEqual(len(rows), 12)
        for name, line in rows:
            with self.subTest(name):
                self.assertEqual(line_of(sample(name)), line)
                self.assertEqual(file_line(sample(name)), f"{line}\n")

    def test_a_file_is_read_and_written_as_it_was(self):
        files = [path.read_bytes() for path in sorted(SAMPLES.glob("*.usm"))]
        sound = [file for file in files if not line_of(file).startswith(("REFUSE 1 ", "REFUSE 2 ", "REFUSE 3 ",
                                                                         "REFUSE 4 ", "REFUSE 20 "))]
        self.assertGreaterEqual(len(sound), 12)
        for file in sound:
            self.assertEqual(write(read(file)), file)

    def test_what_a_file_says(self):
        sheet = read(sample("vertical.usm"))
        self.assertEqual((len(sheet.holdings), len(sheet.placement), sheet.account), (2, 2, None))
        self.assertEqual(sheet.claims, [Claim(1, 1_000_000)])
        self.assertEqual(sheet.placement, [leg.in_group(1) for leg in sheet.holdings])
        self.assertEqual(file_table(sample("vertical.usm")), "GROUP 1 1000000\n50000 0\n60000 -1000000\n")

    def test_the_two_forms(self):
        old = sample("vertical.usm")
        for account in (1, 2**32, 2**64 - 1):
            new = to_new(old, account)
            self.assertEqual(read(new).account, account)
            self.assertEqual(write(dataclasses.replace(read(old), account=account)), new)
            self.assertEqual(to_old(new), old)
        for wrong, number in ((lambda: to_new(old, 0), 20), (lambda: to_old(old), 3)):
            with self.assertRaises(Refusal) as caught:
                wrong()
            self.assertEqual(caught.exception, Refusal(number, 0, 0))

    def test_any_bytes_are_answered(self):
        for file in (b"", b"x", bytes(512), bytes(512 * 39), bytes(512 * 40), b"holdings\n" * 1000):
            self.assertEqual(line_of(file) + "\n", file_line(file))
        for kind in (bytearray, memoryview):
            self.assertEqual(line_of(kind(sample("box.usm"))), "ACCEPT 1 0")

    def test_what_is_no_bytes_is_not_taken_for_a_file(self):
        path = SAMPLES / "box.usm"
        advice = "; open the file with mode 'rb' and read it"
        wrong = ((5, "int"), ([0, 1], "list"), (None, "NoneType"), (str(path), f"str{advice}"),
                 (path, f"{type(path).__name__}{advice}"))
        calls = (check_file, file_line, file_table, read, to_old, salvage, lambda file: to_new(file, 1))
        for file, found in wrong:
            for call in calls:
                with self.assertRaises(TypeError) as caught:
                    call(file)
                self.assertEqual(str(caught.exception), f"expected the bytes of a file, found {found}")

    def test_a_damaged_file_is_salvaged(self):
        damaged = (SAMPLES / "salvage" / "one-bad-block.usm").read_bytes()
        with self.assertRaises(Refusal):
            read(damaged)
        saved = salvage(damaged)
        self.assertEqual([(one.block, one.reason) for one in saved.dropped], [(3, Reason.CHECKS_DIFFER)])
        self.assertEqual(len(saved.file), len(damaged) - 512)
        self.assertEqual(line_of(saved.file), "REFUSE 11 2 1")
        whole = sample("box.usm")
        self.assertEqual((salvage(whole).file, salvage(whole).dropped), (whole, []))
        with self.assertRaises(Refusal) as caught:
            salvage(b"nothing of it")
        self.assertEqual(caught.exception.number, 2)

    def test_the_paid_mark_makes_an_old_sheet_good(self):
        sheet = read(sample("lone-unplaced-long.usm"))
        unmarked = dataclasses.replace(
            sheet, placement=[dataclasses.replace(leg, paid=False) for leg in sheet.placement])
        self.assertEqual(line_of(write(unmarked)), "REFUSE 15 2 0")
        marked = dataclasses.replace(unmarked, placement=mark_paid(unmarked.placement))
        self.assertEqual(write(marked), sample("lone-unplaced-long.usm"))
