"""The module itself: its numbers are those of usm.h, its example runs, and a missing library is told."""

import os
import re
import subprocess
import sys
import unittest

import usm
from usm import Kind, Leg, Market, Reason, Settlement, Side, Style

from . import HOST

HEADER = (HOST / "include" / "usm.h").read_text()
PYTHON = HOST / "python"


def constants(start: str) -> dict:
    return {name: int(value) for name, value in re.findall(rf"\b{start}(\w+) = (\d+)", HEADER)}


def run(*words: str, **variables: str) -> subprocess.CompletedProcess:
    environment = {**os.environ, "PYTHONPATH": str(PYTHON), **variables}
    return subprocess.run([sys.executable, *words], env=environment, capture_output=True, text=True, check=False)


class Module(unittest.TestCase):
    def test_the_refusals_are_those_of_the_header(self):
        refusals = re.search(r"/\* The refusals.*?\};", HEADER, re.S).group()
        named = {name: int(number) for name, number in re.findall(r"USM_(\w+) = (\d+)", refusals)}
        self.assertEqual({reason.name: reason.value for reason in Reason}, named)
        self.assertTrue(all(reason.sentence for reason in Reason))

    def test_a_leg_has_its_fields_where_the_header_says(self):
        at = constants("USM_LEG_")
        leg = Leg(Side.SHORT, Kind.PUT, 0x01020304, 0x05060708, 0x090A0B0C, 0x0D0E0F10, 0x1112, Style.EUROPEAN,
                  Market.OTC, Settlement.PHYSICAL, True, 0x1314)
        record = leg.to_bytes()
        for field, value, length in (("GROUP", 0x1314, 2), ("SIDE", 2, 1), ("TYPE", 2, 1), ("STYLE", 2, 1),
                                     ("MARKET", 2, 1), ("UNIT_SIZE", 0x1112, 2), ("UNDERLYING", 0x0D0E0F10, 4),
                                     ("STRIKE", 0x01020304, 4), ("EXPIRY", 0x05060708, 4),
                                     ("CONTRACTS", 0x090A0B0C, 4), ("SETTLEMENT", 2, 1), ("PAID", 1, 1),
                                     ("FILLER", 0, 6)):
            found = int.from_bytes(record[at[field]:at[field] + length], "little")
            self.assertEqual(found, value, field)
        self.assertEqual(len(record), 32)
        self.assertEqual(Leg.from_bytes(record), leg)

    def test_every_call_of_the_header_is_there(self):
        calls = set(re.findall(r"\b(usm_\w+)\(const|\b(usm_\w+)\(uint", HEADER))
        names = {name for pair in calls for name in pair if name}
        source = "".join(path.read_text() for path in (PYTHON / "usm").glob("*.py"))
        self.assertGreaterEqual(len(names), 20)
        self.assertEqual({name for name in names if f'"{name}"' not in source}, set())

    def test_every_name_has_its_words(self):
        for name in usm.__all__:
            self.assertTrue(getattr(usm, name).__doc__, name)

    def test_the_example_prints_a_verdict(self):
        done = run(str(PYTHON / "example.py"), str(PYTHON / "example.csv"))
        self.assertEqual((done.returncode, done.stdout, done.stderr), (0, "ACCEPT 2 1500000\n", ""))

    def test_a_missing_library_is_told(self):
        done = run("-c", "import usm; usm.check_file(b'')", USM_LIBRARY="/nowhere/libusm.so.0")
        self.assertEqual((done.returncode, done.stdout), (1, ""))
        self.assertIn("ImportError: libusm.so.0 was not found: host/install puts it below a prefix", done.stderr)
