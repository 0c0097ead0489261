"""Reads the legs of a placement from a CSV file, claims the margin of each group, and prints the verdict."""
import csv, decimal, sys
from usm import Claim, Kind, Leg, Refusal, Side, check_sheet, margins

legs = [Leg(Side[row["side"].upper()], Kind[row["type"].upper()], int(decimal.Decimal(row["strike"]) * 1000),
            int(row["expiry"]), int(row["contracts"]), int(row["underlying"]), group=int(row["group"]))
        for row in csv.DictReader(open(sys.argv[1], newline=""))]
try:
    claims = [Claim(g, m) for g, m in enumerate(margins(legs, max(leg.group for leg in legs)), 1)]
    print(check_sheet([leg.in_group(0) for leg in legs], legs, claims).line)
except Refusal as refusal:
    sys.exit(f"{refusal.line}: {refusal}")
