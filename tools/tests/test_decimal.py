"""Tests of tools/decimal.jq against Python's decimals; without jq they are skipped."""
import json
import shutil
import subprocess
import unittest
from decimal import Decimal
from pathlib import Path

TOOLS = Path(__file__).resolve().parent.parent


@unittest.skipUnless(shutil.which("jq"), "needs jq")
class Decimals(unittest.TestCase):
    def texts(self, numbers):
        lines = "".join(json.dumps({"mantissa": it[0], "exponent": it[1]}) + "\n" for it in numbers)
        done = subprocess.run(
            ["jq", "-L", TOOLS, "-c", 'include "decimal"; decimal'], input=lines, capture_output=True, text=True, check=True
        )
        return [json.loads(line) for line in done.stdout.splitlines()]

    def test_as_many_digits_as_the_exponent_says(self):
        mantissas = [0, 1, -1, 7, 10, -10, 99, 12345, -12345, 1234500, 100000, 2**53 - 1, 1 - 2**53]
        numbers = [(m, e) for m in mantissas for e in (0, -1, -2, -4, -5, -9, -18, 1, 3)]
        expected = [format(Decimal(m).scaleb(e), "f") if m or e <= 0 else "0" for m, e in numbers]
        self.assertEqual(self.texts(numbers), expected)

    def test_one_row_by_hand(self):
        self.assertEqual(self.texts([(1234500, -4), (-5, -3), (12, 2)]), ["123.4500", "-0.005", "1200"])

    def test_null_stays_null(self):
        self.assertEqual(self.texts([(None, -4), (5, None), (None, None)]), [None, None, None])


if __name__ == "__main__":
    unittest.main()
