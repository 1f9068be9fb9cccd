"""Tests of the pages that the built program prints: which words ask for them, and what the help and the version say.

The program is crates/sbe/out/sbe, or the one that SBE names; without it the tests are skipped.
"""
import os
import re
import subprocess
import unittest
from pathlib import Path

ROOT = Path(__file__).resolve().parent.parent.parent
PROGRAM = Path(os.environ.get("SBE", ROOT / "crates" / "sbe" / "out" / "sbe"))
FORMS = ROOT / "crates" / "test_steps" / "data" / "runs.jsonl"
EXAMPLES = [
    "  sbe check feed.json",
    "  sbe check orders.json orders-map.json",
    "  sbe compat feed.json feed2.json",
    "  sbe dump feed.json < frames.bin",
    "  sbe dump feed.json --also orders.json < frames.bin",
    "  sbe build feed.json < lines.jsonl > frames.bin",
    "  sbe fixcheck orders-map.json < texts.bin",
    "  sbe rawframe orders-map.json < messages.log | sbe fixcheck orders-map.json",
    "  sbe tofix orders.json orders-map.json --sender FIRM --target EXCH --seq 1 < frames.bin > texts.bin",
    "  sbe tosbe orders.json orders-map.json < texts.bin > frames.bin",
    "  sbe selftest orders.json 1 10000",
    "  sbe regrade feed.json feed2.json < frames.bin > frames2.bin",
]
USAGE = 2


def run(*words):
    """What the program prints for words, and its status."""
    done = subprocess.run([PROGRAM, *words], input=b"", capture_output=True, check=False)
    return done.stdout.decode(), done.returncode


def forms():
    """The words of the forms of commands, as the table of rows has them."""
    row = re.search(r'"call": "forms".*"wanted": "([^"]*)"', FORMS.read_text())
    return row.group(1).split()


@unittest.skipUnless(PROGRAM.is_file(), "the program isn't built")
class Pages(unittest.TestCase):
    def test_pages_are_asked_for_alone(self):
        page = run("--help")
        self.assertEqual(page[1], 0)
        self.assertEqual(run("-h"), page)
        self.assertEqual(run("--version")[1], 0)
        self.assertNotEqual(run("--version")[0], page[0])
        for words in ([], [""], ["help"], ["-help"], ["--Help"], ["--help", "dump"], ["dump", "--help"], ["-h", "-h"]):
            with self.subTest(words=words):
                self.assertEqual(run(*words), ("", USAGE))

    def test_the_help_has_each_command(self):
        """The synopsis has a line for each form of a command, in their order, then those of the pages; other lines are examples."""
        lines = [line for line in run("--help")[0].splitlines() if line.startswith("  sbe ")]
        words = [line.split()[1] for line in lines]
        known = forms()
        self.assertEqual(words[: len(known) + 2], known + ["--help", "--version"])
        self.assertEqual(lines[len(known) + 1], "  sbe --version")
        for line in lines[len(known) + 2 :]:
            self.assertIn(line, EXAMPLES)

    def test_the_version_names_the_standards(self):
        lines = run("--version")[0].splitlines()
        for line in ("sbe 0.1.0", "FIX Simple Binary Encoding 1.0", "FIX Simple Open Framing Header 1.0"):
            self.assertIn(line, lines)


if __name__ == "__main__":
    unittest.main()
