"""Tests of tools/each-call-fails: the table is what the tool makes, and each object outside fails at each of its calls."""
import importlib.machinery
import importlib.util
import json
import subprocess
import sys
import unittest
from pathlib import Path

ROOT = Path(__file__).resolve().parent.parent.parent
TOOL = ROOT / "tools/each-call-fails"
LOADER = importlib.machinery.SourceFileLoader("each_call_fails", str(TOOL))
MAKER = importlib.util.module_from_spec(importlib.util.spec_from_loader("each_call_fails", LOADER))
LOADER.exec_module(MAKER)
TABLE = ROOT / "crates/test_runs/data/each_call_fails.jsonl"


class EachCallFails(unittest.TestCase):
    def test_the_table_is_what_the_tool_makes(self):
        done = subprocess.run([sys.executable, TOOL], capture_output=True, text=True, check=True)
        self.assertEqual(done.stdout, TABLE.read_text())

    def test_all_calls_of_a_frame(self):
        """A frame of 20 bytes: its head, two pieces of its body and the end are read, and one line is written."""
        base = MAKER.Base("samples.jsonl", "a frame in hex")
        fails = [row["fails"] for row in base.rows()]
        reads = [{"source": [number]} for number in (1, 2, 3, 4)]
        never = {"files": [2], "source": [5], "output": [2], "notes": [1]}
        self.assertEqual(fails, [{"files": [1]}, *reads, {"output": [1]}, never])
        self.assertEqual(base.reads, [0, 6, 13, 20])

    def test_what_was_whole_is_answered(self):
        """Three texts, the second refused: the note of the failed read comes after that of the refusal."""
        base = MAKER.Base("fixcheck_texts.jsonl", "several texts")
        row = next(row for row in base.rows() if row["fails"] == {"source": [base.reads.index(base.ends[1]) + 1]})
        self.assertEqual(len(row["output"].splitlines()), 1)
        self.assertEqual([json.loads(note).get("refused") for note in row["notes"].splitlines()], ["T05", None])
        self.assertEqual(row["status"], 7)


if __name__ == "__main__":
    unittest.main()
