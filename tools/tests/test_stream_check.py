"""Tests of tools/stream-check, over a program that counts items, and over ones that are wrong. The real program is
crates/sbe/out/sbe, or the one that SBE names."""
import contextlib
import importlib.machinery
import importlib.util
import io
import os
import subprocess
import sys
import tempfile
import unittest
from pathlib import Path
from unittest import mock

ROOT = Path(__file__).resolve().parent.parent.parent
PROGRAM = Path(os.environ.get("SBE", ROOT / "crates" / "sbe" / "out" / "sbe"))
LOADER = importlib.machinery.SourceFileLoader("stream_check", str(ROOT / "tools" / "stream-check"))
CHECK = importlib.util.module_from_spec(importlib.util.spec_from_loader("stream_check", LOADER))
LOADER.exec_module(CHECK)
PART = "100000"
# Counts the items of its input, and refuses the last one.
COUNTS = """#!%s
import sys
held = sys.stdin.buffer.read()
if sys.argv[1] == "build":
    items = held.count(b"\\n") - 1
else:
    items, at = -1, 0
    while at < len(held):
        items, at = items + 1, at + int.from_bytes(held[at:at + 4], "big")
print('{"refused":"F01","item":%%d}' %% (items %s))
sys.exit(1)
"""


class Streams(unittest.TestCase):
    def run_on(self, program):
        done = subprocess.run([sys.executable, ROOT / "tools/stream-check", program, PART], capture_output=True, text=True, check=False)
        return done.stdout.splitlines(), done.returncode

    def script(self, folder, text):
        path = Path(folder) / "sbe"
        path.write_text(text)
        path.chmod(0o755)
        return path

    def test_each_stream_is_measured_twice(self):
        with tempfile.TemporaryDirectory() as folder:
            lines, status = self.run_on(self.script(folder, COUNTS % (sys.executable, "")))
        self.assertEqual((status, len(lines)), (0, 8), lines)
        for line, start in zip(lines[4:], ("frames without a body: 250 items, 1506 bytes: ", "frames without a body: 1000 items, 6006 bytes: ")):
            self.assertTrue(line.startswith(start), line)
        for line, start in zip(lines[6:], ("empty lines: 250 items, 253 bytes: ", "empty lines: 1000 items, 1003 bytes: ")):
            self.assertTrue(line.startswith(start), line)

    def test_a_wrong_number_is_found(self):
        with tempfile.TemporaryDirectory() as folder:
            lines, status = self.run_on(self.script(folder, COUNTS % (sys.executable, "% 100")))
        self.assertEqual((status, [line.startswith("  the last line is ") for line in lines if line.startswith("  ")]), (1, [True] * 6), lines)

    def test_growth_is_found(self):
        """Runs as they may be measured: memory and seconds of a quarter and of the whole."""
        for memory, seconds, wanted in (
            ((3000, 3000), (1.0, 4.0), []),
            ((3000, 4024), (1.0, 6.0), []),
            ((3000, 4025), (1.0, 4.0), ["  memory grows"]),
            ((3000, 2000), (1.0, 6.1), ["  a byte takes longer"]),
        ):
            with self.subTest(memory=memory, seconds=seconds):
                runs = [CHECK.Measured(1, b'{"refused":"F01","item":%d}' % count, count, *it) for count, it in zip((10, 40), zip(memory, seconds))]
                told, stream = io.StringIO(), CHECK.Stream("items", [], b"x", 1, 40, b"y")
                with mock.patch.object(CHECK, "measure", side_effect=runs), contextlib.redirect_stdout(told):
                    held = CHECK.judge("sbe", stream, 1)
                self.assertEqual((held, told.getvalue().splitlines()[2:]), (not wanted, wanted))

    def test_a_program_that_reads_nothing_is_found(self):
        with tempfile.TemporaryDirectory() as folder:
            lines, status = self.run_on(self.script(folder, "#!/bin/sh\nexit 2\n"))
        self.assertEqual((status, lines.count("  the last line is b''")), (1, 8), lines)

    @unittest.skipUnless(os.access(PROGRAM, os.X_OK), "needs the built program")
    def test_the_program_holds(self):
        lines, status = self.run_on(PROGRAM)
        self.assertEqual((status, len(lines)), (0, 8), lines)


if __name__ == "__main__":
    unittest.main()
