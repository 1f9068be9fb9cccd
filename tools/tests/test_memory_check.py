"""Tests of tools/memory-check, over small programs that answer the row of `selftest`: one that is right, and wrong ones.
Without a C compiler they are skipped. The real program is crates/sbe/out/sbe, or the one that SBE names."""
import os
import shutil
import subprocess
import sys
import tempfile
import unittest
from pathlib import Path

ROOT = Path(__file__).resolve().parent.parent.parent
PROGRAM = Path(os.environ.get("SBE", ROOT / "crates" / "sbe" / "out" / "sbe"))
# Three allocations, and half of the line between the second and the third.
SOURCE = r"""
#include <stdio.h>
#include <stdlib.h>
#include <unistd.h>
static char line[] = "{\"frames\":21,\"skipped\":19,\"bytes\":1181,\"sum\":68057,\"altered\":16}\n";
int main(void) {
    void *first = malloc(10), *second = first ? realloc(first, 20) : 0;
    if (!second || write(1, line, 20) != 20) return 9;
    if (!malloc(30)) THIRD;
    return write(1, line + 20, sizeof line - 21) < 0;
}
"""


@unittest.skipUnless(shutil.which("cc"), "needs a C compiler")
class Refusals(unittest.TestCase):
    def check(self, third, *options):
        """What the tool prints of a program that does something where its third allocation is refused, and the status."""
        with tempfile.TemporaryDirectory() as folder:
            program = Path(folder) / "sbe"
            source = SOURCE.replace("THIRD", third)
            subprocess.run(["cc", "-x", "c", "-", "-o", program, *options], input=source, text=True, check=True)
            return self.run_on(program, "selftest")

    def run_on(self, program, *words):
        done = subprocess.run([sys.executable, ROOT / "tools/memory-check", program, *words], capture_output=True, text=True, check=False)
        return done.stdout.splitlines(), done.returncode

    def test_a_program_that_ends_with_9_is_right(self):
        counted = "selftest  messages without room: 3 allocations, each refused once: status 9 in 3 runs"
        self.assertEqual(self.check("return 9"), ([counted, "4 runs, 0 failed"], 0))

    def test_a_program_that_goes_on_without_memory_may_give_the_whole_answer(self):
        counted = "selftest  messages without room: 3 allocations, each refused once: status 9 in 2 runs"
        self.assertEqual(self.check("first = 0"), ([counted, "4 runs, 0 failed"], 0))

    def test_half_an_answer_with_the_rows_status_is_found(self):
        lines, status = self.check("return 0")
        self.assertEqual((status, lines[-1]), (1, "4 runs, 1 failed"))
        self.assertTrue(lines[1].startswith("  number 3 refused: with status 0"), lines)

    def test_another_status_and_other_bytes_are_found(self):
        lines, status = self.check("abort()")
        self.assertEqual((status, lines[1]), (1, "  number 3 refused: status -6"))
        lines, status = self.check('return write(1, "?", 1) < 0 ? 1 : 9')
        self.assertEqual(status, 1)
        self.assertTrue(lines[1].startswith("  number 3 refused: with status 9"), lines)

    def test_a_program_whose_calls_are_not_seen_is_passed_over(self):
        lines, status = self.check("return 9", "-static")
        self.assertEqual((status, len(lines)), (0, 1))
        self.assertIn("skipped", lines[0])

    @unittest.skipUnless(os.access(PROGRAM, os.X_OK), "needs the built program")
    def test_nothing_is_found_in_the_program(self):
        lines, status = self.run_on(PROGRAM, "selftest")
        self.assertEqual((status, lines[-1].split(", ")[1]), (0, "0 failed"), lines)


if __name__ == "__main__":
    unittest.main()
