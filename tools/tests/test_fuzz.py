"""Tests of tools/fuzz: it finds what is wrong with programs that are wrong, and makes the run smaller. The real program is
crates/sbe/out/sbe, or the one that SBE names; without it the last test is skipped."""
import json
import os
import subprocess
import sys
import tempfile
import unittest
from pathlib import Path

ROOT = Path(__file__).resolve().parent.parent.parent
PROGRAM = Path(os.environ.get("SBE", ROOT / "crates" / "sbe" / "out" / "sbe"))


class Fuzz(unittest.TestCase):
    def run_on(self, program, *options):
        with tempfile.TemporaryDirectory() as folder:
            words = [sys.executable, ROOT / "tools/fuzz", program, "--jobs", "1", "--keep", folder, *options]
            done = subprocess.run(words, capture_output=True, text=True, check=False)
            kept = [json.loads(it.read_text()) for it in Path(folder).glob("*/words.json")]
            sizes = [len(it.read_bytes()) for it in Path(folder).glob("*/input")]
        return done.returncode, done.stdout.splitlines(), kept, sizes

    def script(self, folder, text):
        path = Path(folder) / "sbe"
        path.write_text("#!/bin/sh\n" + text + "\n")
        path.chmod(0o755)
        return path

    def test_a_program_that_answers_nothing_is_found(self):
        with tempfile.TemporaryDirectory() as folder:
            program = self.script(folder, "cat > .input; exit 0")
            status, lines, kept, sizes = self.run_on(program, "--runs", "3", "--command", "fixcheck")
        self.assertEqual(status, 1)
        self.assertTrue(lines[-1].endswith(" failed") and kept and "items were answered" in kept[0]["why"], lines)
        self.assertLessEqual(min(sizes), 200)

    def test_bytes_of_no_item_are_found(self):
        with tempfile.TemporaryDirectory() as folder:
            program = self.script(folder, "cat > .input; exit 0")
            status, _, kept, _ = self.run_on(program, "--runs", "3", "--command", "rawframe")
        self.assertEqual(status, 1)
        self.assertTrue(kept and "the items have 0 bytes" in kept[0]["why"], kept)

    def test_a_status_of_no_table_is_found(self):
        with tempfile.TemporaryDirectory() as folder:
            status, _, kept, _ = self.run_on(self.script(folder, "exit 77"), "--runs", "2", "--command", "check")
        self.assertEqual((status, {it["why"] for it in kept}), (1, {"status 77"}))

    def test_lines_of_another_form_are_found(self):
        refusal = '{"refused":"%s","item":0,"offset":%s,"path":"","detail":""}'
        for line, why in (
            (refusal % ("T05", "0"), "a refusal of another form"),
            (refusal % ("F05", "-1"), "a refusal of another form"),
            (refusal % ("F05", "NaN"), "a line that isn't JSON"),
            ((refusal % ("F05", "0")).replace('"path":""', '"path":{"hex":"E9"}'), "a refusal of another form"),
            ('{"data":{},"data":{}}', "an object with a key twice"),
        ):
            with self.subTest(line=line), tempfile.TemporaryDirectory() as folder:
                program = self.script(folder, "cat > .input; echo '%s'; exit 1" % line)
                status, _, kept, _ = self.run_on(program, "--runs", "1", "--command", "dump")
                self.assertEqual((status, [it["why"].startswith(why) for it in kept]), (1, [True]), kept)

    def test_an_end_without_a_place_is_found(self):
        with tempfile.TemporaryDirectory() as folder:
            program = self.script(folder, "cat > .input; echo '{\"framing\":\"EndInside\",\"at\":null,\"number\":1}' >&2; exit 5")
            status, _, kept, _ = self.run_on(program, "--runs", "1", "--command", "build")
        self.assertEqual((status, [it["why"].startswith("a place that is no number") for it in kept]), (1, [True]), kept)

    def test_another_answer_to_the_same_input_is_found(self):
        """A program that counts its runs; every tenth run is done twice, the second time in pieces."""
        note = '{\"file\":\"schema\",\"refused\":\"C01\",\"path\":\"%s\"}\\n'
        text = "cat > .input; echo >> .runs; printf '" + note + "' $(wc -l < .runs) >&2; exit 3"
        with tempfile.TemporaryDirectory() as folder:
            status, _, kept, _ = self.run_on(self.script(folder, text), "--runs", "60", "--command", "build")
        self.assertEqual((status, {it["why"] for it in kept}), (1, {"another answer in small pieces"}), kept)

    @unittest.skipUnless(os.access(PROGRAM, os.X_OK), "needs the built program")
    def test_nothing_is_found_in_some_runs_of_the_program(self):
        status, lines, _, _ = self.run_on(PROGRAM, "--runs", "60")
        self.assertEqual((status, lines[-1]), (0, "60 runs, 0 failed"))


if __name__ == "__main__":
    unittest.main()
