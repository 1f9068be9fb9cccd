"""Tests of sbe-try over a stand-in for rt: which words and files the run is given, and what is passed on of its output."""

import os
import subprocess
import tempfile
import unittest

TOOL = os.path.join(os.path.dirname(os.path.abspath(__file__)), "..", "sbe-try")

# Tells the words it was given, and what each shared file and the input hold.
STAND_IN = """#!/bin/sh
echo "$(basename "$PWD"): $*"
for word in "$@"; do case "$word" in *=*) cat "${word#*=}"; echo;; esac; done
cat
echo '{"refused":"C02"}' >&2
echo 'checked: ended status=3' >&2
echo 'run=%s status=3 runners=1 proved=no' >&2
exit 3
"""


class SbeTry(unittest.TestCase):
    def tried(self, words, given, ended="ended"):
        with tempfile.TemporaryDirectory() as room:
            path = os.path.join(room, "rt")
            with open(path, "w") as file:
                file.write(STAND_IN % ended)
            os.chmod(path, 0o755)
            with open(os.path.join(room, "a schema"), "w") as file:
                file.write("the schema")
            environment = dict(os.environ, PATH=room + os.pathsep + os.environ["PATH"])
            run = subprocess.run(
                [os.path.abspath(TOOL)] + words, cwd=room, input=given, env=environment, capture_output=True
            )
            return run.returncode, run.stdout.decode().replace(os.path.realpath(room), "ROOM"), run.stderr.decode()

    def test_files_are_shared_under_plain_names(self):
        status, output, notes = self.tried(["dump", "a schema", "--max-frame", "64"], b"frames")
        self.assertEqual(status, 3)
        self.assertEqual(
            output, "sbe: try --data file1=ROOM/a schema -- dump file1 --max-frame 64\nthe schema\nframes"
        )
        self.assertIn("unproved and slow", notes)
        self.assertTrue(notes.endswith('fast program\n{"refused":"C02"}\n'), notes)

    def test_a_run_without_an_answer_shows_what_rt_says(self):
        _, _, notes = self.tried(["check", "gone"], b"", "stopped")
        self.assertIn("run=stopped", notes)


if __name__ == "__main__":
    unittest.main()
