"""Tests of tools/frame-join: answers are joined in order, numbers of frames are raised, and missing answers are named."""
import subprocess
import sys
import tempfile
import unittest
from pathlib import Path

TOOL = Path(__file__).resolve().parent.parent / "frame-join"
DUMPED = [
    b'{"data":{},"fields":{"item":7},"groups":{},"template":"Ping","version":0}\n'
    b'{"refused":"F07","item":1,"offset":28,"path":"item","detail":"1"}\n',
    b'{"refused":"E01","item":0,"offset":null,"path":"","detail":"61520"}\n'
    b'{"schema":1,"message":{"data":{"x":"\\"item\\":1"},"fields":{},"groups":{},"template":"Ping","version":0}}\n',
]
CHECKED = [b'{"item":0,"type":"D","fields":16}\n', b'{"item":9,"type":"item","fields":6}\n{"item":10,"type":"D","fields":6}\n']


class Joins(unittest.TestCase):
    def join(self, answers, firsts, *words, end=".jsonl"):
        with tempfile.TemporaryDirectory() as folder:
            for i, text in enumerate(answers):
                if text is not None:
                    (Path(folder) / ("day.bin.%d%s" % (i, end))).write_bytes(text)
            (Path(folder) / "pieces").write_text("".join("day.bin.%d\t%d\n" % it for it in enumerate(firsts)))
            done = subprocess.run([sys.executable, TOOL, *words], cwd=folder, capture_output=True, check=False)
        return done.stdout, done.stderr, done.returncode

    def test_refusals_of_dump_are_counted_in_the_whole_recording(self):
        wanted = DUMPED[0] + DUMPED[1].replace(b'"E01","item":0', b'"E01","item":2')
        self.assertEqual(self.join(DUMPED, (0, 2), "pieces"), (wanted, b"", 0))

    def test_lines_of_fixcheck_are_too(self):
        wanted = b'{"item":0,"type":"D","fields":16}\n{"item":10,"type":"item","fields":6}\n{"item":11,"type":"D","fields":6}\n'
        self.assertEqual(self.join(CHECKED, (0, 1), "pieces", ".out", end=".out"), (wanted, b"", 0))

    def test_no_pieces_have_no_answers(self):
        self.assertEqual(self.join([], [], "pieces"), (b"", b"", 0))

    def test_missing_answers_are_named_and_nothing_is_printed(self):
        told = b"frame-join: there is no day.bin.1.jsonl, day.bin.3.jsonl\n"
        answers = [DUMPED[0], None, DUMPED[1], None]
        self.assertEqual(self.join(answers, (0, 2, 3, 5), "pieces"), (b"", told, 1))
        self.assertEqual(self.join(answers, (0, 2, 3, 5), "--missing", "pieces"), (b"1,3\n", b"", 1))
        self.assertEqual(self.join(DUMPED, (0, 2), "--missing", "pieces"), (b"", b"", 0))


if __name__ == "__main__":
    unittest.main()
