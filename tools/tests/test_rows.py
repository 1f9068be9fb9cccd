"""Tests of tools/rows: contents become bytes, and a row that differs is told, over a program that writes what it is told."""
import json
import subprocess
import sys
import tempfile
import unittest
from pathlib import Path

TOOL = Path(__file__).resolve().parent.parent / "rows"

# Its words are a file, a status and a note: it writes the file and then its input, and notes the note.
PROGRAM = """#!%s
import sys
if len(sys.argv) == 4:
    sys.stdout.buffer.write(open(sys.argv[1], "rb").read())
    sys.stderr.write(sys.argv[3])
    sys.stdout.buffer.write(sys.stdin.buffer.read())
    sys.exit(int(sys.argv[2]))
sys.exit(2)
""" % sys.executable


def row(name, **more):
    """A row that copies an empty file and an empty input, but for what is given."""
    return {"name": name, "why": "It is so.", "words": ["a.json", "0", ""], "files": {"a.json": ""}, "status": 0, **more}


class Rows(unittest.TestCase):
    def run_table(self, *lines):
        """What the tool prints about a table of these rows and lines, and its status."""
        with tempfile.TemporaryDirectory() as folder:
            program, table = Path(folder) / "fake", Path(folder) / "some.jsonl"
            program.write_text(PROGRAM)
            program.chmod(0o755)
            (Path(folder) / "good.json").write_text('{"type":"uint16"}')
            table.write_text("".join((line if isinstance(line, str) else json.dumps(line)) + "\n" for line in lines))
            done = subprocess.run([sys.executable, TOOL, program, table], capture_output=True, text=True, check=False)
            return done.stdout.splitlines(), done.returncode

    def test_each_form_of_a_content(self):
        contents = [
            ("ab\n", b"ab\n"),
            ({"lines": ["a", "b"]}, b"a\nb\n"),
            ({"hex": "00ff 41"}, b"\x00\xffA"),
            ({"file": "good.json"}, b'{"type":"uint16"}'),
            ({"file": "good.json", "replace": [["uint16", "uint17"]]}, b'{"type":"uint17"}'),
            ({"frame": {"hex": "0102"}}, b"\x00\x00\x00\x08\xeb\x50\x01\x02"),
            ({"frame": "", "encoding": "5be0"}, b"\x00\x00\x00\x06\x5b\xe0"),
            ({"repeat": 3, "of": "ab"}, b"ababab"),
            (["a", {"hex": "42"}], b"aB"),
        ]
        table = [row("content %d" % i, input=given, output={"hex": wanted.hex()}) for i, (given, wanted) in enumerate(contents)]
        self.assertEqual(self.run_table(*table), (["9 same, 0 differ"], 0))

    def test_files_and_words_reach_the_program(self):
        given = row("all", words=["b.json", "3", "no\n"], files={"b.json": "xy"}, input="z", output="xyz", notes="no\n", status=3)
        self.assertEqual(self.run_table("# a heading", "", given), (["1 same, 0 differ"], 0))

    def test_what_differs_is_told(self):
        printed, status = self.run_table(
            row("status", status=1),
            row("output", input="a", output="b"),
            row("notes", notes="n"),
            row("same"),
        )
        self.assertEqual(printed, [
            "some.jsonl status differs: status: wanted 1, got 0",
            "some.jsonl output differs: output: wanted 'b', got 'a'",
            "some.jsonl notes differs: notes: wanted 'n', got ''",
            "1 same, 3 differ",
        ])
        self.assertEqual(status, 1)

    def test_rows_that_are_not_of_the_program_are_passed_over(self):
        table = [row(key, status=9, **{key: 1}) for key in ("piece", "pieces", "left", "room")]
        table += [row("fails", status=9, fails={"source": [1]}), row("page", words=["--help"])]
        self.assertEqual(self.run_table(*table), (["0 same, 0 differ"], 0))

    def test_rows_that_cannot_be_read_are_told(self):
        printed, status = self.run_table(
            "{",
            row("key", other=1),
            {"name": "no words"},
            row("twice", input={"file": "good.json", "replace": [["\"", "'"]]}),
            row("no file", input={"file": "absent.json"}),
            row("no form", input={"text": "a"}),
            row("no hex", input={"hex": "0"}),
        )
        self.assertEqual([line.split(":")[1].split()[0] for line in printed[:-1]], ["1", "2", "3", "4", "5", "6", "7"])
        self.assertTrue(all(" unreadable: " in line for line in printed[:-1]))
        self.assertEqual((printed[-1], status), ("0 same, 0 differ, 7 unreadable", 2))


if __name__ == "__main__":
    unittest.main()
