"""Tests of tools/frame-cut: pieces begin at frames, keep their order, and hold each byte once."""
import subprocess
import sys
import tempfile
import unittest
from pathlib import Path

TOOL = Path(__file__).resolve().parent.parent / "frame-cut"


def frame(body):
    return (len(body) + 6).to_bytes(4, "big") + b"\xeb\x50" + body


class Cuts(unittest.TestCase):
    def cut(self, data, count):
        with tempfile.TemporaryDirectory() as folder:
            name = Path(folder) / "day.bin"
            name.write_bytes(data)
            done = subprocess.run([sys.executable, TOOL, name, str(count)], capture_output=True, text=True, check=False)
            listed = [line.split("\t") for line in done.stdout.splitlines()]
            self.firsts = [int(first) for _, first in listed]
            return [Path(it).read_bytes() for it, _ in listed], done.returncode, done.stderr

    def test_pieces_are_whole_frames_in_order(self):
        frames = [frame(b"x" * (7 * i % 30)) for i in range(100)]
        for count in (1, 2, 3, 7, 100, 1000):
            pieces, status, told = self.cut(b"".join(frames), count)
            self.assertEqual((status, told), (0, ""))
            self.assertEqual(b"".join(pieces), b"".join(frames))
            self.assertLessEqual(len(pieces), min(count, 100))
            borders = {sum(map(len, frames[:i])) for i in range(101)}
            at = 0
            for piece in pieces:
                self.assertIn(at, borders)
                at += len(piece)

    def test_each_piece_tells_the_number_of_its_first_frame(self):
        frames = [frame(b"x" * size) for size in (4, 4, 24, 4, 4, 14)]
        pieces, _, _ = self.cut(b"".join(frames), 3)
        self.assertEqual(pieces, [b"".join(frames[0:3]), frames[3], b"".join(frames[4:])])
        self.assertEqual(self.firsts, [0, 3, 4])

    def test_an_empty_file_has_no_pieces(self):
        self.assertEqual(self.cut(b"", 4), ([], 0, ""))

    def test_a_bad_end_is_told_and_left_out(self):
        good = frame(b"abc") * 3
        for rest in (b"\0\0", b"\0\0\0\x05\xeb\x50", frame(b"abcdef")[:-1]):
            pieces, status, told = self.cut(good + rest, 2)
            self.assertEqual((b"".join(pieces), status), (good, 1))
            self.assertIn("byte %d" % len(good), told)


if __name__ == "__main__":
    unittest.main()
