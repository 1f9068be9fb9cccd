"""Tests of tools/definitions over a small tree of crates."""

import contextlib
import io
import tempfile
import unittest
from importlib.machinery import SourceFileLoader
from importlib.util import module_from_spec, spec_from_loader
from pathlib import Path

TOOL = Path(__file__).resolve().parent.parent / "definitions"


def load_tool():
    """The tool as a module."""
    loader = SourceFileLoader("definitions", str(TOOL))
    module = module_from_spec(spec_from_loader("definitions", loader))
    loader.exec_module(module)
    return module


class Definitions(unittest.TestCase):
    def setUp(self):
        self.folder = tempfile.TemporaryDirectory()
        self.addCleanup(self.folder.cleanup)
        root = Path(self.folder.name)
        specs = root / "crates" / "numbers" / "specs"
        specs.mkdir(parents=True)
        (root / "docs").mkdir()
        (root / "crates.txt").write_text("numbers: lists\n", encoding="utf-8")
        (specs / "Lib.antt").write_text("pub mod Widths\n", encoding="utf-8")
        self.widths = specs / "Widths.antt"
        self.widths.write_text("-- Widths.\n\n-- how wide a number is\nabbrev pub width : Type 0\nwidth = Type\n", encoding="utf-8")
        self.page = root / "docs" / "definitions.md"
        self.page.write_text("| `width` | `numbers` | How wide. |\n", encoding="utf-8")
        self.tool = load_tool()
        self.tool.ROOT = root
        self.tool.PAGE = self.page

    def run_tool(self, *words):
        """The status, and what is printed."""
        printed = io.StringIO()
        with contextlib.redirect_stdout(printed):
            status = self.tool.main(list(words))
        return status, printed.getvalue()

    def test_prints_each_definition_with_its_sentence(self):
        self.assertEqual(
            self.run_tool(),
            (0, "## numbers\n\n### specs/Widths.antt\n\nWidths.\n\n| name | in words |\n|---|---|\n| `width` | How wide a number is. |\n"),
        )

    def test_finds_nothing_to_say_of_a_tree_in_order(self):
        self.assertEqual(self.run_tool("--check"), (0, ""))

    def test_tells_a_name_of_the_page_that_is_not_there(self):
        self.page.write_text("| `place` | `numbers` | Where. |\n", encoding="utf-8")
        self.assertEqual(self.run_tool("--check"), (1, "tools/definitions: docs/definitions.md:1: numbers has no definition `place`\n"))

    def test_tells_a_definition_without_a_sentence(self):
        self.widths.write_text("-- Widths.\n\nabbrev pub width : Type 0\nwidth = Type\n", encoding="utf-8")
        self.assertEqual(self.run_tool("--check"), (1, "tools/definitions: crates/numbers/specs/Widths.antt: `width` has no sentence\n"))


if __name__ == "__main__":
    unittest.main()
