"""Tests of the pages: docs/proved.md names each wrong body that is kept, and no other."""

import os
import re
import unittest

TOP = os.path.join(os.path.dirname(os.path.abspath(__file__)), "..", "..")


def kept_edits():
    """The names of the wrong bodies of each crate, as files."""
    crates = os.path.join(TOP, "crates")
    folders = {crate: os.path.join(crates, crate, "must-fail") for crate in os.listdir(crates)}
    return {
        crate: sorted(name[: -len(".edit")].replace("_", " ") for name in os.listdir(folder) if name.endswith(".edit"))
        for crate, folder in folders.items()
        if os.path.isdir(folder)
    }


def listed_edits():
    """The names of the wrong bodies of each crate, as the page lists them."""
    with open(os.path.join(TOP, "docs", "proved.md"), encoding="utf-8") as file:
        section = file.read().split("\n## Wrong bodies\n")[1].split("\n## ")[0]
    rows = re.findall(r"^\| `(\w+)` \| (.*) \|$", section, re.MULTILINE)
    return {crate: sorted(names.split("; ")) for crate, names in rows}


class Pages(unittest.TestCase):
    def test_each_wrong_body_is_listed(self):
        self.assertEqual(listed_edits(), kept_edits())


if __name__ == "__main__":
    unittest.main()
