#!/usr/bin/env python3
"""What check_docs.py has to refuse: tools/tests/test_check_docs.py."""
import glob
import os
import unittest

import planted

TOP = os.path.dirname(os.path.dirname(os.path.dirname(os.path.abspath(__file__))))
EDITS = len(glob.glob(f"{TOP}/crates/*/must-fail/*.edit") + glob.glob(f"{TOP}/crates/*/wrong/*.edit"))
# By what it shows each fault: the file, the text that becomes another one, and what the tool says of it.
FAULTS = {
    "an example that is not run": ("README.md", "ls /                        entries 1 old/", "ls /                        entries 2 old/", "not run"),
    "a figure that the gate does not have": ("README.md", "| 2099 | 133 |", "| 2098 | 133 |", "README.md"),
    "a sum that the gate does not have": ("README.md", "in 19,692 runs", "in 19,693 runs", "not as the gate has it"),
    "another version": ("CHANGELOG.md", "## 0.1.0", "## 0.1.1", "not as the gate has it"),
    "a count beside littlefs": ("docs/speed.md", "| 8 | 3.06 |", "| 8 | 3.05 |", "not as the counts come to"),
    "a count of long functions": ("CONTRIBUTING.md", "functions have 40 lines", "functions have 41 lines", "not as the gate has it"),
    "a count of edits": ("docs/gate.md", f"and {EDITS} edits", f"and {EDITS - 1} edits", "not as the gate has it"),
    "a table with a column of no program": ("docs/speed.md", "| What grows | page | reads |", "| What grows | page | read |", "a table with columns that no program prints"),
    "a row that is left out": ("docs/speed.md", "| mkdir and rmdir among 10 | 256 | 0 | 3 | 3 |\n", "", "in no table: mkdir and rmdir among 10"),
    "a row that is shown and named as not": ("docs/speed.md", "| df with a file of 1 MiB | 265 |", "| df with a file of 1 MiB | 265 |\n| begin | 0 |", "in a table, and named in NOT_SHOWN: begin"),
    "a refusal of another meaning": ("docs/scripts.md", "| 11 | EMFILE | 16 files", "| 11 | EMFILE | 17 files", "not as uffs explain tells it"),
    "a refusal that is left out": ("docs/scripts.md", "| 11 | EMFILE | 16 files are open. Close one. |\n", "", "left out of the table of refusals: EMFILE 11"),
    "a row of files that does not run": ("docs/tests_of_the_program.md", "| `a_folder_is_mirrored` | `mirror_of_a_folder` |", "| `a_folder_is_mirrored` | `mirror_of_folders` |", "no row of the gate: mirror_of_folders"),
    "a row that does not run": ("crates/rows/args", "synced_is_mounted.row\n", "", "no row of the gate: synced_is_mounted"),
    "a test that is not there": ("docs/testing.md", "`part_tests/nodes` nodes_of_a_chain | `part_tests/node_bytes` nodes_are_read |", "`part_tests/nodes` nodes_of_a_chain | `part_tests/node_bytes` nodes_are |", "no test: part_tests/node_bytes nodes_are"),
    "a link to no page": ("README.md", "[docs/speed.md](docs/speed.md) has more", "[docs/speed.md](docs/sped.md) has more", "docs/sped.md"),
    "a link to no section": ("README.md", "(docs/embedding.md#quick-start)", "(docs/embedding.md#quick-begin)", "quick-begin"),
    "a list without one of its sections": ("README.md", " · [Run it](#run-it)", "", "README.md"),
    "a page that a script writes, by hand": ("docs/proved.md", "# What is proved, crate by crate", "# What is proved", "docs/proved.md is not as"),
    "a cost that the gate does not have": ("crates/undofs/src/fs.rt", "mkdir at depth 4: 4 reads, 5 programs", "mkdir at depth 4: 4 reads, 6 programs", "not as crates/operations prints it"),
    "a picture that was changed by hand": ("docs/pictures/erases.svg", ">undo<", ">undone<", "docs/pictures/erases.svg is not as"),
    "a man page of other words": ("docs/uffs.1", ".SH NAME", ".SH NAMES", "docs/uffs.1 is not as"),
}


class Refusals(unittest.TestCase):
    @classmethod
    def setUpClass(cls):
        cls.copy = planted.Copy()
        cls.addClassCleanup(cls.copy.close)

    def test_as_it_is(self):
        status, said = self.copy.says("check_docs.py")
        self.assertEqual(status, 0, said)

    def test_faults(self):
        for name, (path, old, new, wanted) in FAULTS.items():
            with self.subTest(name):
                status, said = self.copy.says_with(path, old, new, "check_docs.py")
                self.assertEqual(status, 1, said)
                self.assertIn(wanted, said)

    def test_a_long_page(self):
        status, said = self.copy.says_with("docs/long.md", None, "# Long\n\n" + "word " * 4001, "check_docs.py")
        self.assertEqual(status, 1, said)
        self.assertIn("words, over 4000", said)


if __name__ == "__main__":
    unittest.main()
