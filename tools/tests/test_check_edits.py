#!/usr/bin/env python3
"""What check_edits.py has to refuse: tools/tests/test_check_edits.py."""
import unittest

import planted

EDIT = "file: src/set.rt\nold: self.blocks.binary_search(&block).is_ok()\nnew: false\nclause: returns\n"
SUM = "0" * 32
# By what it shows each new edit of bad_blocks, and what the tool says of it.
EDITS = {
    "a text that is not there": (EDIT.replace("binary", "ternary"), "0 times in src/set.rt"),
    "a text that is there twice": (EDIT.replace("self.blocks.binary_search(&block).is_ok()", "self.blocks"), "times in src/set.rt"),
    "a file that is not there": (EDIT.replace("set.rt", "sets.rt"), "0 times in src/sets.rt"),
    "no clause": (EDIT.replace("clause: returns\n", ""), "0 lines `clause:`"),
    "two clauses": (EDIT + "clause: ok\n", "2 lines `clause:`"),
    "a clause with no name": (EDIT.replace(" returns", ""), "a line `clause:` with no name"),
    "a line that is not read": (EDIT + "why: none\n", "a line that is not read"),
    "an old text with no new one": (EDIT.replace("new: false\n", ""), "lines `old:`"),
}
TRIED = {
    "a line with no edit": (f"none.edit {SUM} by-search ok\n", "there is no edit for the line"),
    "a line with no sum": ("contains_inverted.edit by-search ok\n", "not a line as"),
    "a line with another word": (f"contains_inverted.edit {SUM} by-luck ok\n", "not a line as"),
    "two lines of an edit": (f"contains_inverted.edit {SUM} by-search ok\n" * 2, "2 lines of one edit"),
}


class Refusals(unittest.TestCase):
    @classmethod
    def setUpClass(cls):
        cls.copy = planted.Copy()
        cls.addClassCleanup(cls.copy.close)

    def refuses(self, path, text, wanted, *words):
        status, said = self.copy.says_with(f"crates/bad_blocks/{path}", None, text, "check_edits.py", *words)
        self.assertEqual(status, 1, said)
        self.assertIn(wanted, said)

    def test_as_it_is(self):
        status, said = self.copy.says("check_edits.py")
        self.assertEqual(status, 0, said)
        self.assertEqual(self.copy.says_with("crates/bad_blocks/must-fail/new.edit", None, EDIT, "check_edits.py")[0], 0)

    def test_edits(self):
        for folder in ("must-fail", "wrong"):
            for name, (text, wanted) in EDITS.items():
                with self.subTest(f"{folder}: {name}"):
                    self.refuses(f"{folder}/new.edit", text, wanted, "bad_blocks")
        self.refuses("must-fail/contains_inverted.edit", EDIT, "stands in both folders", "bad_blocks")

    def test_tried(self):
        planted.os.path.exists(f"{self.copy.top}/crates/bad_blocks/wrong/TRIED") and planted.os.remove(f"{self.copy.top}/crates/bad_blocks/wrong/TRIED")
        for name, (text, wanted) in TRIED.items():
            with self.subTest(name):
                self.refuses("wrong/TRIED", text, wanted, "bad_blocks")

    def test_log(self):
        log = f"{self.copy.top}/log"
        for words, wanted in (("refused, as it must be: note: src/set.rt:1:1: .. (`returns-clause-none`)", "not refused by returns"), ("NOT REFUSED: the crate is still proved", "not refused: NOT")):
            planted.write(log, f"rt: must-fail bad_blocks/contains_inverted.edit: {words}\n")
            status, said = self.copy.says("check_edits.py", "--log", log)
            self.assertEqual(status, 1, said)
            self.assertIn(wanted, said)


if __name__ == "__main__":
    unittest.main()
