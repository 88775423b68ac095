#!/usr/bin/env python3
"""What check_messages.py has to refuse: tools/tests/test_check_messages.py."""
import unittest

import planted

# By what it shows each fault: the file, the text that becomes another one, and what the tool says of it.
FAULTS = {
    "a message that is told otherwise": ("crates/put_jobs/src/source_things.rt", "uffs: {done} of {all}", "uffs: {done} out of {all}", "in no line that is wanted: uffs: {done} out of {all}"),
    "a cause that is told otherwise": ("crates/archives/src/step.rt", "has a lone block", "has one block", "in no line that is wanted: the archive has one block of zeros"),
    "a message that no row wants any more": ("crates/host_rows/data/part_that_is_not_had.row", "$! uffs: cannot read page 5 of HERE/x", "$! uffs: cannot read HERE/x", "in no line that is wanted: uffs: cannot read page {page} of {read}"),
    "a message of a page that is none": ("docs/program.md", "| `uffs: cannot write NEW: REASON` |", "| `uffs: cannot make NEW: REASON` |", "no source tells `uffs: cannot make NEW: REASON`"),
    "a message that is not reached and is none": ("tools/check_messages.py", "\"the file failed\": ", "\"the file was gone\": ", "named as not reached, and in no source: the file was gone"),
}


class Refusals(unittest.TestCase):
    @classmethod
    def setUpClass(cls):
        cls.copy = planted.Copy()
        cls.addClassCleanup(cls.copy.close)

    def test_as_it_is(self):
        status, said = self.copy.says("check_messages.py")
        self.assertEqual(status, 0, said)

    def test_faults(self):
        for name, (path, old, new, wanted) in FAULTS.items():
            with self.subTest(name):
                status, said = self.copy.says_with(path, old, new, "check_messages.py")
                self.assertEqual(status, 1, said)
                self.assertIn(wanted, said)


if __name__ == "__main__":
    unittest.main()
