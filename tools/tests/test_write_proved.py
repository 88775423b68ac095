#!/usr/bin/env python3
"""What write_proved.py --check has to refuse: tools/tests/test_write_proved.py."""
import unittest

import planted

FAULTS = {
    "a clause that the page does not have": ("crates/bad_blocks/src/set.rt", "    ensures refused {", "    ensures is_refused {"),
    "a comment of a function that says another thing": ("crates/bad_blocks/src/set.rt", "    /// Puts `block` into the set.", "    /// Adds a block."),
    "a page that was changed by hand": ("docs/proved.md", "# What is proved, crate by crate", "# What is proved"),
}

# A function without clauses, whose signature ends in the line in which its body begins, and what comes after that line.
COMMIT = "    pub(crate) fn commit<F: Flash>(&mut self, alloc: Global, flash: &mut F) -> Result<(), Fault>\n"
BARE = {
    "a function with clauses": "    pub fn waits(&self) {\n    }\n\n",
    "a closure with clauses": "    pub fn waits(&self) {\n        let same = |x: u8| -> u8\n            ensures same { result ≡ x }\n        { x };\n    }\n\n",
    "a signature of several lines": "    pub fn waits(\n        &self,\n    ) -> u8 {\n        0\n    }\n\n",
}


class Refusals(unittest.TestCase):
    @classmethod
    def setUpClass(cls):
        cls.copy = planted.Copy()
        cls.addClassCleanup(cls.copy.close)

    def test_as_it_is(self):
        self.assertEqual(self.copy.says("write_proved.py", "--check"), (0, ""))

    def test_faults(self):
        for name, (path, old, new) in FAULTS.items():
            with self.subTest(name):
                status, said = self.copy.says_with(path, old, new, "write_proved.py", "--check")
                self.assertEqual((status, said), (1, "docs/proved.md is not as tools/write_proved.py writes it\n"))

    def test_function_without_clauses(self):
        for name, bare in BARE.items():
            with self.subTest(name):
                said = self.copy.says_with("crates/system/src/systems.rt", COMMIT, bare + COMMIT, "write_proved.py", "--check")
                self.assertEqual(said, (0, ""))


if __name__ == "__main__":
    unittest.main()
