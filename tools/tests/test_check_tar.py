#!/usr/bin/env python3
"""What check_tar.py has to refuse: tools/tests/test_check_tar.py."""
import unittest

import planted


class Refusals(unittest.TestCase):
    @classmethod
    def setUpClass(cls):
        cls.copy = planted.Copy()
        cls.addClassCleanup(cls.copy.close)

    def test_as_it_is(self):
        self.assertEqual(self.copy.says("check_tar.py"), (0, ""))

    def test_a_byte_of_the_archive(self):
        sample = "crates/tar_sample/stdout"
        first = planted.read(f"{self.copy.top}/{sample}").split("\n", 1)[0]
        other = first[:-1] + ("1" if first[-1] == "0" else "0")
        status, said = self.copy.says_with(sample, first + "\n", other + "\n", "check_tar.py")
        self.assertEqual(status, 1, said)
        self.assertIn("the archive is another one", said)

    def test_words(self):
        for words in (["--uffs"], ["--uffs", "/bin/true"], ["/bin/true", "/bin/true"], ["no_such_program"]):
            with self.subTest(words):
                status, said = self.copy.says("check_tar.py", *words)
                self.assertEqual(status, 2, said)
                self.assertIn("tools/check_tar.py PROGRAM", said)

    def test_a_program_that_does_nothing(self):
        status, said = self.copy.says("check_tar.py", "/bin/true")
        self.assertEqual(status, 1, said)
        self.assertIn("no further: ", said)


if __name__ == "__main__":
    unittest.main()
