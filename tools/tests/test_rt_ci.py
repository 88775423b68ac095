#!/usr/bin/env python3
"""What rt_ci.py has to do: ask once for each crate, and leave an `rt` of another form alone."""
import os
import subprocess
import sys
import tempfile
import unittest

TOOL = os.path.join(os.path.dirname(os.path.dirname(os.path.abspath(__file__))), "rt_ci.py")
KNOWN = """#!/usr/bin/env python3
import sys
import types


class Crate:
    asked = []

    def __init__(self, folder):
        self.folder = folder

    def below(self):
        Crate.asked.append(f"below {self.folder}")
        return [f"under {self.folder}"]

    def stamp(self):
        Crate.asked.append(f"stamp {self.folder}")
        return f"sum of {self.folder}"


rtlib = types.SimpleNamespace(Crate=Crate)


def main(words):
    for crate in (Crate("a"), Crate("b"), Crate("a")):
        crate.below().append("more")
        print(words, crate.below(), crate.stamp())
    print(Crate.asked)
    return 3


if __name__ == "__main__":
    sys.exit(9)
"""


class Calls(unittest.TestCase):
    def called(self, text):
        """What the tool prints, and its status, over an `rt` of this text."""
        with tempfile.TemporaryDirectory() as room:
            path = f"{room}/rt"
            with open(path, "w", encoding="utf-8") as file:
                file.write(text)
            os.chmod(path, 0o755)
            environment = {**os.environ, "PATH": f"{room}:{os.environ['PATH']}"}
            environment.pop("RT", None)
            ran = subprocess.run([sys.executable, TOOL], env=environment, stdin=subprocess.DEVNULL, capture_output=True, text=True, check=False)
        return ran.stdout.splitlines(), ran.returncode

    def test_each_crate_is_asked_once(self):
        lines, status = self.called(KNOWN)
        row = lambda name: f"['ci'] ['under {name}'] sum of {name}"
        self.assertEqual(lines, [row("a"), row("b"), row("a"), "['below a', 'stamp a', 'below b', 'stamp b']"])
        self.assertEqual(status, 3)

    def test_another_form_is_called_as_it_is(self):
        self.assertEqual(self.called('#!/bin/sh\necho "plain $*"\nexit 4\n'), (["plain ci"], 4))
        other = KNOWN.replace("rtlib = ", "library = ").replace("sys.exit(9)", "sys.exit(print(sys.argv[1:]))")
        self.assertEqual(self.called(other), (["['ci']"], 0))


if __name__ == "__main__":
    unittest.main()
