#!/usr/bin/env python3
"""What try_edits.py has to see: tools/tests/test_try_edits.py [--proofs]. With --proofs it also tries edits of two
crates of a few lines, in a folder of their own, by `rt ci` and by `rt check`: that takes some minutes."""
import os
import shutil
import subprocess
import sys
import tempfile
import threading
import time
import unittest
from unittest import mock

TOOLS = os.path.dirname(os.path.dirname(os.path.abspath(__file__)))
sys.dont_write_bytecode = True
sys.path.insert(0, TOOLS)

import edit_copies  # noqa: E402
import edit_files  # noqa: E402
import edit_trials  # noqa: E402
import try_edits  # noqa: E402

LOW = """//! Numbers of which some are less than others.
#![tactic(auto)]

ghost use Rattle.std.specs.Prelude.{◌≡◌, ◌≤◌};

/// The lesser of two numbers.
pub fn least(a: u32, b: u32) -> u32
    ensures one { result ≤ a }
    ensures other { result ≤ b }
{
    if a < b { a } else { b }
}

/// A number that is not above any of three.
pub fn least_of_three(a: u32, b: u32, c: u32) -> u32
    ensures last { result ≤ c }
{
    least(least(a, b), c)
}

/// A number that is not above the first of two.
pub fn not_above(a: u32, b: u32) -> u32
    ensures { result ≤ a }
{
    least(a, b)
}

/// A number that is not above another one.
pub fn some(a: u32) -> u32
    ensures { result ≤ a }
{
    a / 2
}

/// The number itself, which is not above itself.
pub fn same(a: u32) -> u32
    ensures same { result ≡ a }
    ensures most { result ≤ a }
{
    a / 1
}
"""
HIGH = """//! A number of the crate below.
#![tactic(auto)]

ghost use Rattle.std.specs.Prelude.{◌≤◌};

use low::least;

/// A number that is not above the second of two.
pub fn lesser(a: u32, b: u32) -> u32
    ensures { result ≤ b }
{
    least(a, b)
}
"""
# By its path each edit: its old and new text, and its clause.
EDITS = {
    "low/wrong/least_is_the_second.edit": ("if a < b { a }", "if a < b { b }", "one"),
    "low/must-fail/last_is_forgotten.edit": ("least(least(a, b), c)", "least(least(a, b), b)", "returns"),
    "low/wrong/second_is_forgotten.edit": ("    least(a, b)", "    least(a, a)", "returns"),
    "low/wrong/some_is_a_third.edit": ("a / 2", "a / 3", "returns"),
    "low/wrong/same_is_half.edit": ("a / 1", "a / 2", "most"),
    "high/wrong/first_twice.edit": ("    least(a, b)", "    least(a, a)", "returns"),
}
TRIED_ONCE = {
    "low/least_is_the_second.edit": "refused by one, by search",
    "low/last_is_forgotten.edit": "refused by returns, by search",
    "low/second_is_forgotten.edit": "NOT REFUSED",
    "low/some_is_a_third.edit": "NOT REFUSED",
    "low/same_is_half.edit": "REFUSED BY ANOTHER CLAUSE: by same, and not by most",
    "high/first_twice.edit": "refused by returns, by search",
}
# What a check said of a function whose answers no longer fit: the goal of one reads Unit, so its clause holds.
SAID = """== low
./proofs/store/Store/add/Answers.antt:25:5: error: `returns-in-Err-clause-full`: expected type `Unit {0}`, but this has type `◌≡◌ {?ℓ0}`
  one side (expected) is shown computed, as a hole's goal is
./proofs/store/Store/add/Answers.antt:30:5: error: `returns-clause-new`: `rw`: no occurrence of the path's right endpoint
  computed, the type that was searched reads `Unit {0}`
./proofs/store/Store/add/Answers.antt:35:5: error: `returns-clause-ok`: as printed, the two types first differ
  expected type `mathlib.Core.Path.◌≡◌ (mathlib.Core.Bool.not c.is_ok.result)`
note: src/store.rt:2:5: it is not proved that what the function ensures holds when it returns (`returns-clause-len`); `search` gave up
fn low::store::Store::add: not proved
fn low::store::used: no proof: it calls `low::store::Store::add`, which is not proved
logic=not-proved
"""
STORE = """impl Store {
    fn add(&self) -> u8
        ensures len { result ≡ 0 }
        ensures same { self.new ≡ record self.old {
          count = 0;
        } }
    {
        0
    }
}

const MOST: u8 = 9;

pub extern "C" fn used() -> u8 {
    let one = 1;
    one
}
"""


def write(path, text):
    os.makedirs(os.path.dirname(path), exist_ok=True)
    with open(path, "w", encoding="utf-8") as file:
        file.write(text)


def repository(room):
    """Two crates with their edits and the tool in a folder."""
    write(f"{room}/crates/low/src/lib.rt", LOW)
    write(f"{room}/crates/high/src/lib.rt", HIGH)
    write(f"{room}/crates.txt", "low:\nhigh: low\n")
    write(f"{room}/HANDLES", "Handles allowed: none.\n")
    for path, (old, new, clause) in EDITS.items():
        write(f"{room}/crates/{path}", f"file: src/lib.rt\nold: {old}\nnew: {new}\nclause: {clause}\n")
    os.makedirs(f"{room}/tools")
    for name in ("try_edits.py", "edit_trials.py", "edit_files.py", "edit_copies.py"):
        shutil.copy(f"{TOOLS}/{name}", f"{room}/tools/{name}")


def called(room, *words, **environment):
    """The status of the tool, and the lines that it prints."""
    how = {"stdin": subprocess.DEVNULL, "capture_output": True, "text": True, "env": {**os.environ, **environment}}
    ran = subprocess.run([sys.executable, f"{room}/tools/try_edits.py", *words], **how, check=False)
    return ran.returncode, ran.stdout.splitlines()


def write_tried(room, crate):
    """Writes lines with today's sums for all edits of a crate."""
    edits = edit_files.edits_of(crate, room)
    here = try_edits.Sums(edit_files.listed(room), room).of(crate, edits)
    write(f"{room}/crates/{crate}/wrong/TRIED", "".join(f"{it.name} {here[it.name]} by-search {it.clauses[0]}\n" for it in edits))


def store_edit(old, clause):
    return edit_files.Edit("low", f"{old}.edit", old, [("src/store.rt", old, "x")], [clause])


class Reading(unittest.TestCase):
    """What needs no proof."""

    def setUp(self):
        room = tempfile.TemporaryDirectory()
        self.addCleanup(room.cleanup)
        self.room = room.name
        repository(self.room)
        write(f"{self.room}/crates/low/src/store.rt", STORE)
        self.folder = f"{self.room}/crates/low"

    def said_of(self, old, clause, said=SAID):
        [[(edit, places)]] = edit_trials.rounds_of(self.folder, [store_edit(old, clause)])
        return edit_trials.tried_once([(edit, places)], {"src/store.rt": STORE}, said)[edit.name].words

    def test_search_and_answers(self):
        self.assertEqual(self.said_of("        0", "len"), "refused by len, by search")
        self.assertEqual(self.said_of("        0", "ok"), "refused by ok, by an answer")
        for clause in ("full", "new"):
            self.assertEqual(self.said_of("        0", clause), f"REFUSED BY ANOTHER CLAUSE: by len, ok, and not by {clause}")

    def test_let_through(self):
        self.assertTrue(self.said_of("    one\n", "returns").startswith("NOT REFUSED"))
        self.assertTrue(self.said_of("        0", "len", SAID.replace("not-proved", "proved")).startswith("NOT REFUSED"))
        self.assertTrue(self.said_of("        0", "len", "rt: low NOT PROVED: its library none failed").startswith("NOT TRIED"))
        self.assertTrue(self.said_of("        0", "").startswith("NOT TRIED"))

    def test_waits(self):
        one = [(it, edit_trials.planted(it, self.folder, {})) for it in (store_edit("        0", "len"), store_edit("    one\n", "returns"))]
        told = edit_trials.tried_once(one, {"src/store.rt": STORE}, SAID)
        self.assertEqual(told["    one\n.edit"], edit_trials.LATER)

    def test_attributes(self):
        """A check tells of a function at the line of its first attribute."""
        text = "/// One.\n#[tactic(\n    auto,\n)]\n#[inline]\nfn one() {\n}\n\nfn two() {\n}\n"
        self.assertEqual([(it.head, it.first) for it in edit_files.functions_in(text)], [(1, 5), (8, 8)])
        said = "note: src/store.rt:2:1: it is not proved that it is so (`returns`)"
        places = lambda number: [edit_trials.Place("src/store.rt", number, "")]
        self.assertEqual(edit_trials.goals_of(places(0), {"src/store.rt": text}, said), (["returns"], []))
        self.assertEqual(edit_trials.goals_of(places(1), {"src/store.rt": text}, said), ([], []))

    def test_goals_with_no_note(self):
        """A goal may stand in the line of its function alone."""
        said = "fn low::store::one: no proof: expected answers in ./proofs/store/one/Answers.antt; `search` did not prove `returns`, `more`; it calls `x`"
        places = [edit_trials.Place("src/store.rt", 0, "one")]
        self.assertEqual(edit_trials.goals_of(places, {"src/store.rt": "fn one() {\n}\n"}, said), (["returns", "more"], []))

    def test_methods_of_another_module(self):
        """The answers of a method stand with its type."""
        text = "impl<N: Nodes<u8>> Walk for List<'_, N> {\n    fn next(&self) {\n    }\n}\n\nfn next() {\n}\n"
        method, function = edit_files.functions_in(text)
        self.assertEqual([edit_files.owner_of(text, it) for it in (method, function)], ["List", ""])
        place = edit_trials.Place("src/walks.rt", 0, "next", "List")
        self.assertTrue(place.has_answers_in("lists/ListWalk/next"))
        self.assertFalse(edit_trials.Place("src/walks.rt", 1, "next").has_answers_in("lists/ListWalk/next"))
        for folder in ("walks/next", "walks/+next", "walks/+next+more"):
            self.assertTrue(edit_trials.Place("src/walks.rt", 1, "next").has_answers_in(folder), folder)
        self.assertTrue(place.meets(edit_trials.Place("src/others.rt", 0, "next", "List")))

    def test_goals_of_a_type(self):
        """What the fields of a type owe is told in other words."""
        said = "note: src/store.rt:2:1: `search` found no proof (`invariant_of-result`); `search` gave up at one of its limits"
        places = [edit_trials.Place("src/store.rt", 0, "")]
        self.assertEqual(edit_trials.goals_of(places, {"src/store.rt": "fn one() {\n}\n"}, said), (["invariant_of-result"], []))

    def test_rounds(self):
        edits = [store_edit(old, "len") for old in ("        0", "result ≡ 0", "    one\n", "MOST: u8 = 9", "not there")]
        found = [[edit.text for edit, _ in one] for one in edit_trials.rounds_of(self.folder, edits)]
        self.assertEqual(found, [["        0", "    one\n"], ["result ≡ 0"], ["MOST: u8 = 9"], ["not there"]])

    def test_sums(self):
        """A changed edit, proof, clause below or constant below is tried, and a changed body below or comment is not."""
        names = lambda *words: called(self.room, "--list", *words)[1][0].split(" are tried")[0]
        write(f"{self.room}/crates/low/specs/Lib.antt", "-- nothing\n")
        self.assertEqual(names("high"), "1 of 1 edits")
        write_tried(self.room, "high")
        for name, old, new, count in (
            ("low/src/lib.rt", "if a < b { a }", "if a < b { b }", 0),
            ("low/src/lib.rt", "/// The lesser of two", "/// The least of two", 0),
            ("high/src/lib.rt", "/// A number that is not above", "/// One that is not above", 0),
            ("low/specs/Lib.antt", "-- nothing", "-- nothing yet", 0),
            ("low/src/lib.rt", "result ≤ a }", "result < a }", 1),
            ("low/src/store.rt", "MOST: u8 = 9", "MOST: u8 = 8", 1),
            ("high/src/lib.rt", "least(a, b)", "least(b, a)", 1),
            ("high/wrong/first_twice.edit", "least(a, a)", "least(b, a)", 1),
        ):
            path = f"{self.room}/crates/{name}"
            was = edit_files.text_of(path)
            self.assertIn(old, was)
            write(path, was.replace(old, new))
            self.assertEqual(names("high"), f"{count} of 1 edits", name + old)
            write(path, was)
        for name in ("low/specs/Other.antt", "high/proofs/Lib.antt"):
            write(f"{self.room}/crates/{name}", "mod Other\n")
            self.assertEqual(names("high"), "1 of 1 edits", name)
            os.remove(f"{self.room}/crates/{name}")
        self.assertEqual(names("high"), "0 of 1 edits")
        self.assertEqual(names("--all", "high"), "1 of 1 edits")
        self.assertEqual(names(), "6 of 6 edits")

    def test_order(self):
        """Crates with an edit that has no line are begun first, and then the ones with less source."""
        order = lambda: [it.partition(":")[0] for it in called(self.room, "--all", "--list")[1][1:]]
        self.assertEqual(order(), ["low", "high"])
        write_tried(self.room, "low")
        self.assertEqual(order(), ["high", "low"])
        write_tried(self.room, "high")
        self.assertEqual(order(), ["low", "high"])


class Calling(unittest.TestCase):
    """What the tool calls, with a command in the place of `rt` that proves nothing."""

    def setUp(self):
        room = tempfile.TemporaryDirectory()
        self.addCleanup(room.cleanup)
        self.room = room.name
        repository(self.room)
        line = LOW.split("\n").index("    if a < b { a } else { b }") + 1
        write(f"{self.room}/said", f"note: src/lib.rt:{line}:5: it is not proved that it is so (`returns-clause-one`)\n{{}}logic=not-proved\n")
        write(f"{self.room}/version", "rattle-kit-1 logic aa\n")
        write(f"{self.room}/crates/low/out/rlib/low.rlib/code", "code\n")
        write(f"{self.room}/crates/low/out/rlib/stamp", "stamp")
        os.mkdir(f"{self.room}/copies")
        self.environment = {"RT": f"{self.room}/rt", "TMPDIR": f"{self.room}/copies"}

    def stand_in(self, checks):
        """Makes the command: what it does in a check is a script."""
        said = f"""crate=$(basename "$PWD"); echo $1 $crate >> {self.room}/calls
{checks}
echo "crate $crate: modules loaded=1"
sed "s/{{}}/crate $crate: modules\\n/" {self.room}/said
"""
        write(f"{self.room}/rt", f"#!/bin/sh\nif [ $1 = version ]; then exec cat {self.room}/version; fi\n{said}")
        os.chmod(f"{self.room}/rt", 0o755)

    def called(self, *words):
        return called(self.room, *words, **self.environment)

    def sleeps_in(self, crate):
        """Makes the command, which does not end in a check of this crate."""
        self.stand_in(f"if [ $crate = {crate} ]; then echo $$ > {self.room}/asleep; sleep 600; fi")

    def wait_until_asleep(self):
        while not os.path.exists(f"{self.room}/asleep") or not edit_files.text_of(f"{self.room}/asleep"):
            time.sleep(0.1)

    def assert_all_ended(self):
        """Of the call that slept no process runs any more, and no copy is left."""
        call = int(edit_files.text_of(f"{self.room}/asleep"))
        self.assertEqual(list(edit_copies.processes_of({call})), [])
        self.assertEqual(os.listdir(f"{self.room}/copies"), [])

    def test_out_of_time(self):
        """What was not tried in time fails nothing and is told, and the rest is counted."""
        self.sleeps_in("high")
        began = time.monotonic()
        status, lines = self.called("--minutes", "0.05", "--write")
        self.assertLess(time.monotonic() - began, 60)
        self.assertEqual(lines[-1], "1 passed, 4 failed", lines)
        self.assertIn("1 of the 6 edits were not tried in 0.05 minutes: high/first_twice.edit", lines)
        self.assertEqual(status, 1)
        self.assertEqual(list(edit_files.tried_of("low", self.room)), ["least_is_the_second.edit"])
        self.assertFalse(os.path.exists(f"{self.room}/crates/high/wrong/TRIED"))
        self.assert_all_ended()

    def test_nothing_in_time(self):
        self.sleeps_in("low")
        status, lines = self.called("--minutes", "0.05", "--jobs", "1")
        self.assertEqual((status, lines[-1]), (0, "0 passed, 0 failed"))
        self.assertTrue(lines[-2].startswith("none of the 6 edits was tried in 0.05 minutes: low/last_is_forgotten.edit "), lines)
        self.assertTrue(lines[-2].endswith(" high/first_twice.edit"), lines)
        self.assertEqual(edit_files.text_of(f"{self.room}/calls"), "check low\n")
        self.assert_all_ended()

    def test_interrupted(self):
        self.sleeps_in("low")
        words = [sys.executable, f"{self.room}/tools/try_edits.py", "low"]
        with subprocess.Popen(words, stdout=subprocess.DEVNULL, env={**os.environ, **self.environment}) as ran:
            self.wait_until_asleep()
            ran.terminate()
            self.assertEqual(ran.wait(60), 143)
        self.assert_all_ended()

    def test_killed(self):
        """What does not end by itself is killed."""
        write(f"{self.room}/rt", f"#!/bin/sh\ntrap '' TERM\necho $$ > {self.room}/asleep\nsleep 600\n")
        os.chmod(f"{self.room}/rt", 0o755)
        calls, came = edit_copies.Calls(), []

        def call():
            try:
                calls.rt("check", at=self.room)
            except edit_copies.OutOfTime:
                came.append("out of time")

        with mock.patch.dict(os.environ, self.environment), mock.patch.object(edit_copies, "PATIENCE", 3):
            thread = threading.Thread(target=call)
            thread.start()
            self.wait_until_asleep()
            calls.end()
            thread.join()
        self.assertEqual(came, ["out of time"])
        self.assertRaises(edit_copies.OutOfTime, calls.rt, "check", at=self.room)
        self.assert_all_ended()

    def test_copy(self):
        """A copy has what is read for the proofs of its crate and of those below it, with the edits of one round alone."""
        for name in ("low/specs/Lib.antt", "low/proofs/Lib.antt", "high/proofs/Lib.antt", "high/c/high.c"):
            write(f"{self.room}/crates/{name}", "code\n")
        write(f"{self.room}/crates/high/wrong/first_alone.edit", "file: src/lib.rt\nold: least(a, b)\nnew: a\nclause: returns\n")
        self.stand_in(f"echo more >> proofs/Lib.antt; find ../.. -type f ! -path '*/out/*' >> {self.room}/seen; cat src/lib.rt proofs/Lib.antt >> {self.room}/read")
        self.assertIn("high: 2 edits in 2 checks by rt check", self.called("high")[1])
        found = [it.removeprefix("../../crates/") for it in edit_files.text_of(f"{self.room}/seen").split()]
        files = ["high/c/high.c", "high/proofs/Lib.antt", "high/src/lib.rt", "low/proofs/Lib.antt", "low/specs/Lib.antt", "low/src/lib.rt"]
        self.assertEqual(sorted(found), sorted(2 * ["../../HANDLES", "../../crates.txt", *files]))
        texts = [HIGH.replace("least(a, b)", it) + "code\nmore\n" for it in ("a", "least(a, a)")]
        self.assertEqual(edit_files.text_of(f"{self.room}/read"), "".join(texts))

    def test_kept_work(self):
        """A copy has the libraries below it and the kept work of its crate, and nothing of either changes here."""
        kept = {"low/out/rlib/low.rlib/code", "low/out/rlib/stamp", "high/out/incremental/work"}
        for name in ("high/out/incremental/work", "high/out/rlib/high.rlib/code", "low/out/incremental/work"):
            write(f"{self.room}/crates/{name}", "code\n")
        self.stand_in(f"(cd .. && find */out -type f) >> {self.room}/seen\necho more >> out/incremental/work\nrm -r ../low/out/rlib")
        self.assertIn("high: 1 edits in 1 checks by rt check", self.called("high")[1])
        self.assertEqual(set(edit_files.text_of(f"{self.room}/seen").split()), kept)
        for name in kept - {"low/out/rlib/stamp"}:
            self.assertEqual(edit_files.text_of(f"{self.room}/crates/{name}"), "code\n")

    def test_way(self):
        """By `rt ci` nothing is taken that was kept here: where a library below has no stamp, or where it is asked for."""
        write(f"{self.room}/crates/high/out/incremental/work", "code\n")
        self.stand_in(f"find . -path '*/out/*' >> {self.room}/seen")
        self.called("high", "--by", "ci")
        os.remove(f"{self.room}/crates/low/out/rlib/stamp")
        self.called("high")
        calls = [it.split()[0] for it in edit_files.text_of(f"{self.room}/calls").splitlines()]
        self.assertEqual((calls, edit_files.text_of(f"{self.room}/seen")), (["fmt", "ci", "fmt", "ci"], ""))

    def test_version(self):
        """Of a version the logic alone is in the sums, or all of it where it names none."""
        self.stand_in("")

        def sums(version):
            write(f"{self.room}/version", version)
            with mock.patch.dict(os.environ, self.environment):
                return try_edits.Sums(edit_files.listed(self.room), self.room).of("low", edit_files.edits_of("low", self.room))

        self.assertEqual(sums("rattle-kit-1 logic aa\n"), sums("rattle-kit-2 logic aa\n"))
        self.assertNotEqual(sums("rattle-kit-1 logic aa\n"), sums("rattle-kit-1 logic bb\n"))
        self.assertNotEqual(sums("rattle-kit-1\n"), sums("rattle-kit-2\n"))


class Proving(unittest.TestCase):
    """What a check has to refuse."""

    def test_verdicts(self):
        with tempfile.TemporaryDirectory() as room:
            repository(room)
            # (what an earlier run proved of the same text is kept, and not tried)
            low = LOW.replace("less than others.", f"less than others: {os.urandom(8).hex()}.")
            write(f"{room}/crates/low/src/lib.rt", low)
            status, lines = called(room, "--write")
            told = dict(it.split(": ", 1) for it in lines if ".edit: " in it)
            for name, words in TRIED_ONCE.items():
                self.assertTrue(told.get(name, "").startswith(words), f"{name}: {told.get(name)}")
            self.assertEqual((status, lines[-1]), (1, "3 passed, 3 failed"), lines)
            self.assertEqual(sorted(edit_files.tried_of("low", room)), ["last_is_forgotten.edit", "least_is_the_second.edit"])
            self.assertEqual(called(room, "--list", "high")[1][0].split(" are")[0], "0 of 1 edits")
            self.assertEqual(called(room, "--list", "low")[1][0].split(" are")[0], "3 of 5 edits")
            write(f"{room}/crates/low/src/lib.rt", low.replace("ensures one { result ≤ a }", "ensures one { result ≤ a }\n    ensures still { result ≤ a }"))
            self.assertEqual(called(room, "--list", "high")[1][0].split(" are")[0], "1 of 1 edits")

    def test_kept_work(self):
        """Over a library that is kept here, a check proves the crate above it alone."""
        with tempfile.TemporaryDirectory() as room:
            repository(room)
            subprocess.run(["rt", "lib"], cwd=f"{room}/crates/low", stdin=subprocess.DEVNULL, stdout=subprocess.DEVNULL, check=True)
            status, lines = called(room, "high", "--logs", f"{room}/logs")
            self.assertEqual((status, lines[-1]), (0, "1 passed, 0 failed"), lines)
            self.assertIn("high: 1 edits in 1 checks by rt check", lines)
            said = edit_files.text_of(f"{room}/logs/high.1")
            self.assertIn("\ncrate high: modules", said)
            self.assertNotIn("\ncrate low: modules", said)


if __name__ == "__main__":
    if "--proofs" in sys.argv:
        sys.argv.remove("--proofs")
    else:
        del Proving
    unittest.main()
