#!/usr/bin/env python3
"""Which chains measure_depth.py tells: tools/tests/test_measure_depth.py."""
import os
import shutil
import subprocess
import sys
import tempfile
import unittest

import planted

# Two crates: what the upper one calls is found by imports, by types and by a trait.
LOW = {
    "lib": "mod media;\nmod stores;\n\npub use media::Media;\npub use stores::{Store, open};\n",
    "media": "pub trait Media {\n    fn program(&mut self, page: u32) -> bool;\n}\n",
    "stores": """use crate::media::Media;

pub struct Store {
    pub page: u32,
}

impl Store {
    /// It calls `put` in words only.
    pub fn add<M: Media>(&mut self, media: &mut M) -> bool
        ensures { put result }
    {
        match check(self.page) {
            Some(page) if page < 9 => media.program(page),
            _ => false,
        }
    }
}

pub fn open(page: u32) -> Result<Store, bool>
{
    Ok(Store { page })
}

fn check(page: u32) -> Option<u32>
{
    Some(page)
}
""",
}
HIGH = {
    "lib": """use low::{Media, Store, open};

struct Kept {
    store: Store,
}

pub fn run<M: Media>(media: &mut M) -> Result<bool, bool>
{
    let mut kept = Kept { store: open(1)? };
    Ok(put(media, &mut kept))
}

pub fn put<M: Media>(media: &mut M, kept: &mut Kept) -> bool
{
    kept.store.add(media)
}
""",
}


class Chains(unittest.TestCase):
    def setUp(self):
        room = tempfile.TemporaryDirectory(prefix="undofs-calls-")
        self.addCleanup(room.cleanup)
        self.top = room.name
        os.makedirs(f"{self.top}/tools")
        shutil.copy(f"{planted.TOP}/tools/measure_depth.py", f"{self.top}/tools")
        planted.write(f"{self.top}/crates.txt", "# Two.\nlow: \nhigh: low\n")
        for crate, files in (("low", LOW), ("high", HIGH)):
            os.makedirs(f"{self.top}/crates/{crate}/src")
            for name, text in files.items():
                planted.write(f"{self.top}/crates/{crate}/src/{name}.rt", text)

    def says(self, *words):
        words = [sys.executable, f"{self.top}/tools/measure_depth.py", *words]
        ran = subprocess.run(words, stdin=subprocess.DEVNULL, stdout=subprocess.PIPE, stderr=subprocess.STDOUT, encoding="utf-8", check=False)
        return ran.returncode, ran.stdout.splitlines()

    def test_chain(self):
        status, lines = self.says("high::run", "low::Media::program")
        self.assertEqual(lines, ["  high::run", "- high::put", "  low::Store::add", "  low::Media::program", "4 functions"])
        self.assertEqual(status, 0)

    def test_through(self):
        _, lines = self.says("high::run", "low::Store::add", "--through", "high::put")
        self.assertEqual(lines[-1], "3 functions")

    def test_of_several_the_longest(self):
        path = f"{self.top}/crates/high/src/lib.rt"
        planted.write(path, planted.read(path).replace("    kept.store.add(media)\n", "    kept.store.add(media) && more(media, kept)\n") + "\nfn more<M: Media>(media: &mut M, kept: &mut Kept) -> bool\n{\n    kept.store.add(media)\n}\n")
        _, lines = self.says("high::run", "low::Media::program")
        self.assertEqual(lines[-1], "5 functions")
        _, lines = self.says("high::run", "low::Media::program", "--without", "high::more")
        self.assertEqual(lines[-1], "4 functions")

    def test_types_that_have_a_trait(self):
        planted.write(f"{self.top}/crates/high/src/plain.rt", "use low::Media;\n\nstruct Plain;\n\nimpl Media for Plain {\n    fn program(&mut self, page: u32) -> bool {\n        last(page)\n    }\n}\n\nfn last(page: u32) -> bool\n{\n    true\n}\n")
        _, lines = self.says("high::run", "high::last")
        self.assertEqual(lines[-3:], ["- high::Plain::program", "  high::last", "5 functions"])

    def test_no_chain(self):
        status, lines = self.says("high::put", "low::open")
        self.assertEqual((status, lines), (1, ["no chain of calls leads from high::put to low::open"]))

    def test_no_such_name(self):
        status, lines = self.says("high::run", "low::close")
        self.assertEqual((status, lines), (1, ["no function has the name low::close"]))

    def test_as_it_is(self):
        words = [sys.executable, f"{planted.TOP}/tools/measure_depth.py", "script_runs::run_script", "flash_model::Flash::program", "--through", "working_state::State::write_file"]
        ran = subprocess.run(words, stdin=subprocess.DEVNULL, capture_output=True, encoding="utf-8", check=False)
        self.assertEqual(ran.returncode, 0, ran.stderr)
        self.assertIn("working_state::change\n", ran.stdout)


if __name__ == "__main__":
    unittest.main()
