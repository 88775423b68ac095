#!/usr/bin/env python3
"""What the cases of check_host.py have to see: tools/tests/test_check_host.py PROGRAM.

Each twin is a program that is wrong in one thing: the library of tools/host_shim.c makes it so in the place of PROGRAM.
"""
import contextlib
import io
import os
import shutil
import subprocess
import sys
import tempfile
import unittest

import planted

sys.path.insert(0, f"{planted.TOP}/tools")
import check_host
import host_calls

PROGRAM = os.path.abspath(sys.argv.pop(1)) if len(sys.argv) > 1 else None
# The cases in which the calls to the host are seen, by their names.
CASES = {it.__name__: it for it in check_host.WATCHED}
# By a case: what each program does that is wrong, and the case has to see.
TWINS = {
    "all_is_synced": {
        "a new file is not brought to the disk": "fsync .new 1 99 lost",
        "the folder is not brought to the disk": "fsync * 2 2 lost",
        "the mode of the old file is lost": "fchmod .new 1 9 lost",
        "a new file can be read by others while it is written": "open .new 1 9 mode",
        "the new file is not locked": "flock .new 1 9 lost",
    },
    "each_call_fails": {
        "a failed sync is passed over": "fsync .new 1 9 deaf",
        "a failed sync of the folder is passed over": "fsync * 2 2 deaf",
        "a failed write is passed over": "write .new 1 99 deaf",
        "a failed renaming is passed over": "rename * 1 9 deaf",
        "the new file is left": "unlink .new 2 9 lost",
    },
    "short_counts": {
        "a short write is taken for all": "write .new 1 999 deaf",
        "a short read is taken for all": "read image 1 999 deaf",
    },
    "unread": {
        "a failed read is passed over": "read * 1 9 deaf",
    },
    "output_fails": {
        "a failed write of the output is passed over": "write ] 1 1 deaf",
    },
    "reading_writes_nothing": {
        "a look makes a file": "open image 1 9 make",
    },
    "part_is_synced": {
        "no barrier": "fdatasync part 1 999 lost",
        "one barrier is left out": "fdatasync part 6 6 lost",
        "no barrier before an erase": "fdatasync part 33 33 lost",
    },
    "part_fails": {
        "a failed write of a part is passed over": "pwrite part 1 9999 deaf",
        "a failed barrier is passed over": "fdatasync part 1 999 deaf",
        "a page that is not read is shown": "pread part 1 999 deaf",
    },
    "part_moves_by_half": {
        "half a write is taken for all": "pwrite part 1 9999 deaf",
        "half a read is taken for all": "pread part 1 9999 deaf",
    },
    "part_loses_power": {
        "no barrier": "fdatasync part 1 999 lost",
    },
    "driver_streams": {
        "orders are made": "open orders 1 9 make",
        "orders are emptied": "open orders 1 9 empty",
    },
    "at_the_name_itself": {
        "a link in a folder is followed": "statx link 1 99 follow",
    },
    "another_run_between": {
        "the name is not looked up again": "statx image 1 99 same",
    },
    "link_in_between": {
        "what was opened is not looked at": "statx source 1 99 same",
    },
    "file_in_between": {
        "the name is not looked at before the renaming": "statx image 1 99 same",
        "a link at the name is followed": "statx image 1 99 follow",
    },
    "two_make_one": {
        "the new file of another program is not spared": "flock .new 1 1 lost",
    },
    "folder_in_between": {
        "the name of a folder is not looked at before the renaming": "statx out 1 99 same",
    },
    "megabytes": {
        "an image is cut as it is written": "write image.new 1 9 cut=1000000",
        "an image is cut as it is read": "read image 1 99 cut=1000000",
        "an archive is cut as it is read": "read archive 1 999 cut=2700000",
    },
    "changes_are_written": {
        "a script is cut as it is read": "read changes 1 9999 cut=200000",
    },
    "hidden_names": {
        "names that begin with a dot are passed over": "getdents64 * 1 99 hidden",
        "names that are no UTF-8 are passed over": "getdents64 * 1 99 bytes",
    },
    "folder_becomes_a_link": {
        "an opened folder is not compared": "statx source/d 1 99 same",
    },
    "file_becomes_a_fifo": {
        "a file is opened for reading alone": "open * 1 99 weak",
    },
    "new_folder_becomes_a_link": {
        "an opened new folder is not compared": "statx out.new 2 99 same",
        "a new folder below is not compared": "statx out.new/d 1 99 same",
    },
    "output_is_the_image": {
        "the output is taken for another file": "statx /proc/self/fd/1 1 1 other",
    },
    "left_by_a_signal": {
        "what was left is not removed": "unlink image.new 1 999 lost",
    },
    "another_users_file": {
        "a file that may not be written is replaced": "open image 1 9 weak",
    },
}
# A program that puts what it may read, and leaves out the rest.
LENIENT = """#!/bin/sh
case $1 in
put | create)
    room=$(mktemp -d)
    cp -r "$3/." "$room" 2> /dev/null
    word=$1 image=$2
    shift 3
    PLAIN "$word" "$image" "$room" "$@"
    status=$?
    rm -rf "$room"
    exit $status
    ;;
esac
exec PLAIN "$@"
"""


class Twins(unittest.TestCase):
    @classmethod
    def setUpClass(cls):
        room = tempfile.TemporaryDirectory(prefix="uffs-twins-")
        cls.addClassCleanup(room.cleanup)
        cls.room = room.name
        os.chmod(cls.room, 0o777)
        host_calls.build(cls.room)
        if host_calls.Shim.library is None:
            raise unittest.SkipTest("no C compiler")

    def told(self, case, program=None):
        """What is told of a case."""
        with contextlib.redirect_stdout(io.StringIO()) as out:
            check_host.try_case(CASES[case], program or PROGRAM)
        return out.getvalue()

    def test_twins(self):
        for case, twins in TWINS.items():
            for name, rules in twins.items():
                with self.subTest(f"{case}: {name}"):
                    os.environ["HOST_SHIM_TWIN"] = rules
                    try:
                        told = self.told(case)
                    finally:
                        del os.environ["HOST_SHIM_TWIN"]
                    self.assertIn("not tried" if "not tried" in told else f"WRONG {case}", told)

    def test_each_case_has_a_twin(self):
        self.assertEqual(set(CASES) - {"may_not_be_read"}, set(TWINS))

    def test_no_compiler(self):
        words = [sys.executable, f"{planted.TOP}/tools/check_host.py", PROGRAM, "about", "megabytes"]
        done = subprocess.run(words, env={"PATH": self.room}, capture_output=True, encoding="utf-8", check=False, timeout=300)
        self.assertEqual((done.returncode, done.stdout.splitlines()[-1]), (0, "not tried: 1 cases, which want a C compiler"), done.stderr)

    def test_what_may_not_be_read_is_left_out(self):
        folder = tempfile.mkdtemp(dir=self.room)
        os.chmod(folder, 0o755)
        shutil.copy(PROGRAM, f"{folder}/plain")
        planted.write(f"{folder}/uffs", LENIENT.replace("PLAIN", f"{folder}/plain"))
        os.chmod(f"{folder}/uffs", 0o755)
        told = self.told("may_not_be_read", f"{folder}/uffs")
        self.assertIn("not tried" if "not tried" in told else "WRONG may_not_be_read", told)


if __name__ == "__main__":
    if PROGRAM is None:
        sys.exit(__doc__)
    unittest.main()
