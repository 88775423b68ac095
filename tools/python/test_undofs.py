#!/usr/bin/env python3
"""Tries undofs.py: tools/python/test_undofs.py PROGRAM. The last line counts; the status is 0 where none failed."""
import os
import sys
import tempfile

from undofs import CREAT, CUT, FAILED, READ, WRITE, FlatFilePart, Gone, MemoryPart, Refused, Undofs

PROGRAM = os.path.abspath(sys.argv[1])


def refusal(call, *words):
    try:
        call(*words)
    except Refused as refused:
        return refused.number
    return None


def calls_and_versions():
    with Undofs(MemoryPart(256, 16, 64), 8, PROGRAM) as fs:
        fs.mkdir("/a")
        with fs.group():
            fs.write("/a/f", b"hi")
            fs.write("/a/ %\udcff", b"")
        assert fs.list("/") == ["a/"] and fs.list("/a") == [" %\udcff", "f"]
        assert fs.stat("/a/f") == ("file", 2) and fs.read("/a/f") == b"hi"
        fs.undo()
        assert fs.list("/a") == [] and fs.list("/a", "@3") == [" %\udcff", "f"]
        fs.redo()
        fs.checkpoint("before")
        fs.unlink("/a/f")
        fs.rollback("before")
        assert fs.read("/a/f", view="=before") == b"hi"
        assert refusal(fs.unlink, "/none") == 1 and refusal(fs.mkdir, "/a") == 4 and refusal(fs.ask, "none") == 0
        assert fs.df()["data"] == 56


def a_group_is_given_up():
    with Undofs(MemoryPart(256, 16, 64), 8, PROGRAM) as fs:
        try:
            with fs.group():
                fs.mkdir("/a")
                fs.rmdir("/b")
        except Refused:
            pass
        assert fs.list("/") == []


def a_long_file_is_one_version():
    text = bytes(range(256)) * 1000
    with Undofs(MemoryPart(1024, 4, 256), 8, PROGRAM) as fs:
        fs.write("/f", text)
        assert fs.read("/f") == text and fs.read("/f", 100, 5) == text[100:105]
        file = fs.open("/g", READ | WRITE | CREAT)
        fs.pwrite(file, 3, b"abc")
        fs.ftruncate(file, 5)
        assert fs.pread(file, 0, 99) == b"\0\0\0ab"
        fs.fsync(file)
        fs.close(file)
        fs.goto(1)
        fs.redo()
        assert fs.list("/") == ["f"]


def a_flat_file_outlives_its_child():
    with tempfile.TemporaryDirectory() as folder:
        part = FlatFilePart(folder + "/part", (256, 16, 64))
        with Undofs(part, 8, PROGRAM) as fs:
            fs.write("/f", b"hi")
            fs.sync()
            fs.write("/g", b"ho")
        part.close()
        part = FlatFilePart(folder + "/part")
        assert not part.is_new and part.sizes == (256, 16, 64)
        with Undofs(part, program=PROGRAM) as fs:
            assert fs.list("/") == ["f"]
        part.close()


class Failing(MemoryPart):
    """A part of which every ninth program fails, or which loses power."""

    def __init__(self):
        super().__init__(256, 16, 64)
        self.count, self.is_cut = 0, False

    def program_page(self, page, text):
        self.count += 1
        if self.is_cut:
            return CUT
        if self.count % 9:
            return super().program_page(page, text)
        self.content[page] = None
        return FAILED


def failures_and_cuts():
    part = Failing()
    with Undofs(part, 8, PROGRAM) as fs:
        for i in range(5):
            fs.write(f"/f{i}", b"x" * 500)
            fs.sync()
        assert fs.df()["bad"] > 0
        part.is_cut = True
        assert refusal(fs.mkdir, "/d") == 24 and refusal(fs.sync) == 24
        fs.restart()
        assert len(fs.list("/")) == 5
    part.is_cut = False
    with Undofs(part, program=PROGRAM) as fs:
        assert len(fs.list("/")) == 5


def no_file_system_and_no_child():
    assert refusal(Undofs, MemoryPart(256, 16, 64), None, PROGRAM) == 27
    fs = Undofs(MemoryPart(256, 16, 64), 8, PROGRAM)
    fs.child.kill()
    try:
        fs.mkdir("/a")
        raise AssertionError("a child that was killed answered")
    except Gone:
        pass


CASES = [calls_and_versions, a_group_is_given_up, a_long_file_is_one_version, a_flat_file_outlives_its_child, failures_and_cuts, no_file_system_and_no_child]


def main():
    failed = 0
    for case in CASES:
        try:
            case()
            print("ok   ", case.__name__)
        except Exception as error:
            print("WRONG", case.__name__, repr(error))
            failed += 1
    print(f"{len(CASES) - failed} passed, {failed} failed")
    return failed != 0


if __name__ == "__main__":
    sys.exit(main())
