#!/usr/bin/env python3
"""Tries `uffs serve` of the built program with a driver of its own, over pipes. docs/tests_of_the_program.md
tells what it shows.

  tools/check_serve.py PROGRAM

PROGRAM is crates/uffs/out/uffs, as `rt run` builds it there. The driver keeps a part in memory: 32 blocks of
16 pages of 256 bytes. It aborts where a page is programmed twice or an order is none. `serve --part` is tried
on a flat file in a folder of its own. Each case is a line `ok` or `WRONG` with its name; the status is the
number of the wrong ones.
"""
import os
import random
import select
import struct
import subprocess
import sys
import tempfile
import threading
import time

PAGE, PAGES, BLOCKS = 256, 16, 32
DONE, FAILED, CUT = 1, 2, 0
SCRIPT = ["mkdir /a", "write /a/f 6869", "sync", "write /a/g 01", "undo", "redo", "sync", "write /a/h 02", "sync"]


class Wrong(Exception):
    """What was found where something else has to be."""


def want(found, wanted):
    if found != wanted:
        raise Wrong(f"{found!r} in place of {wanted!r}")


class Part:
    """A part in memory: of each page nothing, its bytes, or that it is unreadable."""

    def __init__(self):
        self.pages = [b""] * (PAGES * BLOCKS)

    def image(self):
        text = b"UFFSIMG1" + struct.pack("<III", PAGE, PAGES, BLOCKS)
        for block in range(BLOCKS):
            text += b"\0"
            for page in self.pages[block * PAGES : (block + 1) * PAGES]:
                text += b"\0" if page == b"" else b"\2" if page is None else b"\1" + page
        return text

    def carry_out(self, order, answer):
        """Does an order, fails in it, or leaves it undone."""
        number = struct.unpack("<I", order[1:5])[0]
        if order[:1] == b"p":
            want(self.pages[number], b"")
            if answer != CUT:
                self.pages[number] = order[5:] if answer == DONE else None
        elif answer != CUT:
            first = number * PAGES
            self.pages[first : first + PAGES] = [b"" if answer == DONE else None] * PAGES


class Child:
    """`uffs serve` on a part. The order of a number is answered by what is planned for it."""

    def __init__(self, program, part, words, plan=None):
        answers, self.answers = os.pipe()
        self.orders, orders = os.pipe()
        names = [f"/dev/fd/{answers}", f"/dev/fd/{orders}"]
        self.part, self.plan, self.count, self.wrong = part, plan or {}, 0, None
        self.process = subprocess.Popen(
            [program, "serve", *names, *words],
            stdin=subprocess.PIPE, stdout=subprocess.PIPE, stderr=subprocess.PIPE, pass_fds=(answers, orders),
        )
        os.close(answers)
        os.close(orders)
        self.driver = threading.Thread(target=self.drive, daemon=True)
        self.driver.start()

    def drive(self):
        image = self.part.image()
        text = struct.pack("<Q", len(image)) + image
        try:
            while text:
                text = text[os.write(self.answers, text) :]
            while True:
                order = self.read(5)
                if len(order) < 5:
                    return
                order += self.read(PAGE) if order[:1] == b"p" else b""
                want(order[:1] in (b"p", b"e"), True)
                answer = self.plan.get(self.count, DONE)
                self.count += 1
                self.part.carry_out(order, answer)
                os.write(self.answers, bytes([answer]))
        except (OSError, Wrong) as error:
            self.wrong = error

    def read(self, count):
        text = b""
        while len(text) < count:
            more = os.read(self.orders, count - len(text))
            if not more:
                return b""
            text += more
        return text

    def ask(self, line):
        """The reply to a line, which has to come before the next line is given."""
        try:
            self.process.stdin.write(line.encode() + b"\n")
            self.process.stdin.flush()
        except BrokenPipeError:
            raise Wrong(f"the child ended before {line}")
        ready, _, _ = select.select([self.process.stdout], [], [], 20)
        if not ready:
            raise Wrong(f"no reply to {line}")
        return self.process.stdout.readline().decode().strip()

    def end(self):
        """The status at the end of the script, and the line on standard error."""
        self.process.stdin.close()
        told = self.process.stderr.read().decode()
        status = self.process.wait()
        self.driver.join(20)
        os.close(self.answers)
        os.close(self.orders)
        if isinstance(self.wrong, Wrong):
            raise self.wrong
        return status, told

    def kill(self):
        self.process.kill()
        self.process.stdin.close()
        self.process.wait()
        self.driver.join(20)


class PlacedChild(Child):
    """`uffs serve --part` on a flat file, which has no driver."""

    def __init__(self, program, name):
        self.process = subprocess.Popen(
            [program, "serve", "--part", name], stdin=subprocess.PIPE, stdout=subprocess.PIPE, stderr=subprocess.PIPE
        )

    def end(self):
        out, told = self.process.communicate()
        want(out, b"")
        return self.process.returncode, told.decode()

    def kill(self):
        self.process.kill()
        self.process.communicate()


def run(program, part, words, plan=None):
    """The replies to the script, and how many orders were given."""
    child = Child(program, part, words, plan)
    replies = [child.ask(line) for line in SCRIPT]
    child.end()
    return replies, child.count


def shown(program, part):
    """What a new child shows of a part."""
    child = Child(program, part, [])
    replies = [child.ask("ls /a"), child.ask("ls /")]
    want(child.end(), (0, ""))
    return replies


def replies_come_one_by_one(program):
    part = Part()
    replies, _ = run(program, part, ["--history", "8"])
    want(replies, ["ok"] * len(SCRIPT))
    want(shown(program, part)[0], "entries 3 f g h")


def what_was_synced_outlives_a_kill(program):
    part = Part()
    child = Child(program, part, ["--history", "8"])
    for line in SCRIPT[:3]:
        want(child.ask(line), "ok")
    child.ask("write /a/g 01")
    child.kill()
    want(shown(program, part)[0], "entries 1 f")


def each_order_cut(program):
    """A cut at each order after the format: what was synced before stands, and nothing is half."""
    _, orders = run(program, Part(), ["--history", "8"])
    for cut in range(11, orders):
        part = Part()
        replies, given = run(program, part, ["--history", "8"], {cut: CUT})
        want(given, cut + 1)
        want("err POWERCUT 24" in replies, True)
        first = replies.index("err POWERCUT 24")
        kept = ["entries 0", "entries 1 f", "entries 2 f g", "entries 3 f g h"]
        synced = replies[:first]
        least = 1 + (len(synced) > 6) if len(synced) > 2 else 0
        found = shown(program, part)[0]
        want(found in kept[least:] or (least == 0 and found == "err ENOENT 1"), True)


def each_order_failed(program):
    """A failure at each order after the format: the script goes on, and all is there at the end."""
    _, orders = run(program, Part(), ["--history", "8"])
    for failed in range(11, orders):
        part = Part()
        replies, _ = run(program, part, ["--history", "8"], {failed: FAILED})
        want(replies, ["ok"] * len(SCRIPT))
        want(shown(program, part)[0], "entries 3 f g h")


def a_part_with_no_file_system(program):
    child = Child(program, Part(), [])
    want(child.end(), (3, "uffs: NORECORD 27\n"))


def stored_answers(program):
    """A file of twenty answers stands for the driver: power goes at the order after these, in the second sync."""
    lines = ["mkdir /a", "sync", "mkdir /b", "fault 1 erase-fail", "sync", "restart", "ls /", "log", "mkdir /c"]
    replies = ["ok", "ok", "ok", "err SYNTAX", "err POWERCUT 24", "mounted", "entries 1 a/"]
    replies += ["log next 3 dropped 0 versions 1 *2 checkpoints", "err POWERCUT 24"]
    image = Part().image()
    with tempfile.TemporaryDirectory() as folder:
        answers, orders = os.path.join(folder, "answers"), os.path.join(folder, "orders")
        with open(answers, "wb") as file:
            file.write(struct.pack("<Q", len(image)) + image + bytes([DONE] * 20))
        open(orders, "wb").close()
        script = "".join(line + "\n" for line in lines)
        done = subprocess.run([program, "serve", answers, orders, "--history", "8"], input=script.encode(), capture_output=True)
        want((done.returncode, done.stdout.decode().splitlines(), done.stderr), (0, replies, b""))


def made(program, folder):
    """A part in a flat file, with an empty file system."""
    name = os.path.join(folder, "part")
    want(subprocess.run([program, "format", "--part", name, "--blocks", "64"]).returncode, 0)
    return name


def a_sync_in_place_outlives_a_kill(program):
    """Killed at a moment after the reply to a sync, with more lines under way: all that was synced is found."""
    moments, names = random.Random(1), "abcdefghijkl"
    with tempfile.TemporaryDirectory() as folder:
        for _ in range(60):
            name = made(program, folder)
            child, synced = PlacedChild(program, name), moments.randrange(1, 6)
            for line in [f"mkdir /{one}" for one in names[:synced]] + ["sync"]:
                want(child.ask(line), "ok")
            child.process.stdin.write("".join(f"mkdir /{one}\nsync\n" for one in names[synced:]).encode())
            child.process.stdin.flush()
            time.sleep(moments.random() * 0.02)
            child.kill()
            after = PlacedChild(program, name)
            found = after.ask("ls /").split()[2:]
            want(after.end(), (0, ""))
            want((found, synced <= len(found)), ([one + "/" for one in names[: len(found)]], True))


def a_part_in_use_is_refused(program):
    with tempfile.TemporaryDirectory() as folder:
        name = made(program, folder)
        child = PlacedChild(program, name)
        want(child.ask("mkdir /a"), "ok")
        want(PlacedChild(program, name).end(), (1, f"uffs: cannot write {name}: another program has it\n"))
        for words in [["format", "--part", name], ["from-part", name, name + ".image"]]:
            want(subprocess.run([program, *words], stderr=subprocess.DEVNULL).returncode, 1)
        want(child.ask("sync"), "ok")
        want(child.end(), (0, ""))


CASES = [
    replies_come_one_by_one, what_was_synced_outlives_a_kill, each_order_cut, each_order_failed, a_part_with_no_file_system,
    stored_answers, a_sync_in_place_outlives_a_kill, a_part_in_use_is_refused,
]


def main():
    wrong = 0
    for case in CASES:
        try:
            case(sys.argv[1])
            print("ok   ", case.__name__)
        except Wrong as error:
            print("WRONG", case.__name__, error)
            wrong += 1
    return wrong


if __name__ == "__main__":
    sys.exit(main())
