"""undofs for Python, through a child process `uffs serve` (docs/serve.md), over a driver of the caller.

    part = MemoryPart(256, 16, 64)
    with Undofs(part, history=8) as fs:
        fs.mkdir("/a")
        with fs.group():
            fs.write("/a/f", b"hi")
            fs.write("/a/g", b"ho")
        fs.sync()
        fs.undo()

A driver is an object with `sizes`, a tuple of bytes a page, pages a block and blocks, and three methods:

    read_page(page)             its bytes, b"" where it is erased, None where it is unreadable
    program_page(page, bytes)   programs an erased page: DONE, FAILED or CUT
    erase_block(block)          the same

It is asked in the caller's thread while a call waits. A refusal is raised as `Refused`, with its number and word; a
child that is gone as `Gone`. Paths are str, or bytes where a name is no UTF-8; views are "@5" and "=name".
"""
import contextlib
import fcntl
import os
import select
import struct
import subprocess

CUT, DONE, FAILED = 0, 1, 2
READ, WRITE, CREAT, EXCL, TRUNC = 1, 2, 4, 8, 16
DATA_OF_LINE = 32000


class Refused(Exception):
    """A call that was refused, by the numbers of docs/scripts.md; 0 is a line that was none."""

    def __init__(self, word, number):
        super().__init__(f"{word} {number}")
        self.word, self.number = word, number


class Gone(Exception):
    """The child ended. The text is what it wrote on standard error."""


class MemoryPart:
    """A part in memory."""

    def __init__(self, page, pages, blocks):
        self.sizes = page, pages, blocks
        self.content = [b""] * (pages * blocks)

    def read_page(self, page):
        return self.content[page]

    def program_page(self, page, text):
        assert self.content[page] == b"", "program of a page that is not erased"
        self.content[page] = text
        return DONE

    def erase_block(self, block):
        pages = self.sizes[1]
        self.content[block * pages : (block + 1) * pages] = [b""] * pages
        return DONE


class FlatFilePart:
    """A part in place in a flat file, in the layout of docs/format.md. A file that is missing or empty is made with `sizes`."""

    HEAD, ANCHORS = 4096, 8

    def __init__(self, name, sizes=(4096, 1, 16384)):
        self.file = os.open(name, os.O_RDWR | os.O_CREAT, 0o600)
        fcntl.flock(self.file, fcntl.LOCK_EX | fcntl.LOCK_NB)
        self.is_new = os.fstat(self.file).st_size == 0
        if self.is_new:
            self.sizes = sizes
            os.posix_fallocate(self.file, 0, self._bytes_at(sizes[1] * sizes[2]))
            os.pwrite(self.file, b"UFFSPART" + struct.pack("<III", *sizes), 0)
            os.fsync(self.file)
        head = os.pread(self.file, 20, 0)
        if head[:8] != b"UFFSPART":
            raise ValueError(f"{name} is no part in a flat file")
        self.sizes = struct.unpack("<III", head[8:])

    def _bytes_at(self, page):
        pages = self.sizes[1] * self.sizes[2]
        return self.HEAD + (pages + self.HEAD - 1) // self.HEAD * self.HEAD + page * self.sizes[0]

    def _barrier(self, block):
        if block < self.ANCHORS:
            os.fdatasync(self.file)

    def read_page(self, page):
        state = os.pread(self.file, 1, self.HEAD + page)
        return {b"\0": b"", b"\1": os.pread(self.file, self.sizes[0], self._bytes_at(page))}.get(state)

    def program_page(self, page, text):
        block = page // self.sizes[1]
        os.pwrite(self.file, text, self._bytes_at(page))
        self._barrier(block)
        os.pwrite(self.file, b"\1", self.HEAD + page)
        self._barrier(block)
        return DONE

    def erase_block(self, block):
        self._barrier(block)
        os.pwrite(self.file, bytes(self.sizes[1]), self.HEAD + block * self.sizes[1])
        self._barrier(block)
        return DONE

    def close(self):
        os.close(self.file)


def spelled(word):
    """A path or a name as a word of a line."""
    text = os.fsencode(word)
    if text in (b"", b"-"):
        return {b"": "-", b"-": "%2D"}[text]
    return "".join(chr(byte) if 0x21 <= byte <= 0x7E and byte != 0x25 else f"%{byte:02X}" for byte in text)


def named(word):
    """The name that stands in a reply."""
    first, *rest = word.split("%")
    return os.fsdecode(first.encode() + b"".join(bytes([int(part[:2], 16)]) + part[2:].encode() for part in rest))


def viewed(view):
    return "" if view is None else " " + spelled(view)


class Undofs:
    """One child over one part. `program` is the `uffs` to start. With a history an empty file system is made first."""

    def __init__(self, part, history=None, program="uffs"):
        self.part, self.orders_done = part, 0
        answers, self.answers = os.pipe()
        self.orders, orders = os.pipe()
        words = [program, "serve", f"/proc/self/fd/{answers}", f"/proc/self/fd/{orders}"]
        words += ["--history", str(history)] if history else []
        pipe = subprocess.PIPE
        self.child = subprocess.Popen(words, stdin=pipe, stdout=pipe, stderr=pipe, bufsize=0, pass_fds=(answers, orders), start_new_session=True)
        os.close(answers)
        os.close(orders)
        os.set_blocking(self.child.stdin.fileno(), False)
        self.replied = b""
        try:
            self._tell_image()
            self.lines(["log"])
        except BrokenPipeError:
            self._gone()

    def __enter__(self):
        return self

    def __exit__(self, *_):
        self.end()

    def _tell_image(self):
        _, pages, blocks = self.part.sizes
        image = bytearray(b"UFFSIMG1" + struct.pack("<III", *self.part.sizes))
        for block in range(blocks):
            image += b"\0"
            for page in range(block * pages, (block + 1) * pages):
                text = self.part.read_page(page)
                image += b"\2" if text is None else b"\1" + text if text else b"\0"
        self._write_answer(struct.pack("<Q", len(image)) + image)

    def _write_answer(self, text):
        text = memoryview(text)
        while text:
            text = text[os.write(self.answers, text) :]

    def _read_order(self, count):
        text = b""
        while len(text) < count:
            more = os.read(self.orders, count - len(text))
            if not more:
                self._gone()
            text += more
        return text

    def _carry_out_order(self):
        kind, number = struct.unpack("<cI", self._read_order(5))
        if kind == b"p":
            answer = self.part.program_page(number, self._read_order(self.part.sizes[0]))
        else:
            answer = self.part.erase_block(number)
        self.orders_done += 1
        self._write_answer(bytes([answer]))

    def _gone(self):
        """Ends the child, and raises why it went."""
        told = self.end()
        words = told.split()
        if words and words[-1].isdigit():
            raise Refused(words[-2], int(words[-1]))
        raise Gone(told)

    def end(self):
        """Ends the child. What was not synced is lost. What it wrote on standard error is answered."""
        if self.child is None:
            return ""
        child, self.child = self.child, None
        child.stdin.close()
        os.close(self.answers)
        os.close(self.orders)
        child.stdout.close()
        told = child.stderr.read().decode()
        child.stderr.close()
        child.wait()
        return told

    def lines(self, lines):
        """Gives lines, with orders carried out meanwhile, and answers their replies. The first refusal is raised."""
        if self.child is None:
            raise Gone("the child was ended")
        text = memoryview("".join(line + "\n" for line in lines).encode())
        replies, into, out = [], self.child.stdin.fileno(), self.child.stdout.fileno()
        while len(replies) < len(lines):
            readable, writable, _ = select.select([out, self.orders], [into] if text else [], [])
            if self.orders in readable:
                self._carry_out_order()
            elif out in readable:
                more = os.read(out, 1 << 16)
                if not more:
                    self._gone()
                *ended, self.replied = (self.replied + more).split(b"\n")
                replies += [reply.decode() for reply in ended]
            elif writable:
                try:
                    text = text[os.write(into, text) :]
                except BrokenPipeError:
                    self._gone()
        for reply in replies:
            words = reply.split()
            if words[0] == "err":
                raise Refused(words[1], int(words[2]) if len(words) > 2 else 0)
            if words[0] == "unmounted":
                raise Refused("unmounted", 0)
        return replies

    def ask(self, line):
        return self.lines([line])[0]

    # Files
    def write(self, path, text):
        """The file has exactly these bytes, as one version."""
        line = f"write {spelled(path)} {bytes(text).hex() or '-'}"
        if len(line) < 65536:
            self.ask(line)
            return
        with self.group():
            file = self.open(path, WRITE | CREAT | TRUNC)
            try:
                self.pwrite(file, 0, text)
            finally:
                self.close(file)

    def read(self, path, offset=0, count=16777216, view=None):
        return self._data(self.ask(f"read {spelled(path)} {offset} {count}{viewed(view)}"))

    @staticmethod
    def _data(reply):
        digits = reply.split()[1]
        return b"" if digits == "-" else bytes.fromhex(digits)

    def open(self, path, flags):
        return int(self.ask(f"open {spelled(path)} {flags}").split()[1])

    def close(self, file):
        self.ask(f"close {file}")

    def pread(self, file, offset, count):
        return self._data(self.ask(f"pread {file} {offset} {count}"))

    def pwrite(self, file, offset, text):
        for done in range(0, max(len(text), 1), DATA_OF_LINE):
            piece = bytes(text[done : done + DATA_OF_LINE])
            self.ask(f"pwrite {file} {offset + done} {piece.hex() or '-'}")

    def ftruncate(self, file, length):
        self.ask(f"ftruncate {file} {length}")

    def fsync(self, file):
        self.ask(f"fsync {file}")

    # Names
    def mkdir(self, path):
        self.ask(f"mkdir {spelled(path)}")

    def rmdir(self, path):
        self.ask(f"rmdir {spelled(path)}")

    def unlink(self, path):
        self.ask(f"unlink {spelled(path)}")

    def rename(self, old, new):
        self.ask(f"rename {spelled(old)} {spelled(new)}")

    def stat(self, path, view=None):
        """("dir", entries) or ("file", length)."""
        kind, number = self.ask(f"stat {spelled(path)}{viewed(view)}").split()
        return kind, int(number)

    def list(self, path, view=None):
        """The names, with `/` after a directory's."""
        return [named(word) for word in self.ask(f"ls {spelled(path)}{viewed(view)}").split()[2:]]

    # Versions
    @contextlib.contextmanager
    def group(self):
        """What is done inside is one version; after an exception it is given up."""
        self.ask("begin")
        try:
            yield self
        except BaseException:
            if self.child is not None:
                self.ask("abandon")
            raise
        self.ask("end")

    def sync(self):
        self.ask("sync")

    def undo(self):
        self.ask("undo")

    def redo(self):
        self.ask("redo")

    def goto(self, serial):
        self.ask(f"goto {serial}")

    def checkpoint(self, name):
        self.ask(f"checkpoint {spelled(name)}")

    def rmcheckpoint(self, name):
        self.ask(f"rmcheckpoint {spelled(name)}")

    def rollback(self, name):
        self.ask(f"rollback {spelled(name)}")

    def forget(self, count):
        self.ask(f"forget {count}")

    def log(self):
        return self.ask("log")

    def df(self):
        """{"data": .., "bad": .., "free": .., "anchors": ..}, in blocks."""
        words = self.ask("df").split()[1:]
        return {word: int(number) for word, number in zip(words[::2], words[1::2])}

    def reclaim(self, budget):
        """Whether the pass goes on."""
        return self.ask(f"reclaim {budget}") == "more"

    def restart(self):
        self.ask("restart")
