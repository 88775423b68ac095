"""What a program asks of the host's files, seen and made to fail by tools/host_shim.c."""
import itertools
import os
import shutil
import signal
import subprocess
import time

SOURCE = os.path.join(os.path.dirname(os.path.abspath(__file__)), "host_shim.c")
FLAGS = "-std=c11 -Wall -Wextra -Werror -pedantic -Wconversion -Wsign-conversion -Wshadow -Wstrict-prototypes -Wmissing-prototypes"
# So long a program is waited for, in seconds.
LONGEST = 300


class Wrong(Exception):
    """What was found where something else has to be."""


class Shim:
    """The built library, the folder for the logs that it writes, and how many there were."""

    library = folder = None
    logs = itertools.count()


class Call:
    """A call: its name, the path that it is of, what it is given, and what it answers."""

    def __init__(self, line):
        self.name, *words, answer = line.split(" ")
        self.path, self.given, self.answer = words[0], words[1:], int(answer)

    def __repr__(self):
        return " ".join([self.name, self.path, *self.given, str(self.answer)])


class Done:
    """How a program ended, what it wrote, and its calls, of which the log is removed."""

    def __init__(self, status, out, err, log):
        self.status, self.out, self.err, self.calls = status, out, err, read_calls(log)

    def told(self):
        return self.status, self.out, self.err


def build(folder):
    """Builds the library in a folder, where there is a C compiler. A compiler that fails is an error."""
    compiler = next((it for it in (os.environ.get("CC"), "gcc", "cc") if it and shutil.which(it)), None)
    if compiler is None:
        return
    Shim.library, Shim.folder = os.path.join(folder, "host_shim.so"), folder
    subprocess.run([compiler, *FLAGS.split(), "-O1", "-shared", "-fPIC", "-o", Shim.library, SOURCE], check=True, timeout=120)


def read_calls(name):
    """The calls that were told."""
    with open(name, encoding="utf-8", errors="surrogateescape") as log:
        calls = [Call(line.rstrip("\n")) for line in log]
    os.remove(name)
    return calls


def new_log():
    """A new log, to which any user may append."""
    name = os.path.join(Shim.folder, f"log{next(Shim.logs)}")
    with open(name, "wb"):
        os.chmod(name, 0o666)
    return name


def environment(plan, log, swap=()):
    """The environment of a program that is watched, with what the host does, and the two names that change places."""
    return {**os.environ, "LD_PRELOAD": Shim.library, "HOST_SHIM_LOG": log, "HOST_SHIM_PLAN": plan, "HOST_SHIM_SWAP": " ".join(swap)}


def watched(program, words, plan="", given=b"", swap=(), output=subprocess.PIPE, longest=LONGEST, **how):
    """Runs a program to its end, with bytes or an open file on its input, and its output kept or written to an open file."""
    log = new_log()
    source = {"input": given} if isinstance(given, bytes) else {"stdin": given}
    streams = {**source, "stdout": output, "stderr": subprocess.PIPE}
    done = subprocess.run([program, *words], **streams, env=environment(plan, log, swap), check=False, timeout=longest, **how)
    return Done(done.returncode, done.stdout, done.stderr, log)


class Stopped:
    """A program that is stopped before a call, and goes on when it is told to. It does not outlive its block."""

    def __init__(self, program, words, call, given=b""):
        streams = {"stdin": subprocess.PIPE, "stdout": subprocess.PIPE, "stderr": subprocess.PIPE}
        self.log = new_log()
        self.process = subprocess.Popen([program, *words], env=environment(f"{call} stop", self.log), **streams)
        self.process.stdin.write(given)
        self.process.stdin.close()
        self.process.stdin = None
        self.wait(call)

    def __enter__(self):
        return self

    def __exit__(self, *_):
        if self.process.poll() is None:
            self.process.kill()
            self.process.communicate()

    def wait(self, call):
        end = time.monotonic() + LONGEST
        while time.monotonic() < end:
            found, status = os.waitpid(self.process.pid, os.WNOHANG | os.WUNTRACED)
            if found and os.WIFSTOPPED(status):
                return
            if found:
                raise Wrong(f"it ended before {call}: {self.process.stderr.read()!r}")
            time.sleep(0.002)
        self.process.kill()
        self.process.communicate()
        raise Wrong(f"it came to no {call}")

    def go_on(self):
        """The end of the program."""
        self.process.send_signal(signal.SIGCONT)
        out, err = self.process.communicate(timeout=LONGEST)
        return Done(self.process.returncode, out, err, self.log)
