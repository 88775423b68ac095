#!/usr/bin/env python3
"""Runs the cases of a mounted folder, and each wrong daemon against the case that has to see it.

  try_folder.py DAEMON PROGRAM SHIMS [NAME..]

SHIMS is a folder with file_shim.so and mtd_shim.so. A NAME is that of a case, or of a file of wrong/ without `.edit`; without one all
are run. So many are run at once as JOBS says, four without it. The last line counts; the status is 0 where none failed.
"""
import contextlib
import os
import selectors
import shutil
import signal
import sys
import tempfile
import time

import acts
import buffered
import failures
import full
import kept_times
import limits
import leaps
import losses
import programs
import starts
import synced
import unchanged
import users
import versions
from mounts import HERE, LIBRARY, SHARED, TOOLS, NotBuilt, Wrong, build_with, objects_of

PARTS = (
    versions,
    programs,
    losses,
    users,
    synced,
    leaps,
    acts,
    unchanged,
    full,
    failures,
    kept_times,
    starts,
    limits,
    buffered,
)
CASES = {case.__name__: case for part in PARTS for case in part.CASES}
LINKED = ("memory_that_grows_in_place", "no_memory_is_told")  # with a daemon of their own
# The one case of a daemon over a child alone: a daemon with the file system in itself waits for none. A wrong daemon whose file has a line
# `of: child` or `of: library` is of one of the two alone too. Cases of both say where they look at one.
OF_A_CHILD = ("a_child_that_hangs_is_ended",)
LIMIT, AFTER = 400, 30  # seconds of a case; and then until its own process is ended too


def failure_of(case):
    """What a case found wrong, or nothing. A daemon that ends or hangs shows as an error of the host."""
    try:
        case()
        return None
    except NotBuilt:
        raise
    except Wrong as error:
        return str(error)
    except Exception as error:  # an answer that no case expects
        return f"{type(error).__name__}: {error}"


def read_edit(name):
    """The file, its pairs of lines and the case of an edit."""
    fields, pairs = {}, []
    with open(f"{HERE}/wrong/{name}.edit") as text:
        for line in text.read().splitlines():
            key, _, value = line.partition(": ")
            if key == "old":
                pairs.append([value, None])
            elif key == "new":
                pairs[-1][1] = value
            else:
                fields[key] = value
    return fields, pairs


def is_of_the_daemon(name):
    """Whether a case is of the daemon that is tried, or a wrong daemon is one of that kind."""
    fields = {"case": name} if name in CASES else read_edit(name)[0]
    of = "child" if fields["case"] in OF_A_CHILD else fields.get("of")
    return of in (None, "library" if LIBRARY else "child")


def build_wrong(name, space):
    fields, pairs = read_edit(name)
    for part in ("c", "fuse"):
        shutil.copytree(f"{TOOLS}/{part}", f"{space}/{part}", ignore=shutil.ignore_patterns("out", "__pycache__"))
    path = f"{space}/{fields['file']}"
    with open(path) as file:
        text = file.read()
    for old, new in pairs:
        if text.count(old) != 1:
            raise ValueError(f"wrong/{name}.edit: {old!r} stands {text.count(old)} times")
        text = text.replace(old, new)
    with open(path, "w") as file:
        file.write(text)
    SHARED["tools"] = space
    if not path.endswith(".c"):
        return SHARED["daemon"], CASES[fields["case"]]
    os.mkdir(space + "/made")
    return build_with(path, fields["file"], space + "/made"), CASES[fields["case"]]


def run_wrong(name):
    with tempfile.TemporaryDirectory() as space:
        SHARED["daemon"], case = build_wrong(name, space)
        failure = failure_of(case)
    return failure is not None, f"{case.__name__}: {failure or 'saw nothing'}"


def run_one(name):
    """Whether a case found nothing wrong, or saw a wrong daemon, and what is told of it."""
    try:
        if name not in CASES:
            return run_wrong(name)
        failure = failure_of(CASES[name])
    except (ValueError, Wrong, NotBuilt) as error:
        return False, f"not built: {error}"
    return failure is None, failure or ""


# ---- several at once, each in a process of its own ----


class Job:
    def __init__(self, name):
        self.name, self.start, self.ends_at = name, time.time(), time.time() + LIMIT
        self.told, writes = os.pipe()
        self.process = os.fork()
        if self.process == 0:
            os.close(self.told)
            is_right, told = run_one(name)
            os.write(writes, f"{'ok   ' if is_right else 'WRONG'} {told[:300]}".encode())
            os._exit(0)
        os.close(writes)

    def end_what_hangs(self):
        """Ends what the case began, as a daemon that never answers; and at last its own process."""
        if time.time() < self.ends_at:
            return
        for number in descendants(self.process) or [self.process]:
            with contextlib.suppress(ProcessLookupError):
                os.kill(number, signal.SIGKILL)
        self.ends_at = time.time() + AFTER

    def result(self):
        """Whether it is right; it is told."""
        text = os.read(self.told, 4096).decode(errors="replace") or "WRONG it ended"
        os.close(self.told)
        os.waitpid(self.process, 0)
        kind = "" if self.name in CASES else "a wrong daemon is seen: "
        print(f"{text[:5]} {kind}{self.name} {time.time() - self.start:.1f} s {'; '.join(text[6:].splitlines())}", flush=True)
        return text.startswith("ok")


def descendants(process):
    """The processes that one began, and those that these did."""
    found = []
    with contextlib.suppress(FileNotFoundError):
        for thread in os.listdir(f"/proc/{process}/task"):
            with open(f"/proc/{process}/task/{thread}/children") as children:
                numbers = [int(number) for number in children.read().split()]
            found += [below for number in numbers for below in [*descendants(number), number]]
    return found


def run_all(names, most):
    """Runs them; how many failed."""
    failed, waiting = 0, list(names)
    with selectors.DefaultSelector() as running:
        while waiting or running.get_map():
            while waiting and len(running.get_map()) < most:
                job = Job(waiting.pop(0))
                running.register(job.told, selectors.EVENT_READ, job)
            for key, _ in running.select(1):
                running.unregister(key.fd)
                failed += not key.data.result()
            for key in list(running.get_map().values()):
                key.data.end_what_hangs()
    return failed


def main():
    SHARED["daemon"], SHARED["program"], SHARED["shims"] = (os.path.abspath(word) for word in sys.argv[1:4])
    wrong = sorted(name[: -len(".edit")] for name in os.listdir(HERE + "/wrong"))
    names, start = sys.argv[4:] or list(CASES) + wrong, time.time()
    names = [name for name in names if is_of_the_daemon(name)]
    if LIBRARY or any(name not in CASES or name in LINKED for name in names):
        objects_of(TOOLS, SHARED["shims"] + "/objects")
    failed = run_all(names, int(os.environ.get("JOBS", "4")))
    print(f"{len(names) - failed} passed, {failed} failed in {time.time() - start:.0f} s")
    return failed != 0


if __name__ == "__main__":
    sys.exit(main())
