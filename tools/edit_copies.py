"""Copies of crates in which edits are tried, and the calls of `rt` there. What judges an edit is edit_trials.py: the
text of this file is in no sum of TRIED.
"""
import os
import re
import shutil
import signal
import subprocess
import threading
import time

import edit_files
from edit_files import PARTS, TOP

# So many tenths of a second a call has to end by itself, once what it started was ended.
PATIENCE = 100


class OutOfTime(Exception):
    """The calls were ended, and no further one is made."""


def processes_of(sessions):
    """The processes of these sessions that have not ended."""
    for name in filter(str.isdigit, os.listdir("/proc")):
        try:
            with open(f"/proc/{name}/stat", encoding="utf-8", errors="replace") as it:
                state, _, _, session = it.read().rpartition(")")[2].split()[:4]
        except (FileNotFoundError, ProcessLookupError):
            continue
        if state != "Z" and int(session) in sessions:
            yield int(name)


class Calls:
    """Calls of `rt`, each a session of its own, so that all that it starts can be ended with it."""

    def __init__(self):
        self.guard, self.running, self.are_over = threading.Lock(), set(), False

    def rt(self, *words, at):
        """Calls `rt` in a folder, and returns what it printed."""
        how = {"cwd": at, "stdin": subprocess.DEVNULL, "stdout": subprocess.PIPE, "stderr": subprocess.STDOUT, "start_new_session": True}
        with self.guard:
            if self.are_over:
                raise OutOfTime
            call = subprocess.Popen([os.environ.get("RT", "rt"), *words], **how, encoding="utf-8", errors="replace")
            self.running.add(call)
        said, _ = call.communicate()
        with self.guard:
            self.running.remove(call)
            if self.are_over:
                raise OutOfTime
        return said

    def end(self):
        """Ends all calls, and lets no further one begin. What `rt` started is ended first: then `rt` ends by itself, counts
        the time of that and removes what it made. What is left after that is killed."""
        with self.guard:
            self.are_over, sessions = True, {it.pid for it in self.running}
        for turn in range(2 * PATIENCE):
            left = list(processes_of(sessions)) if sessions else []
            if not left:
                return
            for it in left:
                if turn >= PATIENCE or it not in sessions:
                    try:
                        os.kill(it, signal.SIGKILL if turn >= PATIENCE else signal.SIGTERM)
                    except ProcessLookupError:
                        pass
            time.sleep(0.1)


def way_for(crate, lines):
    """How a crate is tried best: by `rt check` where it kept the libraries below here, and else by `rt ci`."""
    below = (f"{TOP}/crates/{it}/out/rlib/stamp" for it in edit_files.libraries_of(crate, lines))
    return "check" if all(map(os.path.isfile, below)) else "ci"


def linked(path, to):
    """Puts a file that nobody writes to at a second place."""
    try:
        os.link(path, to)
    except OSError:
        shutil.copy2(path, to)


class Copy:
    """A copy of a crate and of those below it, in which its edits are tried. By `rt check` it begins with what that kept
    of them. `keep` takes what each check said, with its number."""

    def __init__(self, crate, lines, by, room, calls, keep):
        self.crate, self.way, self.room = crate, by or way_for(crate, lines), room
        self.calls, self.keep, self.checks = calls, keep, 0
        self.folder = f"{room}/crates/{crate}"
        names = [*edit_files.libraries_of(crate, lines), crate]
        for name in names:
            for part in (*PARTS, "c"):
                self.lay_out(name, part)
            # (a library with no stamp is that of the gate alone)
            if self.way == "check" and os.path.isfile(f"{TOP}/crates/{name}/out/rlib/stamp"):
                self.lay_out(name, "out/rlib", linked)
        if self.way == "check":
            # (a check writes there)
            self.lay_out(crate, "out/incremental")
        with open(f"{room}/crates.txt", "w", encoding="utf-8") as it:
            it.writelines(" ".join(lines[name]).replace(" :", ":", 1) + "\n" for name in names)
        shutil.copyfile(f"{TOP}/HANDLES", f"{room}/HANDLES")

    def lay_out(self, crate, part, by=shutil.copy2):
        """Copies a folder of a crate, where it is there, in the place of what was there before."""
        shutil.rmtree(f"{self.room}/crates/{crate}/{part}", ignore_errors=True)
        if os.path.isdir(f"{TOP}/crates/{crate}/{part}"):
            shutil.copytree(f"{TOP}/crates/{crate}/{part}", f"{self.room}/crates/{crate}/{part}", copy_function=by)

    def check(self, texts):
        """Checks the crate with these texts of some of its files. Returns these texts as they were checked, and what was
        said of the crate."""
        for part in PARTS:
            self.lay_out(self.crate, part)
        for file, text in texts.items():
            with open(f"{self.folder}/{file}", "w", encoding="utf-8") as it:
                it.write(text)
        if self.way == "ci":
            # (the gate takes a crate only in the layout of `rt fmt`)
            self.calls.rt("fmt", at=self.folder)
        said = self.calls.rt(self.way, at=self.room if self.way == "ci" else self.folder)
        self.checks += 1
        self.keep(self.checks, said)
        return {it: edit_files.text_of(f"{self.folder}/{it}") for it in texts}, self.own(said)

    def own(self, said):
        """What was said of the crate itself, and not of those below it."""
        if self.way == "check":
            # (the libraries below it are told before it, if they had to be built)
            found = "\nlogic=".join(said.split("\nlogic=")[-2:])
            found = found if f"\ncrate {self.crate}: modules" in found else ""
        else:
            found = re.search(rf"^== {self.crate}$.*?^rt: {self.crate} (?:NOT )?PROVED$", said, re.M | re.S | re.I)
            found = found[0] if found else ""
        return found or said[-2000:].replace("\nlogic=", "\n")
