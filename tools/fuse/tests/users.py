"""Cases of who may do what, and of memory that grows in place."""
import ast
import contextlib
import errno
import os

from mounts import HERE, Wrong, build, mounted, want

NOBODY = 65534


def answers_of(folder):
    """What is answered to each thing that changes something, as an errno or nothing, and what is read."""

    def order(line):
        with open(f"{folder}/.undofs", "w") as control:
            control.write(line)

    told = []
    for call in (
        lambda: open(f"{folder}/a", "a"), lambda: open(f"{folder}/b", "w"), lambda: os.mkdir(f"{folder}/e"), lambda: os.unlink(f"{folder}/a"),
        lambda: os.rename(f"{folder}/a", f"{folder}/b"), lambda: os.truncate(f"{folder}/a", 0), lambda: os.utime(f"{folder}/a", (1, 1)),
        lambda: order("undo"), lambda: order("forget 1"), lambda: open(f"{folder}/.undofs").read(),
    ):  # fmt: skip
        try:
            call()
            told.append(None)
        except OSError as error:
            told.append(errno.errorcode[error.errno])
    return told + [open(f"{folder}/a").read(), open(f"{folder}/.history/@2/a").read(), os.listdir(f"{folder}/d")]


def as_another_user(what, *words):
    """What a function answers as another user; a process of its own has that user's rights."""
    reads, writes = os.pipe()
    child = os.fork()
    if child == 0:
        with contextlib.suppress(BaseException):
            os.setgroups([])
            os.setgid(NOBODY)
            os.setuid(NOBODY)
            os.write(writes, repr(what(*words)).encode())
        os._exit(0)
    os.close(writes)
    with open(reads) as told:
        text = told.read()
    os.waitpid(child, 0)
    return ast.literal_eval(text or "None")


def other_users_only_read():
    """With -o allow_other another user reads files and .history, and may write, remove, undo and forget nothing; who mounts may."""
    if os.getuid() != 0:
        raise Wrong("this case takes the superuser, who can be another user")
    with mounted("allow_other") as f:
        os.chmod(f.space, 0o755)
        with open(f("a"), "w") as file:
            file.write("one")
        os.mkdir(f("d"))
        versions = f.versions()
        wanted = ["EACCES"] * 6 + ["EPERM"] + ["EACCES"] * 3  # a time that is set asks for the owner, with EPERM
        want(as_another_user(answers_of, f.path), [*wanted, "one", "one", []], "another user")
        want(f.versions(), versions, "versions")
        want((os.stat(f(".undofs")).st_mode & 0o777, os.stat(f(".history")).st_mode & 0o777), (0o600, 0o555), "modes")
        f.order("undo")
        want(os.listdir(f.path), ["a"], "after an undo of who mounts")


def memory_that_grows_in_place():
    """A thousand small writes to one open file, each given at once and kept to be sent again, where realloc always answers the pointer that
    it was given."""
    with mounted("forget,buffer=0") as f:
        f.unmount()
        f.daemon = build(f.space + "/made", "-Wl,--wrap=realloc", "-Wl,--wrap=free", f"{HERE}/realloc_in_place.c")
        f.mount()
        with open(f("a"), "wb", buffering=0) as file:
            for i in range(1000):
                file.write(bytes([i % 251]) * 100)
        want(open(f("a"), "rb").read(), b"".join(bytes([i % 251]) * 100 for i in range(1000)), "bytes")
        f.unmount()


CASES = [
    other_users_only_read,
    memory_that_grows_in_place,
]
