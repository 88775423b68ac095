"""Cases of check_host.py in which another program puts something in the place of what was looked at, at each call in turn."""
import itertools
import os
import shutil
import signal
import subprocess

from host_calls import watched
from host_cases import holds, read, run, want, write

# Before each of these calls the names change places once.
CALLS = ("statx", "open", "getdents64", "mkdir", "fsync", "flock", "rename")
# So long a program is waited for that has to wait for nothing, in seconds.
SHORT = 20
MINE, OTHERS = b"mine", b"another's"


def each_moment(program, words, names, bring_back, given=b""):
    """Runs the program with the two names changing places before each of its calls in turn, as far as both are there then.
    After each run all is brought back."""
    for call in CALLS:
        for at in itertools.count(1):
            bring_back()
            done = watched(program, words, f"{call} * {at} {at} swap", given, swap=names, longest=SHORT)
            swaps = [it for it in done.calls if it.name == "swap"]
            if not swaps:
                break
            if swaps[0].answer == 0:
                yield f"{words[0]}, {call} {at}", done


def remove(name):
    """Removes whatever stands at a name."""
    if os.path.isdir(name) and not os.path.islink(name):
        shutil.rmtree(name)
    elif os.path.lexists(name):
        os.remove(name)


def fill(folder, data):
    """Makes a folder of files of these bytes, anew."""
    remove(folder)
    for name in ("d/f", "d/below/g", "f"):
        path = os.path.join(folder, name)
        os.makedirs(os.path.dirname(path), exist_ok=True)
        write(path, data)


def in_between(folder, program):
    """An image, the words that put a folder into it and make another one of it, that folder, and the one of another program."""
    image, made, source, other = (os.path.join(folder, name) for name in ("image", "made", "source", "other/source"))
    fill(source, MINE)
    run(program, ["create", image, source, "--blocks", "64"])
    os.remove(os.path.join(source, "f"))
    before = read(image)
    words = [["put", image, source, "/new"], ["put", image, source, "/", "--mirror"], ["create", made, source, "--blocks", "64"]]
    return image, made, source, other, before, words


def folder_becomes_a_link(program, folder):
    """In place of a folder that is put stands a link to another one, from any moment on: nothing of that one is put."""
    image, made, source, other, before, words = in_between(folder, program)
    count = accepted = 0
    for name in ("", "d", "d/below"):
        ours, link = os.path.join(source, name).rstrip("/"), os.path.join(folder, "link")

        def bring_back():
            fill(source, MINE)
            fill(other, OTHERS)
            remove(link)
            os.symlink(os.path.join(other, name).rstrip("/"), link)
            write(image, before)
            remove(made)

        for word in words:
            for where, done in each_moment(program, word, (ours, link), bring_back):
                out = image if word[0] == "put" else made
                holds(done.status in (0, 1, 2), f"{where}: {done.err!r}")
                holds(done.status == 0 or not os.path.exists(out) or read(out) == before, f"{where}: it is refused and written")
                holds(not os.path.exists(out) or OTHERS not in read(out), f"{where}: what a link leads to is put")
                holds(done.status == 0 or done.err.startswith(b"uffs: "), f"{where}: {done.err!r}")
                count, accepted = count + 1, accepted + (done.status == 0)
    holds(accepted and accepted < count, f"{accepted} of {count} puts are accepted")
    return f"{count} moments, {accepted} accepted"


def file_becomes_a_fifo(program, folder):
    """In place of a file that is read stands a fifo, from any moment on: none is waited for."""
    image, made, source, _, before, words = in_between(folder, program)
    file, fifo, got = os.path.join(source, "d/f"), os.path.join(folder, "fifo"), os.path.join(folder, "got")

    def bring_back():
        for name in (fifo, image, got, made):
            remove(name)
        fill(source, MINE)
        os.mkfifo(fifo)
        write(image, before)

    reading = [["check", image], ["tree", image], ["get", image, "/f", got], ["get", image, "/", got], ["update", image, image], ["tar", image]]
    pairs = [(word, file) for word in [*words, ["put", image, file, "/new"]]]
    pairs += [(word, image) for word in [*reading, ["undo", image], ["put", image, file, "/new"]]]
    count = 0
    for word, name in pairs:
        for where, done in each_moment(program, word, (name, fifo), bring_back):
            holds(done.status in (0, 1), f"{where}: {done.err!r}")
            count += 1
    return f"{count} moments"


def new_folder_becomes_a_link(program, folder):
    """In place of a folder that `get` makes stands a link to another one, from any moment on: nothing is made in that one."""
    image, source = os.path.join(folder, "image"), os.path.join(folder, "source")
    out, link, other = (os.path.join(folder, name) for name in ("out", "link", "other"))
    fill(source, MINE)
    run(program, ["create", image, source, "--blocks", "64"])
    count = 0
    for name in ("out.new", "out.new/d", "out.new/d/below"):
        theirs = os.path.join(other, name)

        def bring_back():
            for it in (out, out + ".new", link, other):
                remove(it)
            os.makedirs(theirs)
            os.symlink(theirs, link)

        for where, done in each_moment(program, ["get", image, "/", out], (os.path.join(folder, name), link), bring_back):
            want(os.listdir(theirs), [], f"{where}: made in the other folder")
            holds(done.status in (0, 1), f"{where}: {done.err!r}")
            holds(done.status == 1 or not os.path.islink(out), f"{where}: the link is told as the folder")
            count += 1
    return f"{count} moments"


def output_is_the_image(program, folder):
    """No word begins whose standard output is the image or the part that it names."""
    image, source, part = (os.path.join(folder, name) for name in ("image", "source", "part"))
    fill(source, MINE)
    run(program, ["create", image, source, "--blocks", "64"])
    run(program, ["to-part", image, part])
    shutil.copy(image, os.path.join(folder, "other"))
    os.link(image, os.path.join(folder, "hard"))
    os.symlink(image, os.path.join(folder, "link"))
    other = os.path.join(folder, "other")
    words = [[it, image] for it in ("check", "log", "df", "tree", "tar", "versions", "map", "run", "format", "undo")]
    words += [["cat", image, "/f"], ["get", image, "/f", "-"], ["diff", image, "@1"], ["update", image, other], ["update", other, image]]
    words += [["check", os.path.join(folder, name)] for name in ("hard", "link")] + [["serve", "--part", part]]
    for word in words:
        name = part if word[0] == "serve" else image if word[:2] == ["update", other] else word[1]
        before = read(name)
        for how in (os.O_WRONLY | os.O_APPEND, os.O_RDWR):
            output = os.open(name, how)
            try:
                done = watched_into(program, word, output)
            finally:
                os.close(output)
            want((done.status, done.err, read(name) == before), (1, f"uffs: output is {name}\n".encode(), True), word[0])
    with open(os.path.join(folder, "told"), "wb") as told:
        want(watched_into(program, ["tree", image], told.fileno()).err, b"")
    want(read(os.path.join(folder, "told")), run(program, ["tree", image]).out)


def watched_into(program, words, output):
    """Runs a program whose output is an open file."""
    return watched(program, words, "", b"ls /\n", output=output)


def left_by_a_signal(program, folder):
    """A new file that a signal left is removed by the next run that writes, and told; a folder there is kept."""
    image, first = os.path.join(folder, "image"), os.path.join(folder, "first")
    run(program, ["format", first])
    os.rename(first, image)
    new, before = image + ".new", read(image)
    done = subprocess.run(["sh", "-c", 'ulimit -f 0; exec "$@"', "sh", program, "format", image], capture_output=True, check=False, timeout=SHORT)
    want((done.returncode, os.path.lexists(new), read(image) == before), (-signal.SIGXFSZ, True, True))
    want(watched(program, ["check", image]).told(), (0, b"ok\n", b""), "check")
    want(os.path.lexists(new), True, "a word that reads removes it")
    told = f"uffs: removed {new}\n".encode()
    want(watched(program, ["run", image], "", b"mkdir /a\nsync\n").told(), (0, b"ok\nok\n", told))
    want((os.path.lexists(new), run(program, ["run", image], "", b"ls /\n").out), (False, b"entries 1 a/\n"))
    os.mkdir(new)
    done = watched(program, ["run", image], "", b"mkdir /b\nsync\n")
    want(done.told(), (1, b"ok\nok\n", f"uffs: cannot write {image}: {new} is in the way, remove it\n".encode()))
    want(os.listdir(new), [], "a folder is removed")


CASES = [folder_becomes_a_link, file_becomes_a_fifo, new_folder_becomes_a_link, output_is_the_image, left_by_a_signal]
