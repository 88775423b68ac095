"""Cases of check_host.py in which the calls to the host's files are seen, and fail, or another program comes in between."""
import fcntl
import os
import random
import shutil
import struct
import subprocess

import check_kills
from host_calls import Stopped, Wrong, watched

CREATED, EXCLUSIVE = os.O_CREAT, os.O_EXCL
# Of these words each call fails, of the others those that decide.
THOROUGH = ["run", "get", "get of a folder", "create", "format --part"]
CHANGING = ["open", "write", "pwrite", "fsync", "fdatasync", "fchmod", "flock", "rename", "mkdir", "unlink"]
IN_USE = "another program has it"
NO_OTHER_USER = "not tried: the superuser may become no other user"
PART_HEAD, PAGE, PAGES, BLOCKS = 4096, 256, 16, 32
FIRST_PAGE = PART_HEAD + 4096


def want(found, wanted, where=""):
    """Refuses anything but what is wanted."""
    if found != wanted:
        told = f"{str(found)[:300]} in place of {str(wanted)[:300]}"
        raise Wrong(f"{where}: {told}" if where else told)


def holds(truth, where):
    """Refuses what does not hold."""
    if not truth:
        raise Wrong(where)


def read(name):
    with open(name, "rb") as file:
        return file.read()


def write(name, data):
    with open(name, "wb") as file:
        file.write(data)


def run(program, words, plan="", given=b""):
    """Runs the program, which has to end well."""
    done = watched(program, words, plan, given)
    want((done.status, done.err if words[0] != "create" else b""), (0, b""), words[0])
    return done


def flags(call):
    return int(call.given[0], 16)


def is_new(call):
    """Whether a file is made where there is none."""
    return call.name == "open" and flags(call) & (CREATED | EXCLUSIVE) == CREATED | EXCLUSIVE and call.answer >= 0


def place(calls, name, path):
    """Where the one call of this name that did its work on a path stands."""
    found = [at for at, call in enumerate(calls) if call.name == name and call.path == path and call.answer >= 0]
    holds(len(found) == 1, f"{len(found)} times {name} of {path} in place of once")
    return found[0]


def begin(program, folder):
    """Makes what the words begin with, as check_kills does, of six small files."""
    image, source = os.path.join(folder, "image"), os.path.join(folder, "source")
    for number in range(6):
        name = os.path.join(source, f"d{number % 4}", f"f{number}")
        os.makedirs(os.path.dirname(name), exist_ok=True)
        write(name, bytes([number]) * (number * 150))
    run(program, ["format", image, "--blocks", "64"])
    run(program, ["put", image, source, "/old"])
    run(program, ["to-part", image, os.path.join(folder, "part")])
    run(program, ["raw", image, os.path.join(folder, "raw")])
    run(program, ["run", image], "", check_kills.SCRIPT)
    write(os.path.join(folder, "got"), b"as it was")
    write(os.path.join(folder, "other"), read(image))
    os.remove(os.path.join(source, "d1", "f5"))


def each_word(program, folder):
    """Each word that writes a file or a folder, with what it begins with brought back before it: its name, its words, what
    it is given, and the file."""
    begin(program, folder)
    kept = check_kills.keep(folder)
    for name, words, given, file in check_kills.words_of(folder):
        check_kills.bring_back(folder, kept)
        yield kept, (name, [{"200": "40", "300": "80"}.get(word, word) for word in words], given, file)


def all_is_synced(program, folder):
    """Each word makes its file under a new name, brings it to the disk, renames it, and brings the folder to the disk."""
    for kept, (name, words, given, file) in each_word(program, folder):
        mode = os.stat(file).st_mode & 0o7777 if os.path.isfile(file) else None
        calls = run(program, words, "", given).calls
        if os.path.isdir(file):
            folder_is_synced(calls, file, name)
        else:
            file_is_synced(calls, file, mode, name)


def file_is_synced(calls, file, mode, name):
    new = file + ".new"
    made = [at for at, call in enumerate(calls) if is_new(call) and call.path == new]
    want(len(made), 1, f"{name}: files made")
    want(calls[made[0]].given[1], "666" if mode is None else "600", f"{name}: its mode")
    written = [at for at, call in enumerate(calls) if call.name == "write" and call.path == new]
    want(sum(calls[at].answer for at in written), os.path.getsize(file), f"{name}: bytes written")
    order = [made[0], place(calls, "flock", new), written[0], written[-1]]
    if mode is not None:
        order.append(place(calls, "fchmod", new))
        want(int(calls[order[-1]].given[0], 8) & 0o7777, mode, f"{name}: the mode of the old file")
    order += [place(calls, "fsync", new), place(calls, "rename", new), place(calls, "fsync", os.path.dirname(file))]
    want(order, sorted(order), f"{name}: the order of calls")
    want([call for call in calls[order[-1] + 1 :] if call.path.startswith(file)], [], f"{name}: after all")


def folder_is_synced(calls, file, name):
    new = file + ".new"
    end = place(calls, "rename", new)
    for at, call in enumerate(calls):
        if is_new(call) and call.path.startswith(new + "/"):
            written = [it for it, one in enumerate(calls) if one.name == "write" and one.path == call.path]
            holds(at < max(written, default=at + 1) <= place(calls, "fsync", call.path) < end or not written, f"{name}: {call.path}")
            holds(place(calls, "fsync", call.path) < end, f"{name}: {call.path}")
    made = [call.path for call in calls if call.name == "mkdir" and call.answer == 0]
    holds(new in made and len(made) > 1, f"{name}: folders made")
    for path in made:
        inside = [at for at, call in enumerate(calls) if os.path.dirname(call.path) == path and call.name in ("open", "mkdir") and (is_new(call) or call.name == "mkdir")]
        holds(max(inside, default=0) < place(calls, "fsync", path) < end, f"{name}: {path} is brought to the disk")
    holds(end < place(calls, "fsync", os.path.dirname(file)), f"{name}: the folder above")


def failures_of(calls, file, among):
    """A plan for each call of these names on a file, on its new file and on their folder, by which that call alone fails."""
    counts = {}
    for call in calls:
        if call.name not in among:
            continue
        path = call.given[0] if call.name == "rename" else call.path
        counts[call.name, path] = counts.get((call.name, path), 0) + 1
        at = counts[call.name, path]
        if path in (file, os.path.dirname(file)) or path.startswith(file + ".new"):
            yield call, f"{call.name} {path} {at} {at} EIO"
            if call.name == "write" and len(among) > 3:
                yield call, f"{call.name} {path} {at} {at} short; {call.name} {path} {at + 1} 9999 ENOSPC"


def each_call_fails(program, folder):
    """Where one call fails, or the disk is full, that is told: the file is the one from before, and no new one is left. Where
    the folder alone is not brought to the disk it is the new one."""
    count = 0
    for kept, (name, words, given, file) in each_word(program, folder):
        before = check_kills.read(file)
        calls = run(program, words, "", given).calls
        after = check_kills.read(file)
        plans = list(failures_of(calls, file, CHANGING if name in THOROUGH else ["write", "fsync", "rename"]))
        for call, plan in [it for at, it in enumerate(plans) if len(plans) < 30 or at % 5 == 0 or at > len(plans) - 12]:
            check_kills.bring_back(folder, kept)
            done = watched(program, words, plan, given)
            is_last = call.name == "fsync" and call.path == os.path.dirname(file)
            where = f"{name}, {plan}"
            want(done.status, 1, where)
            why = ": the disk is full" if "ENOSPC" in plan else ""
            told = [f"uffs: cannot {it} {file}{why}".encode() for it in (["write", "read"] if call.name == "open" else ["write"])]
            holds(done.err.splitlines()[-1:] in [[it] for it in told], f"{where}: {done.err!r}")
            holds(check_kills.read(file) == (after if is_last else before), f"{where}: {file} is another one")
            want(os.path.lexists(file + ".new"), False, f"{where}: a new file is left")
            count += 1
    return f"{count} failures"


def short_counts(program, folder):
    """Where the host moves half of the bytes each time, or is interrupted, each word does as ever."""
    plan = "read * 1 3 EINTR; read * 4 99999 short; write * 1 3 EINTR; write * 4 99999 short; fsync * 1 1 EINTR"
    for kept, (name, words, given, file) in each_word(program, folder):
        plain = run(program, words, "", given)
        after = check_kills.read(file)
        check_kills.bring_back(folder, kept)
        short = run(program, words, plan, given)
        want((short.out, check_kills.read(file) == after), (plain.out, True), name)
    check_kills.bring_back(folder, kept)
    image = os.path.join(folder, "image")
    for words in (["tar", image], ["tree", image], ["cat", image, "/old/d1/f5"], ["versions", image]):
        want(run(program, words, plan).out, run(program, words).out, words[0])


def unread(program, folder):
    """Where a read fails that is told, nothing is written, and what was to be put is put as no other bytes."""
    for kept, (name, words, given, file) in each_word(program, folder):
        before = check_kills.read(file)
        for plan in ("read * 1 1 EIO", "read * 2 2 EIO", "getdents64 * 1 1 EIO"):
            check_kills.bring_back(folder, kept)
            done = watched(program, words, plan, given)
            if not any(call.answer < 0 and call.name in ("read", "getdents64") for call in done.calls):
                continue
            want(done.status, 1, f"{name}, {plan}")
            holds(done.err.splitlines()[-1].startswith((b"uffs: cannot read ", b"uffs: input")), f"{name}, {plan}: {done.err!r}")
            holds(check_kills.read(file) == before and not os.path.lexists(file + ".new"), f"{name}, {plan}: {file}")
    source, image = os.path.join(folder, "source"), os.path.join(folder, "image")
    for at in range(5):
        check_kills.bring_back(folder, kept)
        name = f"{source}/d{at % 4}/f{at}"
        done = watched(program, ["put", image, source, "/new"], f"read {name} 1 1 EIO")
        want((done.told(), read(image) == kept["image"]), ((1, b"", f"uffs: cannot read {name}\n".encode()), True))


def output_fails(program, folder):
    """Where the output fails that is told, by each word that prints."""
    begin(program, folder)
    image = os.path.join(folder, "image")
    for words in (["tar", image], ["tree", image], ["get", image, "/x/y", "-"], ["diff", image, "@1"], ["map", image], ["log", image], ["du", image], ["run", image]):
        done = watched(program, words, "write ] 1 1 EIO", b"ls /\n")
        want(done.told(), (1, b"", b"uffs: output\n"), words[0])


def reading_writes_nothing(program, folder):
    """Words that only read an image make and empty no file, take no lock and write to none."""
    begin(program, folder)
    image = os.path.join(folder, "image")
    words = [["get", image, "/x/y", "-"], ["put", image, os.path.join(folder, "source"), "/old"], ["to-part", image, os.path.join(folder, "p")]]
    for word in ([it, image] for it in ("check", "log", "df", "tree", "tar", "versions", "map")):
        words.append(word)
    for word in [*words[3:], words[0], ["cat", image, "/x/y"], ["diff", image, "@1"], ["update", image, image], ["ls", image, "/x"], ["history", image, "/x/y"], ["du", image, "/x"]]:
        calls = run(program, word).calls
        holds(any(call.name == "open" and call.path == image for call in calls), f"{word[0]}: it does not open the image")
        for call in calls:
            is_look = call.name == "open" and flags(call) & (CREATED | os.O_TRUNC) == 0
            is_told = call.name == "write" and not call.path.startswith(folder)
            holds(is_look or is_told, f"{word[0]}: {call}")


def part_of(program, folder):
    """A new part."""
    part = os.path.join(folder, "part")
    run(program, ["format", "--part", part, "--history", "2", "--blocks", "64"])
    return part


def script_of(count):
    """A script in which each of so many directories is synced."""
    return "".join(f"mkdir /d{at:02}\nsync\n" for at in range(count)).encode()


def pages_of(call):
    """The pages whose state a write of a part changes, and those whose bytes it does."""
    at, size = int(call.given[0]), int(call.given[1])
    if at < FIRST_PAGE:
        return range(at - PART_HEAD, at - PART_HEAD + size), range(0)
    return range(0), range((at - FIRST_PAGE) // PAGE, (at - FIRST_PAGE + size - 1) // PAGE + 1)


def is_anchor(pages):
    return len(pages) > 0 and pages[0] < 8 * PAGES


def part_is_synced(program, folder):
    """Of an anchor the bytes are on the disk before the state, and that before the reply; before an erase all is."""
    part = part_of(program, folder)
    calls = served(program, part, script_of(40)).calls
    is_held_back, states, replies = False, 0, 0
    for at, call in enumerate(calls):
        if call.name == "pwrite":
            changed, filled = pages_of(call)
            holds(not (is_anchor(changed) and is_held_back), f"a state before what is held back: {call}")
            if is_anchor(changed) or is_anchor(filled):
                following = next(it.name for it in calls[at + 1 :] if it.name in ("pwrite", "fdatasync", "fsync", "write"))
                holds(following in ("fdatasync", "fsync"), f"{following} after a write of an anchor")
            states += is_anchor(changed)
            is_held_back = True
        elif call.name in ("fdatasync", "fsync") and call.answer == 0:
            is_held_back = False
        elif call.name == "write":
            replies += 1
            holds(replies % 2 == 1 or not is_held_back, f"reply {replies} before what it says is on the disk")
    want((replies, states > 42), (80, True), "replies, and states of anchors")


def served(program, part, script):
    """Runs a script on a part, of which each line has to be answered ok."""
    done = run(program, ["serve", "--part", part], "", script)
    want(set(done.out.splitlines()), {b"ok"}, "replies")
    return done


def entries(program, part):
    """The names in the root of a part."""
    out = run(program, ["serve", "--part", part], "", b"ls /\n").out.decode().split()
    return [name.rstrip("/") for name in out[2:]]


def names(count):
    return [f"d{at:02}" for at in range(count)]


def part_fails(program, folder):
    """Where a write of a part or a barrier fails, power went for good: nothing is written after it, no sync is answered as done,
    and the next start finds all that was."""
    part = part_of(program, folder)
    base, script = read(part), script_of(20)
    calls = served(program, part, script).calls
    for name in ("pwrite", "fdatasync"):
        count = sum(call.name == name for call in calls)
        for at in range(1, count + 1, 11):
            for plan in [f"{name} part {at} {at} EIO"] + ([f"pwrite part {at} {at} short; pwrite part {at + 1} {at + 1} ENOSPC"] if name == "pwrite" else []):
                write(part, base)
                failed_part(program, part, script, plan)
    for at in range(1, 24, 3):
        write(part, base)
        done = watched(program, ["serve", "--part", part], f"pread part {at} {at} EIO", script)
        want((done.status, done.out, read(part) == base), (1, b"", True), f"pread {at}")
        holds(done.err.startswith(b"uffs: cannot read "), f"pread {at}: {done.err!r}")


def failed_part(program, part, script, plan):
    done = watched(program, ["serve", "--part", part], plan, script)
    replies = done.out.decode().splitlines()
    want((done.status, len(replies)), (0, len(script.splitlines())), plan)
    failed = [at for at, call in enumerate(done.calls) if call.answer < 0 and call.name in ("pwrite", "fdatasync")]
    if not failed:
        want(set(replies), {"ok"}, plan)
        return
    rest = [call for call in done.calls[failed[0] + 1 :] if call.name in ("pwrite", "fdatasync")]
    want(rest, [], f"{plan}: after the failure")
    lost = next(at for at, reply in enumerate(replies) if reply != "ok")
    want(set(replies[lost:]), {"err POWERCUT 24"}, plan)
    found = entries(program, part)
    holds(found == names(len(found)) and len(found) >= lost // 2, f"{plan}: {lost // 2} were synced, and {found} are found")


def part_moves_by_half(program, folder):
    """Where the host moves half of the bytes each time, or is interrupted, a part is read and written as ever."""
    part = part_of(program, folder)
    base = read(part)
    served(program, part, script_of(10))
    after = read(part)
    write(part, base)
    plan = "pread * 1 3 EINTR; pread * 4 999999 short; pwrite * 1 3 EINTR; pwrite * 4 999999 short; fdatasync * 1 1 EINTR"
    out = run(program, ["serve", "--part", part], plan, script_of(10)).out
    want((out, read(part) == after), (b"ok\n" * 20, True))
    want(run(program, ["serve", "--part", part], plan, b"ls /\n").out.decode().split()[2:], [it + "/" for it in names(10)])


def part_loses_power(program, folder):
    """At a cut some of what no barrier brought to the disk is there, and some is not: all that was synced is found."""
    part, chosen = part_of(program, folder), random.Random(1)
    disk, held_back, replies, count = bytearray(read(part)), [], 0, 0
    for call in served(program, part, script_of(24)).calls:
        if call.name == "pwrite":
            held_back.append((int(call.given[0]), bytes.fromhex(call.given[2])))
        elif call.name in ("fdatasync", "fsync"):
            store(disk, held_back)
            held_back = []
        replies += call.name == "write"
        if call.name not in ("pwrite", "fdatasync") or chosen.random() > 0.25:
            continue
        left = bytearray(disk)
        store(left, chosen.choice([held_back[-1:], [it for it in held_back if chosen.random() < 0.5], []]))
        write(part, left)
        found = entries(program, part)
        holds(found == names(len(found)) and len(found) >= replies // 2, f"{replies // 2} were synced, and {found} are found")
        count += 1
    return f"{count} cuts"


def store(disk, written):
    for at, data in written:
        disk[at : at + len(data)] = data


def driver_streams(program, folder):
    """`serve` makes no ORDERS where there is none, and empties none that is there."""
    answers, orders = os.path.join(folder, "answers"), os.path.join(folder, "orders")
    image = b"UFFSIMG1" + struct.pack("<III", PAGE, PAGES, BLOCKS) + bytes(BLOCKS * (PAGES + 1))
    write(answers, struct.pack("<Q", len(image)) + image + b"\1" * 20)
    done = watched(program, ["serve", answers, orders, "--history", "8"], "", b"ls /\n")
    want(done.told(), (1, b"", f"uffs: cannot write {orders}\n".encode()))
    want(os.listdir(folder), ["answers"])
    write(orders, b"x" * 100000)
    done = watched(program, ["serve", os.path.join(folder, "none"), orders], "", b"ls /\n")
    want((done.status, read(orders)), (1, b"x" * 100000))
    done = watched(program, ["serve", answers, orders, "--history", "8"], "", b"ls /\n")
    want(done.told(), (0, b"entries 0\n", b""))
    given = read(orders)
    size = len(given.rstrip(b"x"))
    want((len(given), given[:1] in (b"p", b"e"), 0 < size < 100000), (100000, True, True))


def at_the_name_itself(program, folder):
    """A link that leads nowhere stands at its name: no folder is made in its place, and it is no file to be put."""
    image, out, source = (os.path.join(folder, name) for name in ("image", "out", "source"))
    os.mkdir(source)
    write(os.path.join(source, "f"), b"kept")
    run(program, ["format", image, "--blocks", "64"])
    run(program, ["put", image, source, "/"])
    before = read(image)
    for link, why in ((out, "something stands there"), (out + ".new", f"{out}.new is in the way, remove it")):
        os.symlink("nothing", link)
        told = f"uffs: cannot write {out}: {why}\n".encode()
        want(watched(program, ["get", image, "/", out]).told(), (1, b"", told), f"{link} is a link")
        want((os.readlink(link), sorted(os.listdir(folder))), ("nothing", sorted(["image", "source", os.path.basename(link)])))
        os.remove(link)
    os.symlink("nothing", out + ".new")
    want(watched(program, ["get", image, "/f", out]).told(), (0, b"", f"uffs: removed {out}.new\n".encode()))
    want((read(out), sorted(os.listdir(folder))), (b"kept", ["image", "out", "source"]))
    for target in ("nothing", "f", "."):
        os.symlink(target, os.path.join(source, "link"))
        told = f"uffs: cannot put {source}/link: it is a link\n".encode()
        want(watched(program, ["put", image, source, "/new"]).told(), (1, b"", told), f"a link to {target}")
        os.remove(os.path.join(source, "link"))
    want(read(image), before)


def another_run_between(program, folder):
    """A run that waits for the file while another one replaces it begins anew: both changes are there, or it is refused where
    a third one has the new file."""
    image = os.path.join(folder, "image")
    run(program, ["format", image])
    with Stopped(program, ["run", image], f"flock {image} 1 1", b"mkdir /first\nsync\n") as first:
        run(program, ["run", image], "", b"mkdir /second\nsync\n")
        want(first.go_on().told(), (0, b"ok\nok\n", b""))
    want(run(program, ["run", image], "", b"ls /\n").out, b"entries 2 first/ second/\n")
    with Stopped(program, ["run", image], f"flock {image} 1 1", b"mkdir /last\nsync\n") as last:
        run(program, ["run", image], "", b"mkdir /third\nsync\n")
        with open(image, "rb") as held:
            fcntl.flock(held, fcntl.LOCK_EX)
            want(last.go_on().told(), (1, b"", f"uffs: cannot write {image}: {IN_USE}\n".encode()))


def link_in_between(program, folder):
    """A file that becomes a link once it was looked at is not put."""
    image, source, other = (os.path.join(folder, name) for name in ("image", "source", "other_source"))
    run(program, ["format", image])
    write(source, b"mine")
    write(other, b"another's")
    before = read(image)
    with Stopped(program, ["put", image, source, "/f"], f"open {source} 1 1") as put:
        os.remove(source)
        os.symlink(other, source)
        done = put.go_on()
    want((done.status, done.err.startswith(f"uffs: cannot read {source}".encode()), read(image) == before), (1, True, True))


def file_in_between(program, folder):
    """A file or a link that another program makes while a new one is written is not replaced."""
    image = os.path.join(folder, "image")
    told = (1, b"", f"uffs: cannot write {image}: something stands there\n".encode())
    with Stopped(program, ["format", image], f"write {image}.new 1 1") as made:
        write(image, b"another's")
        want(made.go_on().told(), told)
    want((read(image), os.listdir(folder)), (b"another's", ["image"]))
    os.remove(image)
    with Stopped(program, ["format", image], f"write {image}.new 1 1") as made:
        os.symlink("nothing", image)
        want(made.go_on().told(), told)
    want((os.readlink(image), os.listdir(folder)), ("nothing", ["image"]))


def two_make_one(program, folder):
    """While a program writes the new file of a name, another one is refused and leaves it."""
    image = os.path.join(folder, "image")
    with Stopped(program, ["format", image], f"fsync {image}.new 1 1") as first:
        want(watched(program, ["format", image, "--blocks", "64"]).told(), (1, b"", f"uffs: cannot write {image}: {IN_USE}\n".encode()))
        want(first.go_on().told(), (0, b"", b""))
    want((os.path.getsize(image), os.listdir(folder)), (20 + 32 * 17 + 2 * 256, ["image"]))


def folder_in_between(program, folder):
    """What another program puts at the name of a folder while that is made is kept, and the new folder is removed."""
    image, out = os.path.join(folder, "image"), os.path.join(folder, "out")
    run(program, ["format", image])
    run(program, ["run", image], "", b"mkdir /a\nwrite /a/f 31\nsync\n")
    with Stopped(program, ["get", image, "/", out], f"fsync {out}.new 1 1") as got:
        os.mkdir(out)
        number = os.stat(out).st_ino
        want(got.go_on().told(), (1, b"", f"uffs: cannot write {out}: something stands there\n".encode()))
    want((os.stat(out).st_ino, sorted(os.listdir(folder))), (number, ["image", "out"]))


def megabytes(program, folder):
    """A folder of several megabytes is put, looked at, got, archived and put from the archive, byte for byte."""
    chosen = random.Random(2)
    source, image, other, created = (os.path.join(folder, name) for name in ("source", "image", "other", "created"))
    os.makedirs(os.path.join(source, "below"))
    for name, size in (("large", 1_700_001), ("below/larger", 1_300_000), ("below/small", 17)):
        write(os.path.join(source, name), chosen.randbytes(size))
    sizes = ["--page", "4096", "--pages", "16", "--blocks", "80"]
    run(program, ["format", image, *sizes])
    run(program, ["put", image, source, "/"])
    holds(os.path.getsize(image) > 3_000_000, "the image is cut")
    want(run(program, ["check", image]).out, b"ok\n")
    wanted = check_kills.read(source)
    archive = run(program, ["tar", image]).out
    holds(len(archive) > 3_000_000, "the archive is cut")
    run(program, ["format", other, *sizes])
    write(os.path.join(folder, "archive"), archive)
    with open(os.path.join(folder, "archive"), "rb") as given:
        run(program, ["untar", other, "/"], "", given)
    want(run(program, ["check", other]).out, b"ok\n")
    run(program, ["create", created, source, *sizes])
    for at, name in ((image, "got"), (other, "unpacked"), (created, "made")):
        out = os.path.join(folder, name)
        run(program, ["get", at, "/", out])
        got = {path.replace(out, source): data for path, data in check_kills.read(out).items()}
        holds(got == wanted, f"{name}: other files")
    want(run(program, ["get", image, "/below/larger", "-"]).out == read(os.path.join(source, "below/larger")), True, "get -")


# What stands in a file, and then: a byte within it, more at its end, fewer, other bytes at both ends, in the middle more than a line has,
# all others, and none at all.
def files_that_change(chosen):
    long = chosen.randbytes(300_000)
    return {
        "within": (long, long[:77_777] + bytes([long[77_777] ^ 1]) + long[77_778:]),
        "longer": (long[:100_000], long),
        "shorter": (long, long[:99_999]),
        "both_ends": (long, b"x" + long[1:-1] + b"y"),
        "middle": (long, long[:100_000] + chosen.randbytes(50_000) + long[150_000:]),
        "piece": (long, long[:60_000] + chosen.randbytes(30_000) + long[90_000:]),
        "all": (long[:70_000], chosen.randbytes(70_000)),
        "emptied": (long[:5], b""),
        "filled": (b"", long[:90_001]),
    }


def changes_are_written(program, folder):
    """`update --changes` brings an image to another one, and is short for a byte of a large file."""
    chosen = random.Random(3)
    sizes = ["--page", "4096", "--pages", "16", "--blocks", "1000"]
    large = chosen.randbytes(16 << 20)
    files = {"large": (large, large[: 9 << 20] + b"?" + large[(9 << 20) + 1 :]), **files_that_change(chosen)}
    images = []
    for turn in (0, 1):
        source = os.path.join(folder, f"source{turn}")
        os.mkdir(source)
        for name, data in files.items():
            write(os.path.join(source, name), data[turn])
        images.append(os.path.join(folder, f"image{turn}"))
        run(program, ["create", images[turn], source, *sizes])
    changes = run(program, ["update", "--changes", *images]).out
    at = changes.index(b"open /large ")
    holds(changes.index(b"close", at) - at < 20_000, "a byte of 16 MiB takes more than 20,000 bytes")
    write(os.path.join(folder, "changes"), changes)
    with open(os.path.join(folder, "changes"), "rb") as given:
        run(program, ["run", images[0], "--stop"], "", given)
    want(run(program, ["update", *images]).out, b"begin\nend\nsync\n", "what brings the one to the other then")


def hidden_names(program, folder):
    """Names that begin with a dot are put as any other; one that is no UTF-8 refuses its folder."""
    image, source = os.path.join(folder, "image"), os.path.join(folder, "source")
    for name in (".hidden", ".folder/.inner", "..more"):
        os.makedirs(os.path.dirname(os.path.join(source, name)), exist_ok=True)
        write(os.path.join(source, name), name.encode())
    tree = b"/..more 6\n/.folder/\n/.folder/.inner 14\n/.hidden 7\n"
    run(program, ["create", image, source])
    want(run(program, ["tree", image]).out, tree)
    run(program, ["format", image, "--blocks", "64"])
    run(program, ["put", image, source, "/"])
    want(run(program, ["tree", image]).out, tree)
    run(program, ["get", image, "/", os.path.join(folder, "got")])
    want(sorted(os.listdir(os.path.join(folder, "got"))), ["..more", ".folder", ".hidden"])
    before = read(image)
    with open(os.path.join(source, ".folder").encode() + b"/\xff", "wb") as file:
        file.write(b"none")
    told = f"uffs: cannot read {source}/.folder: it may not be listed, or a name in it is not UTF-8\n".encode()
    for words in (["put", image, source, "/"], ["put", image, source, "/", "--mirror"], ["create", image, source]):
        done = watched(program, words)
        want((done.told(), read(image) == before), ((1, b"", told), True), words[0])


def as_nobody(program, folder):
    """A copy of the program that any user can call, and what makes a process another user's where the caller is the superuser.
    None where the host lets the superuser become no other."""
    os.chmod(folder, 0o777)
    other = os.path.join(folder, "uffs")
    shutil.copy(program, other)
    os.chmod(other, 0o755)
    if os.geteuid() != 0:
        return other, {}
    user = {"user": 65534, "group": 65534, "extra_groups": []}
    try:
        subprocess.run(["true"], check=True, timeout=60, **user)
    except OSError:
        return other, None
    return other, user


def may_not_be_read(program, folder):
    """A file that may not be read, and a folder that may not be listed, refuse a whole put with their names."""
    other, user = as_nobody(program, folder)
    if user is None:
        return NO_OTHER_USER
    image, source = os.path.join(folder, "image"), os.path.join(folder, "source")
    os.makedirs(os.path.join(source, "below"))
    write(os.path.join(source, "below", "f"), b"kept")
    run(program, ["format", image, "--blocks", "64"])
    os.chmod(image, 0o666)
    before, below = read(image), os.path.join(source, "below")
    for name, told in ((os.path.join(below, "f"), "it may not be read"), (below, "it may not be listed, or a name in it is not UTF-8")):
        mode = os.stat(name).st_mode
        os.chmod(name, 0)
        told = f"uffs: cannot read {name}: {told}\n".encode()
        for words in (["put", image, source, "/"], ["put", image, source, "/", "--mirror"], ["create", image, source, "--blocks", "64"]):
            want(watched(other, words, **user).told(), (1, b"", told), words[0])
        os.chmod(name, mode)
    want(read(image), before)
    os.chmod(image, 0)
    told = f"uffs: cannot read {image}: it may not be read\n".encode()
    want(watched(other, ["check", image], **user).told(), (1, b"", told))
    return None


def another_users_file(program, folder):
    """An image of another user that may not be written is read, and is not replaced, though its folder may be written."""
    if os.geteuid() != 0:
        return "not tried: only the superuser has files of others"
    other, user = as_nobody(program, folder)
    if user is None:
        return NO_OTHER_USER
    image, got = os.path.join(folder, "image"), os.path.join(folder, "got")
    run(program, ["format", image])
    run(program, ["run", image], "", b"write /f 6b657074\nsync\n")
    os.chmod(image, 0o644)
    before, told = read(image), f"uffs: cannot write {image}: it may not be written\n".encode()
    for words, out in ((["format", image], b""), (["undo", image], b""), (["run", image], b"ok\nok\n"), (["put", image, "-", "/g"], b"")):
        want(watched(other, words, "", b"mkdir /a\nsync\n", **user).told(), (1, out, told), words[0])
        want((read(image), os.stat(image).st_uid, os.path.lexists(image + ".new")), (before, 0, False), words[0])
    want(watched(other, ["run", image], "", b"ls /\n", **user).told(), (0, b"entries 1 f\n", b""))
    want(watched(other, ["get", image, "/f", got], **user).told(), (0, b"", b""))
    want((read(got), os.stat(got).st_uid), (b"kept", 65534))
    image = os.path.join(folder, "closed", "image")
    os.mkdir(os.path.dirname(image), 0o755)
    run(program, ["format", image])
    os.chmod(image, 0o666)
    before, told = read(image), f"uffs: cannot write {image}: its folder may not be written\n".encode()
    want((watched(other, ["format", image], **user).told(), read(image) == before), ((1, b"", told), True))
    return None


CASES = [
    all_is_synced, each_call_fails, short_counts, unread, output_fails, reading_writes_nothing, part_is_synced, part_fails,
    part_moves_by_half, part_loses_power, driver_streams, at_the_name_itself, another_run_between, link_in_between, file_in_between, two_make_one,
    folder_in_between, megabytes, changes_are_written, hidden_names, may_not_be_read, another_users_file,
]
