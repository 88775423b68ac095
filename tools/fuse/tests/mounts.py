"""A mounted folder for tests: a daemon in the foreground, over a part in a flat file, which may be killed, cut and mounted again."""
import contextlib
import os
import shutil
import signal
import subprocess
import tempfile
import time

HERE = os.path.dirname(os.path.abspath(__file__))
TOOLS = os.path.dirname(os.path.dirname(HERE))
SHARED = {"daemon": None, "program": None, "shims": None, "tools": TOOLS, "edited": {}}  # tools: the sources of the daemon; edited: what is compiled otherwise


class Wrong(Exception):
    """What was found where something else has to be."""


class NotBuilt(Exception):
    """A test of some files does not compile, so that nothing was tried."""


def want(found, wanted, what=""):
    if found != wanted:
        raise Wrong(f"{what}: {found!r} in place of {wanted!r}"[:600])


def run(*words, cwd=None, check=True, text=None, env=None):
    """The output of a program, which has to end well."""
    done = subprocess.run(words, cwd=cwd, input=text, capture_output=True, text=True, env=env)
    if check and done.returncode != 0:
        raise Wrong(f"{' '.join(words)}: status {done.returncode} {done.stderr[-300:]} {done.stdout[-200:]}")
    return done.stdout


LIBRARY = os.environ.get("UNDOFS_LIBRARY")  # as build.sh takes it
IN_PROCESS = ("service.c", "in_process.c", "shown_pages.c", "turns_context.c")
HANDLE = tuple(f"in_process/{name}" for name in IN_PROCESS) if LIBRARY else ("undofs_client.c",)
OF_C = (*HANDLE, "undofs_calls.c", "flat_file.c", "raw_nand.c")  # what build.sh takes beside its own folder
PROVED = ["-Wl,--gc-sections", f"{LIBRARY}/libundofs_in_process.a", f"{LIBRARY}/libheap.a", "-lm", "-lpthread"] if LIBRARY else []


def compile_one(source, made):
    words = run("pkg-config", "--cflags", "fuse3").split()
    run("gcc", "-std=c11", "-O0", "-g", "-w", *os.environ.get("CFLAGS", "").split(), *words, "-c", source, "-o", made)


def objects_of(tools, folder):
    """Each source of the daemon compiled by itself, once: a daemon with one other source then takes one compilation."""
    sources = [f"{tools}/fuse/{name}" for name in sorted(os.listdir(tools + "/fuse")) if name.endswith(".c")]
    sources += [f"{tools}/c/{name}" for name in OF_C]
    objects = {os.path.relpath(source, tools): f"{folder}/{os.path.basename(source)}.o" for source in sources}
    if not os.path.isdir(folder):
        os.mkdir(folder)
        for source in sources:
            compile_one(source, objects[os.path.relpath(source, tools)])
    return objects


def build(folder, *more):
    """Links the daemon that is tried, with more flags and sources; its name."""
    objects = {**objects_of(TOOLS, SHARED["shims"] + "/objects"), **SHARED["edited"]}
    os.makedirs(folder, exist_ok=True)
    words = [*os.environ.get("CFLAGS", "").split(), *objects.values(), *more, *PROVED, *run("pkg-config", "--libs", "fuse3").split()]
    run("gcc", "-w", *words, "-o", folder + "/undofs-fuse")
    return folder + "/undofs-fuse"


def build_with(source, name, folder):
    """Builds the daemon with one source other than it is; its name."""
    SHARED["edited"] = {name: folder + "/wrong.o"}
    compile_one(source, folder + "/wrong.o")
    return build(folder)


def child_of(process):
    """The number of the daemon's child; none where it has no child."""
    with open(f"/proc/{process.pid}/task/{process.pid}/children") as children:
        numbers = children.read().split()
    return int(numbers[0]) if numbers else None


class Folder:
    """A folder with its own scratch space. `options` are those of -o; `shim` is a dictionary of the environment. A save is a version at
    its close, where no other time to settle is given; with None it is the daemon's own. `daemon` and `program` may be others than the shared
    ones, and `environment` is that of each mount."""

    def __init__(self, options="", blocks=2048, page=4096, pages=1, history=32, settle=0):
        self.space = tempfile.mkdtemp(prefix="undofs-")
        self.part, self.path = f"{self.space}/part", f"{self.space}/folder"
        os.mkdir(self.path)
        self.sizes = f"page={page},pages={pages},blocks={blocks},history={history}"
        if settle is not None:
            self.sizes += f",settle={settle}"
        self.options, self.process = options, None
        self.daemon, self.program, self.environment = SHARED["daemon"], SHARED["program"], {}

    def mount(self, shim=None, more="", wait=True):
        """Starts the daemon. With `wait` it has to be there; without, whether it is there is answered."""
        words = [self.daemon, self.part, self.path, "-f", "-o"]
        words.append(",".join(filter(None, [self.sizes, f"serve={self.program}", self.options, more])))
        env = {**os.environ, **self.environment}
        if shim:
            kind = "mtd_shim.so" if "MTD_FILE" in shim else "file_shim.so"
            env.update(shim, LD_PRELOAD=f"{SHARED['shims']}/{kind}")
        self.log = open(f"{self.space}/log", "a+")
        self.process = subprocess.Popen(words, env=env, stdin=subprocess.DEVNULL, stdout=self.log, stderr=self.log)
        until = time.time() + 120
        while not os.path.ismount(self.path):
            if self.process.poll() is not None or time.time() > until:
                if wait:
                    raise Wrong(f"the daemon did not start: {self.told()[-300:]}")
                return False
            time.sleep(0.01)
        return True

    def told(self):
        with open(f"{self.space}/log") as log:
            return log.read()

    def unmount(self):
        """Ends the daemon as a user does, and waits until all is on the part."""
        for _ in range(50):
            done = subprocess.run(["fusermount3", "-u", self.path], capture_output=True)
            if done.returncode == 0:
                break
            time.sleep(0.1)
        else:
            raise Wrong(f"the folder is busy: {done.stderr}")
        status = self.process.wait(60)
        want(status, 0, f"the daemon's status, {self.told()[-400:]}" if status else "")

    def kill(self):
        """Kills the daemon and its child at once."""
        child = child_of(self.process) if self.process.poll() is None else None
        for number in (child, self.process.pid if self.process.poll() is None else None):
            if number:
                with contextlib.suppress(ProcessLookupError):
                    os.kill(number, signal.SIGKILL)
        self.process.wait(60)
        self.clear()

    def clear(self):
        """Takes the mount away, also where the daemon went in a cut, or goes in one now."""
        subprocess.run(["fusermount3", "-u", "-z", self.path], capture_output=True)
        want(self.process.wait(60) in (0, 77, -signal.SIGKILL, 3), True, f"the daemon's status {self.process.returncode}")

    def end(self):
        if self.process is not None and self.process.poll() is None:
            self.kill()
        elif os.path.ismount(self.path):
            self.clear()
        shutil.rmtree(self.space, ignore_errors=True)

    def __enter__(self):
        return self

    def __exit__(self, *_):
        self.end()

    # What a user does
    def __call__(self, *names):
        return os.path.join(self.path, *names)

    def order(self, line):
        """Writes a line to .undofs."""
        with open(self(".undofs"), "wb", buffering=0) as control:
            control.write(line.encode() + b"\n")  # once, also where it is refused

    def refusal(self, line):
        try:
            self.order(line)
        except OSError as error:
            return error.errno
        return None

    def log_words(self):
        with open(self(".undofs")) as control:
            return control.readline().split()

    def versions(self):
        """How many versions were ever made; a group that is open counts for none until its end."""
        return int(self.log_words()[2]) - 1

    def settled(self):
        """The same, once the group that is open has ended."""
        for _ in range(3):
            before = self.versions()
            time.sleep(1.3)
            if self.versions() == before:
                return before
        return self.versions()


WRAPPED = ("undofs_exchange", "undofs_reply", "undofs_is_there")


def put_between(f, program):
    """Has a program stand between the daemon of a folder and its child: its text, with the names {program} and {space}. With no child
    tests/lines_between.c, in a daemon of its own, does to the lines what these programs do."""
    if LIBRARY:
        f.daemon = build(f.space + "/made", *(f"-Wl,--wrap={name}" for name in WRAPPED), f"{HERE}/lines_between.c")
        f.environment = {"BETWEEN": f.space}
        return
    with open(f.space + "/between", "w") as file:
        file.write(program.format(program=f.program, space=f.space))
    os.chmod(f.space + "/between", 0o755)
    f.program = f.space + "/between"


@contextlib.contextmanager
def mounted(options="", **sizes):
    """A folder that is mounted, and unmounted well at the end."""
    with Folder(options, **sizes) as folder:
        folder.mount()
        yield folder
        if folder.process.poll() is None:
            folder.unmount()


def tree_of(path):
    """What stands below a folder: directories, and files with their bytes."""
    found = {}
    for place, folders, files in os.walk(path):
        for name in folders:
            found[os.path.relpath(os.path.join(place, name), path)] = None
        for name in files:
            with open(os.path.join(place, name), "rb") as file:
                found[os.path.relpath(os.path.join(place, name), path)] = file.read()
    return found
