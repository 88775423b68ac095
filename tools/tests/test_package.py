#!/usr/bin/env python3
"""Makes the package, installs it into a folder and removes it again: tools/tests/test_package.py [PROGRAM]

By hand, for the superuser, where dpkg is and what tools/fuse/install.sh brings; elsewhere it says so and its status is 77.
"""
import os
import shutil
import subprocess
import sys
import tempfile

TOOLS = os.path.dirname(os.path.dirname(os.path.abspath(__file__)))
INSTALLED = (
    "usr/bin/uffs",
    "usr/bin/undofs-fuse",
    "usr/bin/undofs-umount",
    "usr/lib/python3/dist-packages/undofs.py",
    "usr/share/bash-completion/completions/uffs",
    "usr/share/doc/undofs/CHANGELOG.md",
    "usr/share/doc/undofs/README.md",
    "usr/share/doc/undofs/SECURITY.md",
    "usr/share/doc/undofs/copyright",
    "usr/share/man/man1/uffs.1.gz",
)


def run(*words):
    return subprocess.run(words, check=True, stdout=subprocess.PIPE, text=True).stdout


def dpkg(root, *words):
    return run("dpkg", f"--root={root}", "--force-depends", "--log=/dev/null", *words)


def files_in(root):
    """The files below a root, but what dpkg keeps of itself."""
    found = (os.path.relpath(os.path.join(folder, name), root) for folder, _, names in os.walk(root) for name in names)
    return sorted(it for it in found if not it.startswith("var/lib/dpkg/"))


def main():
    if os.geteuid() or not shutil.which("dpkg") or subprocess.run(["pkg-config", "--exists", "fuse3"], check=False).returncode:
        print("test_package.py: the superuser, dpkg and libfuse3-dev are wanted: nothing was tried")
        return 77
    with tempfile.TemporaryDirectory() as room:
        run(f"{TOOLS}/package.sh", room, *sys.argv[1:])
        [package] = [f"{room}/{it}" for it in os.listdir(room)]
        root = f"{room}/root"
        for folder in ("info", "updates"):
            os.makedirs(f"{root}/var/lib/dpkg/{folder}")
        for name in ("status", "available"):
            open(f"{root}/var/lib/dpkg/{name}", "w", encoding="utf-8").close()
        dpkg(root, "--install", package)
        found = files_in(root)
        version = run(f"{root}/usr/bin/uffs", "version").split()[1]
        assert found == list(INSTALLED), found
        assert f"/undofs_{version}_" in package, package
        dpkg(root, "--remove", "undofs")
        assert not files_in(root), files_in(root)
    print("the package was made, installed and removed")
    return 0


if __name__ == "__main__":
    sys.exit(main())
