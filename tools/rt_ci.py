#!/usr/bin/env python3
"""Runs `rt ci`, the gate, and has it look at each crate once: tools/rt_ci.py

Some releases of the toolchain ask anew for each crate what lies below it and what the sum of its sources is, along every
path through crates.txt: there are four million of these, which takes hours. Here both are remembered for the run, in
which no source changes. What is proved, run and told is the same. An `rt` of another form is called as it is, and so is
the command that RT in the environment names.
"""
import importlib.machinery
import importlib.util
import os
import shutil
import sys


def remembered(method):
    """A method that is asked once for each folder of a crate."""
    told = {}

    def ask(crate):
        if crate.folder not in told:
            told[crate.folder] = method(crate)
        return told[crate.folder]

    return ask


def loaded(path):
    """The program `rt` as a module, or None where it is none that is known here."""
    with open(path, "rb") as file:
        if not file.readline().rstrip().endswith(b"python3"):
            return None
    loader = importlib.machinery.SourceFileLoader("rt", path)
    module = importlib.util.module_from_spec(importlib.util.spec_from_loader("rt", loader))
    sys.dont_write_bytecode = True
    loader.exec_module(module)
    crate = getattr(getattr(module, "rtlib", None), "Crate", None)
    is_known = all(callable(getattr(crate, it, None)) for it in ("below", "stamp")) and callable(getattr(module, "main", None))
    return module if is_known else None


def main():
    path = os.path.realpath(shutil.which(os.environ.get("RT", "rt")) or sys.exit("rt_ci.py: there is no rt"))
    module = loaded(path)
    if module is None:
        os.execv(path, [path, "ci"])
    crate = module.rtlib.Crate
    below, crate.stamp = remembered(crate.below), remembered(crate.stamp)
    # (each caller gets a list of its own)
    crate.below = lambda it: [*below(it)]
    sys.argv = [path, "ci"]
    return module.main(["ci"])


if __name__ == "__main__":
    sys.exit(main())
