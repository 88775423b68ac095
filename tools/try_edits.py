#!/usr/bin/env python3
"""Tries the edits of crates/*/must-fail and crates/*/wrong together: one check of a crate refuses all
edits that change functions of their own.

  tools/try_edits.py [--all] [--confirmed] [--list] [--write] [--by check|ci] [--jobs N] [--minutes N]
                     [--logs FOLDER] [CRATE ..]

All edits of a crate that change different functions are planted into one copy of it, which is checked
once. Each of them has to have an open goal of its own there: one in the function that it changed, by the
clause that its line `clause:` names, of which the check says that it is not proved. Edits of one function
go into further rounds. So does an edit of a function that calls one which was refused beside it, since the
check leaves such a caller out and says so. An edit outside of a function, as of a constant, is tried alone,
and any goal by its clause counts. An edit that is let through fails this by its name, whatever else is
refused beside it.

An answer of proofs/ that no longer fits counts as well, though it says less: only that its text went with
the old body. Where what its goal reads is `Unit`, the clause holds, and it does not count.

Tried are the edits that have no line with today's sum in wrong/TRIED of their crate, and sixteen more of at
most four crates, which the sum of all files TRIED chooses. With names of crates the sixteen are left out.
--all tries all (of these crates). --confirmed leaves out those that have no line at all, which no run has
confirmed yet, and tells how many these are. --list tells which would be tried, and tries none. --write
writes what was tried into TRIED: a line for each edit with its sum, `by search` or `by an answer`, and the
clause.

The sum is of the edit, of its crate's src/, specs/, proofs/ and line of crates.txt, of all crates below
their lines, specs/ and src/ without the bodies of functions, all without lines of comments, of the logic that
`rt version` names, and of what judges them (edit_trials.py, edit_files.py). So a changed body tries the
edits of its own crate alone, and another release of the toolchain with the same logic tries none.

Each crate is tried in a copy, two side by side, or N with --jobs. Where `rt check` or `rt lib` kept the
libraries below a crate here, the copy is checked by `rt check`, over these and over what it kept of the
crate itself. Elsewhere it is tried by `rt ci`, over the libraries that the gate kept on this machine, where
the toolchain keeps any; the crate itself is then proved from nothing in each round. --by takes one of them
for all. --logs keeps what each check said in a folder. RT in the environment is the command that is called
in the place of `rt`.

Crates with an edit that has no line with today's sum are begun first, and of these the ones with the fewest
lines of source, those of all crates below counted too. With --minutes no crate is begun after so many
minutes, and what still runs then is ended: what was not tried is told by name, and fails nothing.

The last line is `N passed, M failed` of what was tried, and the status is 1 where M is not 0.
"""
import argparse
import functools
import os
import signal
import subprocess
import sys
import tempfile
import threading
from concurrent.futures import ThreadPoolExecutor

import edit_copies
import edit_files
import edit_trials
from edit_files import PARTS, TOP

MORE, MORE_CRATES, SIDE_BY_SIDE = 16, 4, 2
SAYING = threading.Lock()


def say(text):
    with SAYING:
        print(text, flush=True)


def sum_of_all(crates, top=TOP):
    """The sum of all files TRIED."""
    files = (f"{top}/crates/{it}/wrong/TRIED" for it in sorted(crates))
    return edit_files.sum_of([edit_files.text_of(it) if os.path.isfile(it) else "" for it in files])


def logic_of(version):
    """What decides, of the words of `rt version`, what can be proved: the logic, or all of them where it names none."""
    words = version.split()
    return " ".join(words[words.index("logic") :]) if "logic" in words else version


def without_comments(path, text):
    """A source file without the lines that are comments."""
    mark = "//" if path.endswith(".rt") else "--"
    return "\n".join(it for it in text.split("\n") if not it.lstrip().startswith(mark))


class Sums:
    """The sums of what decides each edit."""

    def __init__(self, lines, top=TOP):
        self.lines, self.top, self.stated = lines, top, {}
        version = subprocess.run([os.environ.get("RT", "rt"), "version"], stdout=subprocess.PIPE, text=True, check=True).stdout
        here = os.path.dirname(os.path.abspath(__file__))
        self.tools = [logic_of(version), *(edit_files.text_of(f"{here}/{it}") for it in ("edit_trials.py", "edit_files.py"))]

    def below(self, crate):
        """What a crate says to those above it."""
        if crate not in self.stated:
            folder = f"{self.top}/crates/{crate}"
            sources = [(path, edit_files.statements_of(text)) for path, text in edit_files.sources_below(folder, "src", ".rt")]
            specs = [(path, without_comments(path, text)) for path, text in edit_files.sources_below(folder, "specs", ".antt")]
            self.stated[crate] = edit_files.sum_of(self.lines[crate], sources, specs)
        return self.stated[crate]

    def of(self, crate, edits):
        """The sums of a crate's edits, by their names."""
        folder = f"{self.top}/crates/{crate}"
        own = [(path, without_comments(path, text)) for part in PARTS for ending in (".rt", ".antt") for path, text in edit_files.sources_below(folder, part, ending)]
        below = [(it, self.below(it)) for it in edit_files.libraries_of(crate, self.lines)]
        base = edit_files.sum_of(self.tools, self.lines[crate], own, below)
        return {it.name: edit_files.sum_of(base, it.name, it.text) for it in edits}


def is_old(edit, sums, tried):
    """Whether an edit has no line with today's sum."""
    return tried.get(edit.name, ("",))[0] != sums[edit.name]


def chosen(edits, fresh, seed):
    """Sixteen of the edits that need no try, of at most four crates, as the seed has it: by crate the names."""
    order = lambda *it: edit_files.sum_of(seed, *it)
    crates = sorted((it for it in edits if fresh[it]), key=order)[:MORE_CRATES]
    every = sorted(((crate, name) for crate in crates for name in fresh[crate]), key=lambda it: order(*it))[:MORE]
    return {crate: {name for of, name in every if of == crate} for crate in crates}


def to_try(edits, sums, tried, given, seed):
    """By each crate the names of the edits to try."""
    due = {crate: {it.name for it in edits[crate] if given.all or is_old(it, sums[crate], tried[crate])} for crate in edits}
    if given.confirmed:
        due = {crate: {it for it in names if it in tried[crate]} for crate, names in due.items()}
    if not given.all and not given.crates:
        fresh = {crate: {it.name for it in edits[crate] if not is_old(it, sums[crate], tried[crate])} for crate in edits}
        for crate, names in chosen(edits, fresh, seed).items():
            due[crate] |= names
    return due


@functools.lru_cache(maxsize=None)
def lines_in(crate):
    """How many lines of source a crate has."""
    return sum(text.count("\n") for _, text in edit_files.sources_below(f"{TOP}/crates/{crate}", "src", ".rt"))


def by_cost(work, sums, tried, lines):
    """Crates with their edits in the order in which they are begun."""

    def cost(crate, found):
        has_old = any(is_old(it, sums[crate], tried[crate]) for it in found)
        return not has_old, sum(map(lines_in, [crate, *edit_files.libraries_of(crate, lines)]))

    return sorted(work, key=lambda it: cost(*it))


def try_crate(crate, found, lines, given, calls, told):
    """Tries edits of a crate in a copy of it, and puts a verdict into `told` as each is known."""

    def keep(number, said):
        if given.logs:
            with open(f"{given.logs}/{crate}.{number}", "w", encoding="utf-8") as file:
                file.write(said)

    with tempfile.TemporaryDirectory(prefix="undofs-edits-") as room:
        copy = edit_copies.Copy(crate, lines, given.by, room, calls, keep)
        for edit, verdict in edit_trials.verdicts_of(f"{TOP}/crates/{crate}", found, copy.check):
            told[edit.name] = verdict
            say(f"{crate}/{edit.name}: {verdict.words}")
    say(f"{crate}: {len(found)} edits in {copy.checks} checks by rt {copy.way}")


def try_all(work, lines, given, write):
    """Tries edits of crates side by side until the time is over, and returns their verdicts by their crates and names.
    `write` takes the verdicts of a crate of which no more is tried."""
    calls, verdicts = edit_copies.Calls(), {crate: {} for crate, _ in work}
    timer = threading.Timer(60 * given.minutes, calls.end) if given.minutes is not None else None

    def run(crate, found):
        try:
            if not calls.are_over:
                try_crate(crate, found, lines, given, calls, verdicts[crate])
        except edit_copies.OutOfTime:
            pass
        write(crate, verdicts[crate])

    with ThreadPoolExecutor(given.jobs) as pool:
        try:
            if timer:
                timer.start()
            for it in [pool.submit(run, *it) for it in work]:
                it.result()
        finally:
            # (where this is interrupted, too, no call is left)
            calls.end()
            if timer:
                timer.cancel()
                timer.join()
    return verdicts


def write_tried(crate, edits, sums, tried, verdicts):
    """Writes a crate's file TRIED: the lines of edits that are there, with those of the ones that were refused now."""
    rows = {it.name: tried[it.name] for it in edits if it.name in tried and it.name not in verdicts}
    for it in edits:
        verdict = verdicts.get(it.name)
        if verdict and verdict.passed:
            rows[it.name] = (sums[it.name], verdict.how.replace(" ", "-"), it.clauses[0])
    os.makedirs(f"{TOP}/crates/{crate}/wrong", exist_ok=True)
    with open(f"{TOP}/crates/{crate}/wrong/TRIED", "w", encoding="utf-8") as file:
        file.writelines(f"{name} {' '.join(rows[name])}\n" for name in sorted(rows))


def tell(work, verdicts, minutes):
    """Tells what was not tried and what failed, with the counts, and returns the status."""
    names = [(crate, it.name) for crate, found in work for it in found]
    late = [f"{crate}/{name}" for crate, name in names if name not in verdicts[crate]]
    if late:
        told = f"none of the {len(names)} edits was" if len(late) == len(names) else f"{len(late)} of the {len(names)} edits were not"
        say(f"{told} tried in {minutes:g} minutes: {' '.join(late)}")
    failed = [f"{crate}/{name}" for crate, told in verdicts.items() for name, it in told.items() if not it.passed]
    for it in failed:
        say(f"FAILED: {it}")
    say(f"{sum(map(len, verdicts.values())) - len(failed)} passed, {len(failed)} failed")
    return int(bool(failed))


def read_words():
    parser = argparse.ArgumentParser(description=__doc__.split("\n\n")[0])
    parser.add_argument("--all", action="store_true", help="try all edits")
    parser.add_argument("--confirmed", action="store_true", help="leave out edits that have no line in TRIED")
    parser.add_argument("--list", action="store_true", help="tell which edits would be tried, and try none")
    parser.add_argument("--write", action="store_true", help="write what was tried into wrong/TRIED")
    parser.add_argument("--by", choices=("check", "ci"), help="the command of rt by which all are tried")
    parser.add_argument("--jobs", metavar="N", type=int, default=SIDE_BY_SIDE, help="so many crates are tried side by side")
    parser.add_argument("--minutes", metavar="N", type=float, help="end after so many minutes, and tell what was not tried")
    parser.add_argument("--logs", metavar="FOLDER", help="keep what each check said there")
    parser.add_argument("crates", metavar="CRATE", nargs="*")
    return parser.parse_args()


def main():
    given, lines = read_words(), edit_files.listed()
    for it in (signal.SIGTERM, signal.SIGHUP):
        signal.signal(it, lambda number, _: sys.exit(128 + number))
    unknown = [it for it in given.crates if it not in lines]
    if unknown:
        sys.exit(f"try_edits.py: crates.txt has no {unknown[0]}")
    every = {it: edit_files.edits_of(it) for it in lines}
    edits = {it: found for it, found in every.items() if found and (not given.crates or it in given.crates)}
    made = Sums(lines)
    sums = {it: made.of(it, found) for it, found in edits.items()}
    tried = {it: edit_files.tried_of(it) for it in edits}
    due = to_try(edits, sums, tried, given, sum_of_all(every))
    work = by_cost([(crate, [it for it in edits[crate] if it.name in due[crate]]) for crate in edits if due[crate]], sums, tried, lines)
    count, old = sum(len(found) for _, found in work), sum(is_old(it, sums[crate], tried[crate]) for crate, found in work for it in found)
    say(f"{count} of {sum(map(len, edits.values()))} edits are tried, {old} of which have no line with today's sum in TRIED")
    if given.confirmed:
        say(f"{sum(it.name not in tried[crate] for crate, found in edits.items() for it in found)} have no line at all, and are left out")
    if given.logs:
        os.makedirs(given.logs, exist_ok=True)
    if given.list:
        for crate, found in work:
            say(f"{crate}: {' '.join(it.name for it in found)}")
        return 0

    def write(crate, told):
        if given.write and told:
            write_tried(crate, edits[crate], sums[crate], tried[crate], told)

    return tell(work, try_all(work, lines, given, write), given.minutes)


if __name__ == "__main__":
    sys.exit(main())
