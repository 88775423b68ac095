"""Edits of a crate tried together, and what a check says of each: what try_edits.py judges by.

All edits of a crate that change different functions are planted into one copy of it, which is checked once. Each has to
have an open goal of its own there, by the clause that it names. The text of this file is in the sums of TRIED, so a
change here has all edits tried anew.
"""
import os
import re

import edit_files

OPEN = re.compile(r"^note: (?:\./)?(src/\S+?):(\d+):\d+: (?:it is not proved .*?|`search` found no proof )\(`([^`]*)`\)", re.M)
UNPROVED = re.compile(r"^fn \S+: no proof: expected answers in \./proofs/(\S+)/Answers\.antt; `search` did not prove ((?:`[^`]+`(?:, )?)+)", re.M)
ANSWER = re.compile(r"^(?:\./)?proofs/(\S+)/(?:Answers|Invariants|Proof)\.antt:\d+:\d+: error: `([^`]*)`(.*(?:\n  .*)*)", re.M)
HOLDS = re.compile(r"(?:expected type|reads) `Unit\b")
WAITS = re.compile(r"^fn (\S+): (?:no proof|not proved)\b.*\bit calls `", re.M)
VERDICT = re.compile(r"^logic=(\S+).*$", re.M)
LATER = "waits for a function that it calls"


class Place:
    """What an edit changes: the function of that number in a file, with the type that it is of, or no function of its own
    (number is None)."""

    def __init__(self, file, number, name, owner=""):
        self.file, self.number, self.name, self.owner = file, number, name, owner

    def module(self):
        """The folder of proofs/ in which the answers of the file's functions stand."""
        parts = self.file.removeprefix("src/").removesuffix(".rt").split("/")
        return "/".join(parts[:-1] if parts[-1] in ("lib", "main", "mod") else parts)

    def meets(self, other):
        """Whether the open goals of both could not be told apart."""
        if self.number is None or other.number is None or (self.file, self.number) == (other.file, other.number):
            return True
        one, two = sorted((self.module(), other.module()), key=len)
        are_near = not one or f"{two}/".startswith(f"{one}/") or self.owner != "" and self.owner == other.owner
        return self.name == other.name and are_near

    def has_answers_in(self, folder):
        """Whether a folder of proofs/ has the answers of this function. Those of a method stand with its type, which may be
        of another module."""
        module, (*above, last) = self.module(), folder.split("/")
        is_of_type = self.owner != "" and above != [] and above[-1].startswith(self.owner)
        # (those of a function that calls itself stand in a folder `+NAME`)
        return last.lstrip("+").split("+")[0] == self.name and (not module or folder.startswith(f"{module}/") or is_of_type)


class Verdict:
    """What a round says of an edit: whether it is refused as it has to be, how, and the words for it."""

    def __init__(self, passed, words, how=""):
        self.passed, self.words, self.how = passed, words, how


def planted(edit, folder, texts):
    """Puts an edit into the texts of a crate's files, and returns its places, or None where it cannot be applied."""
    places = []
    for file, old, new in edit.pairs:
        if file not in texts and os.path.isfile(f"{folder}/{file}"):
            texts[file] = edit_files.text_of(f"{folder}/{file}")
        text = texts.get(file, "")
        if text.count(old) != 1:
            return None
        line = text[: text.index(old)].count("\n")
        found = [(at, it) for at, it in enumerate(edit_files.functions_in(text)) if it.first <= line <= it.last]
        if not found or found[-1][1].is_const or not file.endswith(".rt"):
            places.append(Place(file, None, ""))
        else:
            places.append(Place(file, found[-1][0], found[-1][1].name, edit_files.owner_of(text, found[-1][1])))
        texts[file] = text.replace(old, new)
    return places or None


def rounds_of(folder, edits):
    """Lists of edits with their places: in each the edits change functions of their own. One that cannot be applied is alone."""
    rounds = []
    for edit in edits:
        places = planted(edit, folder, {})
        fits = (one for one in rounds if places and all(it and not any(a.meets(b) for a in places for b in it) for _, it in one))
        one = next(fits, None)
        if one is None:
            rounds.append([(edit, places)])
        else:
            one.append((edit, places))
    return rounds


def goals_of(places, texts, said):
    """The open goals of the functions of these places, and their goals of which an answer no longer fits."""
    is_alone = any(it.number is None for it in places)
    spans = [(it.file, edit_files.functions_in(texts[it.file])[it.number]) for it in places if it.number is not None]
    has = lambda file, line: is_alone or any(file == one and it.head < line <= it.last + 1 for one, it in spans)
    search = [goal for file, line, goal in OPEN.findall(said) if has(file, int(line))]
    named = [goals for folder, goals in UNPROVED.findall(said) if is_alone or any(it.has_answers_in(folder) for it in places)]
    search += [goal for goals in named for goal in re.findall(r"`([^`]+)`", goals) if goal not in search]
    told = [(folder, goal) for folder, goal, more in ANSWER.findall(said) if not HOLDS.search(more)]
    answers = [goal for folder, goal in told if is_alone or any(it.has_answers_in(folder) for it in places)]
    return search, answers


def verdict_on(edit, places, texts, said, waiting):
    """What a check says of one of the edits that were planted."""
    search, answers = goals_of(places, texts, said)
    clauses = edit.clauses
    if len(clauses) != 1 or not clauses[0]:
        return Verdict(False, f"NOT TRIED: it has {len(clauses)} lines `clause:` with a name, and not one")
    for goals, how in ((search, "by search"), (answers, "by an answer")):
        if clauses[0] in map(edit_files.clause_of, goals):
            return Verdict(True, f"refused by {clauses[0]}, {how}", how)
    if any(it.name in waiting for it in places):
        return LATER
    if search or answers:
        return Verdict(False, f"REFUSED BY ANOTHER CLAUSE: by {', '.join(dict.fromkeys(map(edit_files.clause_of, [*search, *answers])))}, and not by {clauses[0]}")
    return Verdict(False, "NOT REFUSED: no goal of what it changes is open")


def tried_once(one, texts, said):
    """What one check says of each edit of a round: a verdict, or LATER where it has to be tried without the others."""
    found = VERDICT.findall(said)
    if found and found[-1] == "proved":
        return {edit.name: Verdict(False, "NOT REFUSED: the crate is still proved") for edit, _ in one}
    if not found or found[-1] != "not-proved" or any(places is None for _, places in one):
        if len(one) > 1:
            return {edit.name: LATER for edit, _ in one}
        lines = [it for it in said.split("\n") if re.search(r"error|cannot be applied|ran out|rt: ", it)] or said.strip().split("\n")
        return {one[0][0].name: Verdict(False, f"NOT TRIED: {lines[0][:200]}")}
    waiting = {it.rsplit("::", 1)[-1].split("+")[0] for it in WAITS.findall(said)}
    told = {edit.name: verdict_on(edit, places, texts, said, waiting) for edit, places in one}
    if len(one) == 1 and told[one[0][0].name] == LATER:
        told = {edit.name: verdict_on(edit, places, texts, said, ()) for edit, places in one}
    return told


def verdicts_of(folder, edits, check):
    """Tries edits of the crate in a folder, and yields each with its verdict once a check told it. `check` takes the texts of
    the files that edits change, and returns these as they were checked, with what it said of the crate."""
    left = rounds_of(folder, edits)
    while left:
        one, texts = left.pop(0), {}
        unfit = [edit.name for edit, _ in one if planted(edit, folder, texts) is None]
        texts, said = ({}, f"{unfit[0]} cannot be applied") if unfit else check(texts)
        told = tried_once(one, texts, said)
        later = [it for it in one if told[it[0].name] == LATER]
        # what waits is tried without those that it waits for
        left += [later] if len(later) < len(one) and later else [[it] for it in later]
        yield from ((edit, told[edit.name]) for edit, _ in one if told[edit.name] != LATER)
