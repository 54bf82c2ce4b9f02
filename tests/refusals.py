#!/usr/bin/env python3
"""Checks that `rt ci` refused each edit that must fail at the clause that the line `clause:` of
the edit names, and not for another reason; and that it ran each program as two compilers build
it, and the tests of ck_run.

Called with a file that has the output of `rt ci`. The place is to be in the function that is named,
or in its file of proofs, and the goal there may be of the clause: one that ends with the name of
another clause isn't, nor one of what another function asks for, of a number or an index, or of the
invariant of a type, except where the edit names the type. Where the clause is one that callers must
show, the edit may be refused at a call, where that clause isn't shown and not another one. An edit
of a definition is to be refused in a proof of the law that it names, or in a lemma that this proof
comes to by its `use` lines. Edits that are refused elsewhere though they break their clauses are
listed with reasons. Prints each edit that has no such verdict, and each program that wasn't run;
the status is 1 then.
"""
import functools
import glob
import os
import re
import sys

import inventory
import contracts

VERDICT = re.compile(r"rt: must-fail (\w+)/(\w+)\.edit: refused, as it must be(.*)")
PLACE = re.compile(r"\b((?:src|specs|proofs)/[\w./+-]+):(\d+):\d+:")
# The function or the type, with the type or the trait that it is of, and the clause of it if one is
# named.
CLAUSE = re.compile(r"^clause: (?:\w+::)*?(?:(\w+)::)?(\w+)(?: (\w+))?$", re.MULTILINE)
# How `rt` begins where it refuses an edit for another reason than a goal.
OTHER_REASONS = (" (only because a proof file", " (only by a limit")

# The goal that a verdict names. Long verdicts are cut off, and so may the name be.
GOAL = re.compile(r"(?:\(|error: )`([\w+-]+)(`?)")
# A goal of what the call of a function asks for, and the name of the clause that a goal is of.
ASKED = re.compile(r"(\w+)(?:-[\w-]+?)?-requires\b")
NAMED = re.compile(r"-clause-(\w*)")
# A goal that is of no clause: of the invariant of a type, of a number or an index in range, and of
# the end of a closure.
OF_NO_CLAUSE = re.compile(r"(?:invariant|overflow|nonzero|\w*bounds)|.+-returns\b")

# Edits that are refused elsewhere, though each breaks its clause or its law, too: the goal, and why
# it comes first. Where it is the answer that no longer fits, the goal may be true.
INVARIANT = "what is answered of the type's invariant doesn't fit, and that is looked at first"
BASE = "what is answered of a sound base doesn't fit, and that is looked at first"
ALIKE = "a lemma of cuts goes by the form of this definition, and it is looked at before the law"
ELSEWHERE = {
    "ck_callers/a_caller_does_not_see_its_own_reply": ("invariant_of-self", INVARIANT),
    "ck_callers/an_entry_counts_twice": (
        "overflow_add-count", "two more than the count need not fit in its type"),
    "ck_callers/news_are_not_learnt": ("invariant_of-self", INVARIANT),
    "ck_callers/scripts_come_back_in_the_reverse_order": (
        "scope-returns", "the closure in which the scripts are put together is looked at first"),
    "ck_journal/definition_of_cuts_unlocks_the_security_officer": ("base_tries-same", ALIKE),
    "ck_journal/definition_of_destructions_passes_over_read_only_sessions": (
        "call_error-alike", ALIKE),
    "ck_journal/definition_of_final_signing_passes_over_the_state": ("call_error-alike", ALIKE),
    "ck_journal/definition_of_searches_begins_again": ("search_rest-alike", ALIKE),
    "ck_journal/definition_of_searches_returns_numbers": ("allowed-alike", ALIKE),
    "ck_plays/a_comment_is_out_of_memory": (
        "returns-in-Ok-Skipped-clause-ok",
        "the answer is of a line that ends well, and it is looked at first"),
    "ck_program/every_fault_ends_with_status_7": (
        "returns-then-run-eq0-clause-end_found",
        "the search gives up at this clause, which is looked at before that of the status"),
    "ck_shared/calls_are_those_of_the_first_caller": (
        "extend-requires-clause-next",
        "the answer names the entry with the caller's own number, and it is looked at first"),
    "ck_store/objects_are_lost_where_memory_ends": (
        "invariant_of-self", "it is wanted where the objects are cleared, before the end"),
    "ck_store/setting_an_attribute_also_changes_another_object": ("invariant_of-self", INVARIANT),
    "ck_token/a_cut_starts_the_logins_over": ("from_base-journal-requires", BASE),
    "ck_token/a_cut_starts_the_users_tries_over": ("from_base-journal-requires", BASE),
    "ck_token/a_wrong_pin_behind_another_callers_try_is_not_counted": (
        "apply-requires-clause-counted",
        "the answer is of the change that was decided on, and it is looked at first"),
    "ck_token/out_of_memory_after_the_entry": (
        "invariant_of-self", "it is wanted at both ends then, and isn't found at the first one"),
}


def first_line_of(lines, function):
    """Where the attributes of a function begin: `rt` names its place by them."""
    first = function.start
    while lines[first - 1].strip().startswith(("#[", "//")):
        first -= 1
    return first


@functools.lru_cache(maxsize=None)
def functions_of(path):
    """The functions of a file, each with the line from which on it is its own."""
    lines = contracts.lines_of(path)
    return [(first_line_of(lines, function) + 1, function.name)
            for function in contracts.functions_in(lines)]


def functions_at(crate, path, line):
    """The functions whose goals stand there, each behind its type or, in proofs, its module.
    Functions that call themselves, and those in them, have a folder of proofs together, that begins
    with a plus sign."""
    if not path.startswith("src/"):
        *_, owner, folder, _ = ["", *path.split("/")]
        return [(owner, name) for name in folder.removeprefix("+").split("+")]
    source = os.path.join(inventory.ROOT, "crates", crate, path)
    names = [name for first, name in functions_of(source) if first <= line]
    return [tuple(["", *names[-1].split("::")][-2:])] if names else []


def is_in(crate, owner, name, places):
    """Whether one of these functions is the one of this name, of this type or trait if one is
    given."""
    traits = {it.name: it.of_trait for it in inventory.clauses_of(crate)}
    return any(name == at and (owner in (None, of) or traits.get(f"{of}::{at}") == f"{owner}::{at}")
               for of, at in places)


@functools.lru_cache(maxsize=None)
def proofs_of(crate, name):
    """The files of the proof of a law, and those of the lemmas that they come to."""
    folder = os.path.join(inventory.ROOT, "crates", crate)
    own = glob.glob(os.path.join(folder, "proofs", "*", name, "*.antt"))
    found, waiting = set(), [os.path.relpath(path, folder) for path in own]
    while waiting:
        path = waiting.pop()
        if path not in found and os.path.exists(os.path.join(folder, path)):
            found.add(path)
            waiting += [f"{used.replace('.', '/')}.antt" for used in re.findall(
                rf"\buse Rattle\.{crate}\.(proofs\.[\w.]*\w)", inventory.text_of(
                    f"crates/{crate}/{path}"))]
    return found


def may_be_of(goal, name, label):
    """Whether a goal may be of a function's clause of this name, or of any where none is named."""
    asked, named = ASKED.match(goal[1]), NAMED.search(goal[1])
    if asked and asked[1] != name:
        return False
    if label and named:
        return label == named[1] or not goal[2] and label.startswith(named[1])
    return not (OF_NO_CLAUSE.match(goal[1]) or label and asked)


def is_at_clause(crate, edit, said):
    """Whether this is said of a goal of the edit's clause."""
    text = inventory.text_of(f"crates/{crate}/must-fail/{edit}.edit")
    place, goal = PLACE.search(said), GOAL.search(said)
    if said.startswith(OTHER_REASONS) or not place:
        return False
    owner, name, label = CLAUSE.search(text).groups()
    if "file: specs/" in text:
        return place[1] in proofs_of(crate, name)
    places = functions_at(crate, place[1], int(place[2]))
    if name[0].isupper():
        return name in [of for of, _ in places] and bool(goal) and goal[1].startswith("invariant")
    if goal and ASKED.match(goal[1]):
        return may_be_of(goal, name, label)
    return is_in(crate, owner, name, places) and (not goal or may_be_of(goal, name, label))


def is_refused(crate, edit, said):
    """Whether this is said of a goal of the edit's clause, or of the goal at which it is listed."""
    goal = GOAL.search(said)
    listed, _ = ELSEWHERE.get(f"{crate}/{edit}", ("", ""))
    is_listed = goal and not said.startswith(OTHER_REASONS) and (
        listed == goal[1] or not goal[2] and listed.startswith(goal[1]))
    return bool(is_listed) or is_at_clause(crate, edit, said)


def faults_in(output):
    verdicts = {(found[1], found[2]): found[3] for found in VERDICT.finditer(output)}
    there = [(path.split("/")[1], os.path.basename(path).removesuffix(".edit"))
             for path in inventory.files("crates/*/must-fail/*.edit")]
    for crate, edit in there:
        said = verdicts.get((crate, edit))
        if said is None:
            yield f"{crate}/{edit} has no verdict"
        elif not is_refused(crate, edit, said):
            yield f"{crate}/{edit} isn't refused at its clause: {said}"
    for name in sorted(ELSEWHERE.keys() - {"/".join(edit) for edit in there}):
        yield f"{name} is listed, and isn't there"


def programs_not_run(output):
    """The programs that weren't run as both compilers build them. `rt ci` passes where its own
    compiler can't compile one, and only says so."""
    said = set(output.split("\n"))
    for path in inventory.files("crates/*/src/main.rt"):
        name = path.split("/")[1]
        for builder in ("", " (built by Rattle's own compiler)"):
            if f"rt: {name} ran{builder}, and wrote what its file stdout has" not in said:
                yield f"{name} wasn't run{builder}"
    if "rt: ck_run: its tests passed" not in said:
        yield "the tests of ck_run weren't run"


def main(path):
    with open(path, encoding="utf-8", errors="replace") as file:
        output = file.read()
    faults, not_run = list(faults_in(output)), list(programs_not_run(output))
    for fault in faults + not_run:
        print(fault)
    print(f"{len(faults)} edits aren't refused at their clauses")
    return 1 if faults or not_run else 0


if __name__ == "__main__":
    sys.exit(main(sys.argv[1]))
