#!/usr/bin/env python3
"""Writes a script: make_script.py objects|sessions LINES, or make_script.py
labels|searches|keys|key-searches|crowd OBJECTS, or make_script.py single-calls.

objects: each round creates a data object, reads its label and destroys it.
sessions: each round opens a session and closes it.
labels: one session creates data objects, each with a label of its own.
searches: the same, and then searches by a label, each of which finds one object.
keys, key-searches: the same with public keys of 32 bytes in place of data objects.
crowd: calls of one session among data objects of another, in sections that ck_bench measures.
single-calls: calls of nine kinds with two objects, in such sections.
"""
import itertools
import re
import sys

SEARCHES = 200
SEARCH = "a search by label (its three calls together)"
DATA = "0=0000000000000000"
KEY = f"0=0400000000000000,2=00,11={'00' * 32},100=1000000000000000"


def object_rounds():
    yield "1 InitToken 31323334"
    yield "1 OpenSession 6"
    number = 0
    while True:
        number += 1
        yield "1 CreateObject 1 0=0000000000000000,3=6162"
        yield f"1 GetAttributeValue 1 {number} 3:8"
        yield f"1 DestroyObject 1 {number}"


def session_rounds():
    yield "1 InitToken 31323334"
    session = 0
    while True:
        session += 1
        yield "1 OpenSession 6"
        yield f"1 CloseSession {session}"


def labelled(template, count):
    yield "1 InitToken 31323334"
    yield "1 OpenSession 6"
    for number in range(1, count + 1):
        yield f"1 CreateObject 1 {template},3={number:08x}"


def searched(template, count):
    yield from labelled(template, count)
    for number in searched_numbers(count):
        yield f"1 FindObjectsInit 1 3={number:08x}"
        yield "1 FindObjects 1 9"
        yield "1 FindObjectsFinal 1"


def searched_numbers(count):
    """The objects that the searches find, spread over all of them."""
    return [1 + search * count // SEARCHES for search in range(SEARCHES)]


def label(number):
    """A number as a label of 8 bytes."""
    return number.to_bytes(8, "little").hex()


def first_calls():
    """A user with a PIN, session 1, and in it a data object and a public key."""
    yield "1 InitToken 31323334"
    yield "1 OpenSession 6"
    yield "1 Login 1 0 31323334"
    yield "1 InitPIN 1 31323334"
    yield "1 Logout 1"
    yield f"1 CreateObject 1 {DATA},3=61206c6162656c20"
    yield f"1 CreateObject 1 {KEY}"


# How many times a label is read, and then changed, in a crowd: enough for the growth of the journal
# to take its part of the time, among few objects as among many.
LABEL_ROUNDS = 100_000


def crowd_sections(objects):
    """The sections of `crowd`: of each its name, its rounds, and the calls of session 1 in a round.
    The objects of session 2 have the numbers from 3."""
    def spread(number):
        return 3 + number * 7919 % objects

    def search(number):
        # One of the labels that were given last: each of them is on one object.
        template = f"3={label(LABEL_ROUNDS - 1 - number)}"
        return [f"FindObjectsInit 1 {template}", "FindObjects 1 9", "FindObjectsFinal 1"]

    return [
        ("create", 1_000, lambda n: [f"CreateObject 1 {DATA},3={label(n)}"]),
        ("get label", LABEL_ROUNDS, lambda n: [f"GetAttributeValue 1 {spread(n)} 3:8"]),
        ("change", LABEL_ROUNDS, lambda n: [f"SetAttributeValue 1 {spread(n)} 3={label(n)}"]),
        ("destroy", 1_000, lambda n: [f"DestroyObject 1 {objects + 3 + n}"]),
        ("open and close (both together)", 1_000,
         lambda n: ["OpenSession 6", f"CloseSession {3 + n}"]),
        ("login and logout (both together)", 1_000, lambda n: ["Login 1 1 31323334", "Logout 1"]),
        (SEARCH, 20, search),
        ("destroy all, each", objects, lambda n: [f"DestroyObject 1 {3 + n}"]),
    ]


def crowd(objects):
    """Calls of one session among the objects of another, in sections that are measured."""
    yield from first_calls()
    yield "1 OpenSession 6"
    for number in range(objects):
        yield f"1 CreateObject 2 {DATA},3={label(number)}"
    for name, rounds, calls in crowd_sections(objects):
        yield f"#measure {name}"
        for number in range(rounds):
            yield from (f"1 {call}" for call in calls(number))


# The sections of `single_calls`: of each its name, for how many calls, or groups of them, its
# figure is, and the calls of a round, by the handles of the next session and of the next object.
# Each has 1,000 rounds.
SINGLE_CALLS = [
    ("session info", 1_000, lambda session, handle: ["GetSessionInfo 1"]),
    ("token info", 1_000, lambda session, handle: ["GetTokenInfo"]),
    ("open and close, each", 2_000,
     lambda session, handle: ["OpenSession 6", f"CloseSession {session}"]),
    ("get label", 1_000, lambda session, handle: ["GetAttributeValue 1 1 3:8"]),
    (
        "create, get label and destroy (the three together)",
        1_000,
        lambda session, handle: [
            f"CreateObject 1 {DATA},3=61206c6162656c20",
            f"GetAttributeValue 1 {handle} 3:8",
            f"DestroyObject 1 {handle}",
        ],
    ),
    (
        "digest of 64 bytes (with its start)",
        1_000,
        lambda session, handle: ["DigestInit 1 250", f"Digest 1 {'07' * 64} 32"],
    ),
    (
        "HMAC of 64 bytes (with its start)",
        1_000,
        lambda session, handle: ["SignInit 1 251 2", f"Sign 1 {'07' * 64} 32"],
    ),
    (
        "create and destroy a data object (both together)",
        1_000,
        lambda session, handle: [f"CreateObject 1 {DATA}", f"DestroyObject 1 {handle}"],
    ),
    (
        "create and destroy a key (both together)",
        1_000,
        lambda session, handle: [f"CreateObject 1 {KEY}", f"DestroyObject 1 {handle}"],
    ),
]


def single_calls():
    """Calls of a token with two objects, in sections that are measured, each of them ten times."""
    yield from first_calls()
    session, handle = 2, 3
    for name, _, calls in SINGLE_CALLS:
        for _ in range(10):
            yield f"#measure {name}"
            for _ in range(1_000):
                lines = calls(session, handle)
                yield from (f"1 {line}" for line in lines)
                session += any(line.startswith("OpenSession") for line in lines)
                handle += any(line.startswith("CreateObject") for line in lines)


ROUNDS = {"objects": object_rounds, "sessions": session_rounds}
OBJECTS = {
    "labels": lambda count: labelled(DATA, count),
    "searches": lambda count: searched(DATA, count),
    "keys": lambda count: labelled(KEY, count),
    "key-searches": lambda count: searched(KEY, count),
    "crowd": crowd,
    "single-calls": lambda _: single_calls(),
}


def script(kind, count=0):
    lines = itertools.islice(ROUNDS[kind](), count) if kind in ROUNDS else OBJECTS[kind](count)
    return "".join(line + "\n" for line in lines)


def main():
    kind, *numbers = sys.argv[1:] or [""]
    is_counted = kind != "single-calls"
    if kind not in {**ROUNDS, **OBJECTS} or len(numbers) != is_counted:
        sys.exit(__doc__)
    if not all(re.fullmatch("[1-9][0-9]*", number) for number in numbers):
        sys.exit(__doc__)
    sys.stdout.write(script(kind, *map(int, numbers)))


if __name__ == "__main__":
    main()
