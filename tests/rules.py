#!/usr/bin/env python3
"""Plays the tables of docs/rules.md on the built program ck_run: which templates an attribute may
stand in, its forms, and its value where no template gives it; which key state may become which, and
what a key does in it; mechanisms, the states of sessions, and the longest pieces of messages; which
calls count wrong tries back, the token's flags, limits, and answers to queries. Of docs/script.md
it plays how many arguments each call takes, how arguments and replies are written, and which of
several faults of a line is named.

The replies that are wanted are read off the pages. So that no row is passed over, each table must
have as many rows as are said here, and attributes and states that it doesn't have must be refused.
Last, what pages say is compared with what the sources and other tests have: the checks of each
call, return codes, reasons of bad lines, statuses, names and functions for programs, functions
without clauses, names of laws, races, numbers, links and the toolchain. The program is
crates/ck_run/out/ck_run, which `rt ci` leaves, or the one that is named; cases of limits, and the
ends that docs/recorded_runs.md says, are played by crates/ck_cases/out/ck_cases. For each test a
line is printed that begins with passed or FAILED, and the status is 1 where one failed.
"""
import glob
import hashlib
import itertools
import os
import re
import shutil
import subprocess
import sys
import tempfile

import program
import recorded_runs

PROGRAM = program.PROGRAM
DOCS = os.path.join(program.HERE, "..", "docs")
CRATES = os.path.join(program.HERE, "..", "crates")
sys.path.insert(0, DOCS)
import contracts

# The tables that are read, by the first cells of their heads: the page of each, and its rows.
TABLES = {
    "type | name": ("rules.md", 27),
    "number | state": ("rules.md", 6),
    "hash function (FIPS 180-4)": ("rules.md", 4),
    "login | read-only session": ("rules.md", 3),
    "the user | the security officer": ("rules.md", 4),
    "flag | number (hexadecimal)": ("rules.md", 9),
    "limit | range": ("rules.md", 4),
    "| code | reply": ("rules.md", 3),
    "| answer | fault": ("rules.md", 5),
    "argument | text": ("script.md", 11),
    "what comes with the code | text after the code": ("script.md", 9),
    "call | arguments": ("script.md", 34),
    "code | name": ("script.md", 38),
    "status | when | line on standard error": ("script.md", 8),
    "status | when": ("recorded_runs.md", 3),
    "what is wrong | text": ("script.md", 19),
    "name | the standard's": ("rust.md", 10),
    "function | makes": ("rust.md", 10),
    "function | what it is for": ("rust.md", 5),
    "what callers do at once | what comes": ("threads.md", 11),
}

# A token that is initialized, with the user logged in in session 1. Private objects then have
# handles above FIRST_PRIVATE.
USER = ["1 InitToken 31323334", "1 OpenSession 6", "1 Login 1 0 31323334", "1 InitPIN 1 75736572",
        "1 Logout 1", "1 Login 1 1 75736572"]
FIRST_PRIVATE = 1 << 32

DATA = "0=0000000000000000"
KEY_CLASS = "0=0400000000000000"
KEY_TYPE = "100=1000000000000000"
KEY_VALUE = "11=4a656665"
PUBLIC = "2=00"

# A value of each form, and some that aren't of it. A flag gets the value that isn't the table's.
VALUES = {"number": "0400000000000000", "key type": "1000000000000000", "bytes": "6162",
          "key state": "0100000000000000"}
BAD_VALUES = {"flag": ["-", "02", "0000", "0101"], "number": ["-", "04", "040000000000000000"],
              "class": ["-", "04", "0100000000000000", "0300000000000000"],
              "key type": ["-", "10", "1f00000000000000"],
              "key state": ["-", "01", "0200000000000000", "0600000000000000"], "bytes": []}
# What the words of the columns "else" stand for.
WORDS = {"false": "00", "true": "01", "empty": "-", "all ones": "ff" * 8}

# What objects of the three kinds are made of, and what is computed of these keys.
MADE_OF = {"data": dict([DATA.split("=")]),
           "key": dict(item.split("=") for item in (KEY_CLASS, KEY_TYPE, KEY_VALUE)),
           "generated": {"161": "0400000000000000"}}
COMPUTED = {"11": "00010203", "161": "0400000000000000", "164": "00", "165": "00"}

LONGEST_PIECE = 1 << 20

# Types of attributes, among them those of the standard and of this vendor, and numbers of states.
ATTRIBUTE_TYPES = [*range(0x800), *range(0x80000000, 0x80000010)]
STATE_NUMBERS = range(16)

# The mechanism that has no hash function.
GENERATION = ["350", "CKM_GENERIC_SECRET_KEY_GEN"]

# Codes that no call answers, and a status to which no test of the program can come.
UNANSWERED = ("CKR_HOST_MEMORY", "CKR_KEY_TYPE_INCONSISTENT")
UNTRIED = (3, "ck_run: reader does not end")

# Ends of the program ck_cases: what the page says of each, the words that it is given, and its file
# `t`.
ENDS_OF_CASES = [
    ("all lines passed", ["t"], b"1 InitToken 31323334 -> 0\n"),
    ("have no reply", ["t"], b"1 InitToken 31323334\n"),
    ("`--help` was asked for", ["--help"], b""),
    ("a line differs", ["t"], b"1 InitToken 31323334 -> 7\n"),
    ("is bad", ["t"], b"1 Nope\n"),
    ("bad arguments", ["--nothing", "t"], b""),
    ("a file that can't be read", ["none"], b""),
    ("isn't UTF-8", ["t"], b"\xff\n"),
    ("has CR LF", ["t"], b"1 InitToken 31323334\r\n"),
]

CODE = re.compile(r'\(0x([0-9a-f]+), "(CKR_\w+)"\)')
MECHANISM = re.compile(r"pub const (\w+): u64 = 0x([0-9a-f]+);")
QUOTED = re.compile("`([^`]*)`")
EXPORTED = re.compile(r"^pub use [\w:]+::(\{[^}]*\}|\w+);", re.MULTILINE)

# How the rules of a call begin, with what it is given; and what stands for its checks in them.
CALL = re.compile(r"^\*\*(\w+)\*\*(?:\(([^)]*)\))?", re.MULTILINE)
CHECK = re.compile(r"(?P<name>CKR_\w+) \((?P<code>[0-9a-f]+)[,;)]"
                   r"|The checks of a template that (?P<purpose>\w+)"
                   r"|(?P<buffer>the reply is by the buffer)"
                   r"|(?P<queries>the queries are answered)")
# A code with its number; and also a number by itself.
CODED = re.compile(r"(CKR_\w+) \(([0-9a-f]+)\)")
CODED_AGAIN = re.compile(r"(CKR_\w+) \(([0-9a-f]+)\)|\b[0-9a-f]{2,3}\b")
CODE_NAME = re.compile(r"CKR_\w+")
# How the checks of templates begin, and which of them are made of one that does this.
FRONT = re.compile(r"\b(All|Created, a secret key|Created|Generated|Copied and changed|Copied): ")
TEMPLATES = {
    "creates": ("All", "Created", "Created, a secret key"),
    "generates": ("All", "Generated"),
    "copies": ("All", "Copied", "Copied and changed"),
    "sets": ("All", "Copied and changed"),
}
# The function that decides a call, with its comment; what the comment says of checks, and the calls
# of the standard that it names; and a call that no function decides, since it is never refused.
DECISION = re.compile(r"((?: *///.*\n)+) *pub\(super\) fn (\w+)")
CHECKED = re.compile(r"^(.*?)(?:Checks?: (.*)|, which is never refused\.)")
OF_CALL = re.compile(r"\bC_(\w+)")
UNDECIDED = "CloseAllSessions"
# A call of a case, with the code of its reply.
RECORDED = re.compile(r"^\d+ (\w+)(?: .*)? -> (?!bad )([0-9a-f]+)(?= |$)", re.MULTILINE)

# The rows of the table of arguments: what each says, lines with such an argument, texts that are
# read, and texts that aren't, with the reasons.
NUMBERS = (["0", "7", "10", str(2 ** 64 - 1)],
           {"x": program.NOT_DECIMAL, "a": program.NOT_DECIMAL, "0x6": program.NOT_DECIMAL,
            "-": program.NOT_DECIMAL, "07": program.LEADING_ZERO, "00": program.LEADING_ZERO,
            str(2 ** 64): program.TOO_LARGE})
CODE_NUMBERS = (["0", "9", "9af", "f" * 16],
                {"A": program.NO_CODE_NUMBER, "g": program.NO_CODE_NUMBER,
                 "0x6": program.NO_CODE_NUMBER, "-": program.NO_CODE_NUMBER,
                 "06": program.LEADING_ZERO, "1" + "0" * 16: program.TOO_LARGE})
BYTES = (["00", "aA", "Ff09", "-"], {"0": program.NO_BYTES, "0g": program.NO_BYTES,
                                     "0x00": program.NO_BYTES, "--": program.NO_BYTES})


def with_types(end, others, reasons):
    """Texts that begin with a type and end so, and others."""
    good, bad = CODE_NUMBERS
    return ([it + end for it in good] + others,
            {**{it + end: reason for it, reason in bad.items() if it != "-" or end}, **reasons})


ARGUMENTS = {
    "caller": ("`1` to `8`", ["{} GetTokenInfo"], list("12345678"),
               {it: program.NO_CALLER for it in ("0", "9", "x", "01", "10")}),
    "session, object, key": (
        "a handle: decimal, no leading zeros, below 2^64",
        ["1 Logout {}", "1 DestroyObject 1 {}", "1 SignInit 1 251 {}"], *NUMBERS),
    "user": ("a number like a handle: 0 the security officer, 1 the normal user; the call refuses "
             "others", ["1 Login 1 {} 31"], *NUMBERS),
    "max": ("a number like a handle: the most handles that the reply may have",
            ["1 FindObjects 1 {}"], *NUMBERS),
    "state": ("a number like a handle: the state that the key goes to; the call refuses numbers of "
              "no state", ["1 SetKeyState 1 1 {}"], *NUMBERS),
    "room": ("a number like a handle: the length of the output buffer; or `?`, no buffer, which "
             "asks only for the length",
             ["1 Digest 1 - {}", "1 DigestFinal 1 {}", "1 Sign 1 - {}", "1 SignFinal 1 {}"],
             [*NUMBERS[0], "?"], {**NUMBERS[1], "??": program.NOT_DECIMAL}),
    "flags": ("hexadecimal with digits `0` to `9` and `a` to `f`, no `0x`, no leading zeros, below "
              "2^64", ["1 OpenSession {}", "1 SessionCancel 1 {}"], *CODE_NUMBERS),
    "pin, signature, all bytes": (
        "two hexadecimal digits of either case for each; `-` for no bytes",
        ["1 InitToken {}", "1 InitPIN 1 {}", "1 SetPIN 1 {} 31", "1 SetPIN 1 31 {}",
         "1 Login 1 1 {}", "1 Digest 1 {} ?", "1 DigestUpdate 1 {}", "1 Sign 1 {} ?",
         "1 SignUpdate 1 {}", "1 Verify 1 {} 31", "1 Verify 1 31 {}", "1 VerifyUpdate 1 {}",
         "1 VerifyFinal 1 {}", "1 GenerateKey 1 350 - {}"], *BYTES),
    "mechanism": (
        "`type`, or `type:bytes` with a parameter; a type is written as flags are",
        ["1 DigestInit 1 {}", "1 SignInit 1 {} 1", "1 VerifyInit 1 {} 1",
         "1 GenerateKey 1 {} - 00"],
        *with_types("", ["250:00", "250:-"],
                    {"-": program.NO_CODE_NUMBER, "250:0": program.NO_BYTES,
                     "250:00:00": program.NO_MECHANISM, "0x250:00": program.NO_CODE_NUMBER})),
    "template": (
        "items `type=bytes` joined by commas, or `-` for none; a type is written as flags are",
        ["1 CreateObject 1 {}", "1 GenerateKey 1 350 {} 00", "1 CopyObject 1 1 {}",
         "1 SetAttributeValue 1 1 {}", "1 FindObjectsInit 1 {}"],
        *with_types("=00", ["-", "3=6162,10=-", "0=00,1=01,3=-"],
                    {**dict.fromkeys(["3", "3=00,", "3=00,-"], program.NO_TEMPLATE),
                     "3=0": program.NO_BYTES})),
    "queries": (
        "queries `type:room` joined by commas, or `-` for none", ["1 GetAttributeValue 1 1 {}"],
        *with_types(":8", ["-", "3:?", "3:8,11:?", "3:0,10:1,11:?"],
                    {**dict.fromkeys(["3", "3:8,", "3:8,-"], program.NO_QUERIES),
                     "3:x": program.NOT_DECIMAL, "3:08": program.LEADING_ZERO})),
}

# The rows of the table of replies: what each says, and calls with their replies, which are made one
# after the other for all rows.
REPLIES = {
    "nothing": ("nothing", {"1 InitToken 31323334": "0"}),
    "a handle": ("a space and the handle in decimal", {
        "1 OpenSession 6": "0 1", "1 Login 1 0 31323334": "0", "1 InitPIN 1 75736572": "0",
        "1 Logout 1": "0", "1 Login 1 1 75736572": "0",
        "1 CreateObject 1 0=0000000000000000,3=6162": "0 1",
        "1 CreateObject 1 0=0000000000000000,2=01": "0 4294967298"}),
    "a session": ("a space, the state in decimal, a space, the flags in hexadecimal",
                  {"1 GetSessionInfo 1": "0 3 6"}),
    "the token": ("the token's flags in hexadecimal, then three counts in decimal, each after a "
                  "space", {"1 GetTokenInfo": "0 40c 64 1 1"}),
    "answers to queries": (
        "a space and the answers joined by commas, or `-` where there are none",
        {"1 GetAttributeValue 1 1 3:8,11:?,3:?,11:8": "0 =6162,:0,:2,=-",
         f"1 GetAttributeValue 1 1 3:{2 ** 64 - 1},11:{2 ** 64 - 1}": "0 =6162,=-",
         "1 GetAttributeValue 1 1 -": "0 -", "1 GetAttributeValue 1 1 100:8": "12 !"}),
    "handles": (
        "a space and the handles in decimal joined by commas, or `-` where there are none",
        {"1 FindObjectsInit 1 -": "0", "1 FindObjects 1 9": "0 1,4294967298",
         "1 FindObjects 1 10": "0 -"}),
    "mechanisms": ("a space and their types in hexadecimal joined by commas", {
        "1 GetMechanismList": "0 250,251,252,255,256,257,260,261,262,270,271,272,350"}),
    "a digest or a signature": ("a space and its bytes in hexadecimal", {
        "1 DigestInit 1 250": "0", "1 Digest 1 61 32": "0 " + hashlib.sha256(b"a").hexdigest()}),
    "the length of a digest or a signature": ("a space, `:` and the length in decimal", {
        "1 DigestInit 1 270": "0", "1 Digest 1 61 ?": "0 :64", "1 DigestFinal 1 63": "150 :64"}),
}
LETTERS = "Hexadecimal is in lower case, without leading zeros in codes and flags."

# The faults of a line: the reason that is given, and what is then another part of the line.
FAULTS = {
    "its length": (program.TOO_LONG, {"more": b"1" * program.LONGEST_LINE}),
    "a control character other than a tab and a carriage return": (
        program.NOT_TEXT, {"mark": b"\x01"}),
    "a byte order mark at its beginning": (program.BYTE_ORDER_MARK, {"front": b"\xef\xbb\xbf"}),
    "a carriage return at its end": (program.CARRIAGE_RETURN, {"end": b"\r"}),
    "a tab": (program.TAB, {"gap": b"\t"}),
    "a second space, or one at an end": (program.TOO_MANY_SPACES, {"between": b"  "}),
    "fewer than two words": (program.FEW_WORDS, {"name": b"", "first": b"", "rest": b""}),
    "the caller": (program.NO_CALLER, {"caller": b"9"}),
    "the call's name": (program.NO_CALL, {"name": b"Nope"}),
    "the count of its arguments": (program.LOGIN_TAKES_3, {"rest": b" 1"}),
    "the first bad argument": (program.NOT_DECIMAL, {"first": b"x"}),
    "a caller above N": (program.CALLER_ABOVE_2, {"caller": b"3"}),
}

# Where the numbers of names stand that programs give to calls, those first of which others are
# made; a constant, and a variant with its number; and the standard's numbers.
NAMED = ["ck_types/src/users.rt", "ck_journal/src/session_flags.rt",
         "ck_journal/src/operations.rt", "ck_objects/src/forms.rt", "ck_objects/src/attributes.rt"]
CONSTANT = re.compile(r"^(?:pub(?:\(\w+\))? )?const (\w+): \w+ = ([\w <|]+);", re.MULTILINE)
VARIANT = re.compile(r"^ +(?:\w+::)?(\w+) =>? (0x[0-9a-f]+|\d+|[A-Z_]{2,}),$", re.MULTILINE)
# In C a constant, or what an `enum` has; a definition of a number of some type; and how a function
# begins.
CONSTANT_IN_C = re.compile(r"(?:static const \w+|enum \{|,|^   ) (\w+) = ([\w <]+)(?=[;,]| \})")
DEFINED_IN_C = re.compile(r"^#define (\w+) \(\(\w+\)([\w <]+)\)$")
FUNCTION_IN_C = re.compile(r"^\w.*?\b(\w+)\(.*\{$")
STANDARD = {"CKU_SO": 0, "CKU_USER": 1, "CKF_SERIAL_SESSION": 4, "CKF_RW_SESSION": 2,
            "CKF_DIGEST": 0x400, "CKF_SIGN": 0x800, "CKF_VERIFY": 0x2000, "CKO_DATA": 0,
            "CKO_SECRET_KEY": 4, "CKK_GENERIC_SECRET": 0x10, "both": 6}

# A function as the page of programs shows it, and how a function's contract begins.
SHOWN = re.compile(r"(?:(?P<owner>\w+)::|\.)?(?P<name>\w+)(?:\((?P<given>.*)\)(?P<asks>\?)?)?")
HEAD = re.compile(r".*?fn \w+(?:<[^(]*>)?\((.*?)\)(?: -> (.*))?")

# A law on the page, with its words; a statement in the specs; and a function that proves one, with
# its comment. And where the page speaks of the laws of cuts.
LAW = re.compile(r"^\| `(\w+)` \| (.*) \|$", re.MULTILINE)
STATEMENT = re.compile(r"^abbrev pub (\w+) : Type 0$", re.MULTILINE)
FILES_OF_LAWS = ("Laws.antt", "KeyLaws.antt", "LawsOverEvents.antt", "Cuts.antt")
PROVED = re.compile(r"((?:///.*\n)+)pub fn \w+\(\)\n *ensures \{ (\w+) \}")
CUT_TITLE = "## Why a cut changes nothing"

# How the race begins that shows a row of the table of races. The last row is shown by asks.rt.
RACES = {
    "one signs in pieces, another destroys the key":
        "A key is destroyed before the last piece of a signature",
    "one signs in pieces, another logs out": "A logout ends the operations of all sessions.",
    "one signs in pieces, another deactivates the key":
        "A key that was deactivated does not sign",
    "one verifies in pieces, another deactivates the key":
        "A key that was deactivated still verifies.",
    "one signs a long message, another cancels it and starts again":
        "C_SessionCancel ends the signature of a long message",
    "one signs a long message, another closes the session":
        "The session is closed while a long message is signed",
    "two add pieces to one digest or one signature":
        "Two callers in one session: a signature in pieces",
    "four search on in one search":
        "Four callers in one session: each handle of a search goes to one of them.",
    "eight log in with a wrong PIN": "Three tries of a PIN, whoever makes them, lock it.",
    "eight open sessions where two more may be open":
        "At most 64 sessions, whoever opens them.",
}
ASKING = "one logs in, another asks without the lock"
REPLY = re.compile(r"^(\d+) .* -> (.*)$", re.MULTILINE)

# Numbers on pages that are constants: the page, the words with the number, and where the constant
# stands. One of C in a function stands behind the function's name.
NUMBERS_ON_PAGES = [
    ("../README.md", r"also from up to (\w+) threads", "ck_journal/src/calls.rt", "MOST_CALLERS"),
    ("threads.md", r"among at most (\w+) callers", "ck_journal/src/calls.rt", "MOST_CALLERS"),
    ("threads.md", r"A call with (\S+) bytes of a message or more", "ck_journal/src/calls.rt",
     "LONG_MESSAGE"),
    ("architecture.md", r"where the call brings (\S+) bytes or more", "ck_journal/src/calls.rt",
     "LONG_MESSAGE"),
    ("architecture.md", r"A call that brings (\S+) bytes or more", "ck_journal/src/calls.rt",
     "LONG_MESSAGE"),
    ("architecture.md", r"A message of fewer than (\S+) bytes is", "ck_journal/src/calls.rt",
     "LONG_MESSAGE"),
    ("architecture.md", r"looks for the lock (\w+) times", "ck_shared/src/shared.rt", "LOOKS"),
    ("architecture.md", r"in four ways, a (\w+) times each", "ck_races/src/runs.rt", "RUNS"),
    ("architecture.md", r"has the lock for (\w+) milliseconds", "ck_races/src/gates.rt", "HELD"),
    ("architecture.md", r"takes less than (\w+) milliseconds of processor time",
     "ck_races/src/sleeping.rt", "MOST_TIME"),
    ("architecture.md", r"milliseconds of processor time, in one of (\w+) tries",
     "ck_races/src/sleeping.rt", "TRIES"),
    ("architecture.md", r"one caller adds (\w+) messages of", "ck_races/src/free_locks.rt",
     "MESSAGES"),
    ("architecture.md", r"adds thirty messages of (\S+) bytes", "ck_races/src/free_locks.rt",
     "LENGTH"),
    ("architecture.md", r"the lock at least (\S+) times", "ck_races/src/free_locks.rt",
     "LEAST_LOCKS"),
    ("architecture.md", r"ten messages of (\S+) bytes", "ck_races/src/behind_calls.rt", "LENGTH"),
    ("architecture.md", r"In at least one of (\w+) tries all of this takes less",
     "ck_races/src/behind_calls.rt", "TRIES"),
    ("architecture.md", r"taken in before (\w+) calls of another caller",
     "ck_races/src/behind_calls.rt", "CALLS_BETWEEN"),
    ("recorded_runs.md", r"Of a long text the first (\w+) characters are shown",
     "ck_cases/src/shown.rt", "MOST_SHOWN"),
    ("recorded_runs.md", r"At most (\w+) lines of a file are named", "../tests/recorded_runs.py",
     "MOST_NAMED"),
    ("rules.md", r"A PIN that is set has (\w+) to 64 bytes", "ck_types/src/pins.rt",
     "SHORTEST_PIN"),
    ("rules.md", r"A PIN that is set has 4 to (\w+) bytes", "ck_types/src/pins.rt", "LONGEST_PIN"),
    ("rules.md", r"Its value has 1 to (\w+) bytes", "ck_objects/src/templates.rt", "LONGEST_KEY"),
    ("laws.md", r"a user's PIN are never more than (\w+)\.", "ck_types/src/pins.rt", "MOST_TRIES"),
    ("module.md", r"After (\w+) wrong tries of the user's PIN", "ck_types/src/pins.rt",
     "MOST_TRIES"),
    ("rules.md", r"and each piece, has at most (\S+) bytes", "ck_journal/src/operations.rt",
     "LONGEST_PIECE"),
    ("rules.md", r"is its number plus (\S+) for each login", "ck_journal/src/views.rt",
     "HANDLES_PER_LOGIN"),
    ("script.md", r"A line has at most (\S+) bytes", "ck_script/src/lines.rt", "LONGEST_LINE"),
    ("script.md", r"come to its end in (\S+) reads", "ck_plays/src/plays.rt", "MOST_READS"),
    ("script.md", r"A name of at most (\w+) bytes is near", "ck_script/src/similar_names.rt",
     "LONGEST_TEXT"),
    ("architecture.md", r"After the first (\w+) of these looks", "ck_shared/src/shared.rt",
     "QUICK_LOOKS"),
    ("architecture.md", r"lets others run (\w+) times, and after", "ck_shared/src/shared.rt",
     "YIELDS"),
    ("architecture.md", r"the module's own mutex (\w+) times at once", "../module/locking.c",
     "take_quickly LOOKS"),
    ("architecture.md", r"and then at most (\w+) times", "../module/locking.c",
     "take_slowly LOOKS"),
    ("architecture.md", r"others run for (\S+) ticks", "../module/locking.c",
     "let_others_run TICKS"),
    ("architecture.md", r"no more looks after (\S+) ticks", "../module/locking.c",
     "take_slowly MOST_TICKS"),
    ("architecture.md", r"A message of (\S+) bytes or more is taken in while", "../module/works.c",
     "SHORTEST_LONG_MESSAGE"),
    ("module.md", r"or a piece of one, of (\S+) bytes or more is", "../module/works.c",
     "SHORTEST_LONG_MESSAGE"),
    ("module.md", r"a journal in memory of (\S+) entries or more is cut", "../module/calls.c",
     "cut_from"),
    ("module.md", r"and more than (\S+) attributes are", "../module/calls.c", "most_attributes"),
    ("module.md", r"A value of more than (\S+) bytes", "../module/calls.c", "longest_value"),
    ("module.md", r"asks the token for (\S+) handles at a time", "../module/searches.c",
     "most_handles"),
    ("module.md", r"one more than may be: (\w+) of a PIN", "../module/module.h",
     "LONGEST_PIN + 1"),
    ("module.md", r"one more than may be: (\w+) of a PIN or a signature", "../module/module.h",
     "LONGEST_SIGNATURE + 1"),
    ("module.md", r"or a signature, (\w+) of a mechanism's parameter", "../module/module.h",
     "LONGEST_PARAMETER + 1"),
    ("module.md", r"parameter, (\S+ \+ 1) of a single-part message", "../module/module.h",
     "LONGEST_MESSAGE + 1"),
    ("module.md", r"An update of more than (\S+) bytes goes", "../module/module.h",
     "LONGEST_MESSAGE"),
    ("module.md", r"goes to the token in pieces of ([^ ,]+)", "../module/module.h",
     "LONGEST_MESSAGE"),
    ("module.md", r"a call whose line would be longer than (\S+) bytes", "../module/module.h",
     "LONGEST_LINE"),
    ("module.md", r"the (\S+) bytes that a line may have", "../module/module.h", "LONGEST_LINE"),
    ("module.md", r"gives of an HMAC keys of 1 to (\S+) bytes", "../module/module.h",
     "LONGEST_KEY"),
    ("module.md", r"PINs of (\w+) to 64 bytes", "../module/module.h", "SHORTEST_PIN"),
    ("module.md", r"PINs of 4 to (\w+) bytes", "../module/module.h", "LONGEST_PIN"),
    ("module.md", r"No memory has (\S+) bytes", "../module/module.h", "LONGEST_MEMORY"),
    ("DECISIONS.md", r"A journal lies in segments of (\S+) entries",
     "ck_journal/src/entry_lists.rt", "SEGMENT"),
    ("architecture.md", r"the long messages come behind (\S+) short calls",
     "ck_races/src/shared_work.rt", "SHORT_CALLS"),
    ("architecture.md", r"a label of 8 bytes takes some (\S+) bytes", "../tests/program.py",
     "BYTES_OF_OBJECT"),
    ("architecture.md", r"and the entry of its creation some (\d+)", "../tests/program.py",
     "BYTES_OF_CREATION"),
    ("module.md", r"each call adds an entry of (\w+) bytes", "../tests/program.py",
     "BYTES_OF_ENTRY"),
    ("proofs.md", r"less than (\w+) times as long as \w+ digests of", "../tests/speed.py",
     "MOST_OF_DIGESTS"),
    ("proofs.md", r"times as long as (\w+) digests of", "../tests/speed.py", "DIGESTS"),
    ("proofs.md", r"times as long as \w+ digests of (\S+) bytes", "../tests/speed.py", "LENGTH"),
    ("proofs.md", r"templates of (\S+) items in each call", "ck_run/src/tests/long_lines.rt",
     "MANY"),
    ("proofs.md", r"(\S+) queries in one call", "ck_run/src/tests/long_lines.rt", "MANY"),
    ("proofs.md", r"cuts of (\S+) entries and", "ck_run/src/tests/large_sizes.rt", "CUT"),
    ("proofs.md", r"entries and with (\S+) objects, one of them", "ck_run/src/tests/large_sizes.rt",
     "KEPT"),
    ("proofs.md", r"audits behind (\S+) sessions", "ck_run/src/tests/large_sizes.rt", "VISITS"),
    ("proofs.md", r"(\S+) handles of one search", "ck_run/src/tests/large_sizes.rt", "FOUND"),
    ("proofs.md", r"room for (\S+) entries, and for", "ck_run/src/tests/large_sizes.rt",
     "RESERVED"),
    ("proofs.md", r"and a run of (\S+) calls", "ck_run/src/tests/large_sizes.rt", "CALLS"),
    ("proofs.md", r"with each mechanism and behind (\S+) calls",
     "ck_run/src/tests/long_messages.rt", "EARLIER_CALLS"),
    ("proofs.md", r"answered as they should be behind (\S+) calls", "../tests/program.py", "MANY"),
    ("proofs.md", r"calls, (\S+) sessions and (?:\S+) objects", "../tests/program.py",
     "MANY_SESSIONS"),
    ("proofs.md", r"sessions and (\S+) objects", "../tests/program.py", "MANY_SESSIONS * 2"),
    ("proofs.md", r"takes less than a (\w+) of one by another", "../tests/speed.py", "LABEL_PART"),
    ("proofs.md", r"take more than (\w+) and less", "../tests/speed.py", "LEAST_GROWTH"),
    ("proofs.md", r"and less than (\w+) times as long", "../tests/speed.py", "MOST_GROWTH"),
]

# Numbers that pages write as words.
NUMBER_WORDS = {"two": 2, "twice": 2, "three": 3, "third": 3, "four": 4, "five": 5, "eight": 8,
                "ten": 10, "eleven": 11, "thirty": 30, "hundred": 100}

# A change of a constant, such as one more.
CHANGED = re.compile(r"(.*?)(?: ([+*]) (\d+))?")

# Constants of Python, one or more in a line.
CONSTANTS_IN_PYTHON = re.compile(
    r"^([A-Z_]+(?:, [A-Z_]+)*) = ([\d_]+(?:, [\d_]+)*)$", re.MULTILINE)

# Functions that the module doesn't support, as its page counts them, and their names.
KINDS_OF_FUNCTIONS = [
    (r"the (\d+) that encrypt and decrypt", r"C_(?:En|De)crypt(?:|Init|Update|Final)"),
    (r"the (\d+) that do two operations", r"C_[A-Z][a-z]+(?:Digest|Encrypt|Verify)Update"),
    (r"the (\d+) of signatures with recovery", r"C_\w+Recover(?:|Init)"),
    (r"the (\d+) message-based ones", r"C_\w*Message\w*"),
]
UNSUPPORTED = re.compile(
    r"^CK_RV (C_\w+)\([^{]*\{\n    return refuse\(CKR_FUNCTION_NOT_SUPPORTED\);", re.MULTILINE)

# A definition that a file of definitions names: its crate and the rest of its path.
NAMED_DEFINITION = re.compile(r"use Rattle\.(ck_\w+)\.specs\.([\w.]+)")

# The constant of a flag of the token; a user's wrong tries by which a flag is set; and a range of a
# limit.
FLAG = re.compile(r"const (\w+) = 0x([0-9a-f]+);")
WRONG_TRIES = re.compile("(the user|the security officer) has ([0-9]) wrong tr(?:y|ies)( or more)?")
RANGE = re.compile(rb"(\d+) to (\d+)")

# A login of each user by a wrong PIN and by the right one. And each call that counts tries back,
# behind calls that leave each user one wrong try.
WRONG_LOGIN = {"the user": "1 Login 1 1 39393939", "the security officer": "1 Login 1 0 39393939"}
RIGHT_LOGIN = {"the user": USER[5], "the security officer": USER[2]}
BOTH_WRONG = [*WRONG_LOGIN.values()]
WRONG_OLD_PIN = [WRONG_LOGIN["the user"], USER[2], "1 SetPIN 1 39393939 31323334"]
COUNTING_BACK = {
    "C_Login of the user": (BOTH_WRONG, USER[5]),
    "C_Login of the security officer": (BOTH_WRONG, USER[2]),
    "C_SetPIN of the user's PIN": (BOTH_WRONG, "1 SetPIN 1 75736572 75736572"),
    "C_SetPIN of the security officer's PIN": (WRONG_OLD_PIN, "1 SetPIN 1 31323334 31323334"),
    "C_InitPIN": (WRONG_OLD_PIN, USER[3]),
    "C_InitToken": ([*BOTH_WRONG, "1 CloseSession 1"], USER[0]),
}

# Calls of which the last one is beyond a limit of 1, for each limit.
BEYOND = [
    [*USER[:2], "1 OpenSession 6"],
    [*USER[:2], "1 CloseSession 1", "1 OpenSession 6"],
    [*USER[:2], *["1 CreateObject 1 0=0000000000000000"] * 2],
    [*USER, "1 Logout 1", USER[5]],
]

# Queries of a sensitive key with a label of two bytes, for each row of the table; and what the
# answers of the table are.
QUERIES = {
    "it is a hidden value, with or without a buffer": ["11:4", "11:?"],
    "the object doesn't have it, or the token knows no such type": ["10:8", "10:?", "999:8"],
    "no buffer is given": ["3:?"],
    "the buffer is shorter than the value": ["3:1", "3:0"],
    "else": ["3:2", "3:8"],
}
# Lengths of buffers for a digest of 32 bytes, for each row of the table of replies by the buffer;
# and what the replies of the table are.
BUFFERS = {
    "no buffer is given": ["?"],
    "the buffer is shorter than that length": ["0", "31"],
    "else": ["32", "33"],
}
BUFFER_REPLIES = {"the length of the digest or the signature": " :32", "the length": " :32",
                  "the digest or the signature": " " + hashlib.sha256(b"a").hexdigest()}
ANSWERS = {"unavailable": "!", "the length of the value": ":2", "the value": "=6162"}


def read(*names):
    with open(os.path.join(*names), encoding="utf-8") as file:
        return file.read()


def rows(tests, first):
    """The rows of the table whose head begins with these cells, as lists of cells."""
    page, count = TABLES[first]
    lines = read(DOCS, page).split("\n")
    start = next(i for i, line in enumerate(lines) if line.startswith(f"| {first} |"))
    table = []
    for line in lines[start + 2:]:
        if not line.startswith("|"):
            break
        table.append([cell.strip() for cell in line.strip().strip("|").split("|")])
    tests.expect(len(table) == count,
                 f"{page}: the table {first} has {len(table)} rows, and not {count}")
    return table


def number(text):
    """A number of the token, whose digits are hexadecimal, as an attribute's value."""
    return int(text, 16).to_bytes(8, "little").hex()


class Script:
    """Calls, each with the reply that the page wants, and how many objects they create."""

    def __init__(self):
        self.calls = []
        self.replies = []
        self.objects = 0

    def call(self, line, reply):
        self.calls.append(line)
        self.replies.append(reply)

    def prepare(self, lines):
        """Calls whose replies aren't the page's."""
        for line in lines:
            self.call(line, None)

    def create(self, line, is_private=False):
        """A call that creates an object, and its handle."""
        self.objects += 1
        handle = self.objects + (FIRST_PRIVATE if is_private else 0)
        self.call(line, f"0 {handle}")
        return handle

    def compare(self, tests):
        script = "".join(line + "\n" for line in self.calls).encode()
        output, errors, status = tests.run([], script)
        replies = output.decode().split("\n")[:-1]
        tests.expect((errors, status, len(replies)) == (b"", 0, len(self.calls)),
                     f"status {status}, {errors!r}, {len(replies)} replies")
        for line, reply, wanted in zip(self.calls, replies, self.replies):
            tests.expect(wanted in (None, reply), f"{line:.200}: {reply}, and not {wanted}")

    def play(self, tests, name):
        self.compare(tests)
        tests.end(name)


# ---- Attributes


class Attribute:
    """A row of the table of attributes."""

    def __init__(self, cells):
        self.type, _, self.form, data, data_else, key, key_else = cells
        self.templates = {"data": data.split(), "key": key.split()}
        created, _, generated = key_else.partition(" / ")
        self.unless = {"data": data_else, "key": created, "generated": generated or created}

    def is_of(self, kind):
        return self.templates[kind] != ["-"]

    def value(self, kind):
        """A value of the attribute's form, of a flag the one that it doesn't have by itself."""
        if self.form == "class":
            return "0000000000000000" if kind == "data" else "0400000000000000"
        if self.form == "flag":
            return "00" if self.unless[kind] == "true" else "01"
        return VALUES[self.form]

    def code(self, kind, letter):
        """The code of a template of this purpose that gives the attribute, else None."""
        if not self.is_of(kind):
            return "12"
        return None if letter in self.templates[kind] else "10"


def template(*items):
    """A template of these items, the later of two of one type counting."""
    given = dict(item.split("=") for item in items)
    return ",".join(f"{kind}={value}" for kind, value in given.items())


def creation(kind, *items):
    """A call that creates a public object of this kind."""
    base = [DATA] if kind == "data" else [KEY_CLASS, KEY_TYPE, KEY_VALUE]
    return f"1 CreateObject 1 {template(*base, PUBLIC, *items)}"


def generation(*items):
    return f"1 GenerateKey 1 350 {template('161=0400000000000000', PUBLIC, *items)} 00010203"


def give(script, attribute, kind, letter, call):
    """A template of this purpose that gives the attribute, which the object then has."""
    value = attribute.value(kind)
    line = call(f"{attribute.type}={value}")
    code = attribute.code(kind, letter)
    if code:
        script.call(line, code)
    elif letter == "S":
        script.call(line, "0")
    else:
        handle = script.create(line, attribute.type == "2" and value == "01")
        script.call(f"1 GetAttributeValue 1 {handle} {attribute.type}:16", f"0 ={value}")


def give_all_ways(script, attribute, kind):
    handle = script.create(creation(kind))
    calls = {"C": lambda item: creation(kind, item),
             "P": lambda item: f"1 CopyObject 1 {handle} {item}",
             "S": lambda item: f"1 SetAttributeValue 1 {handle} {item}"}
    if kind == "key":
        calls["G"] = generation
    for letter, call in calls.items():
        give(script, attribute, kind, letter, call)
        if attribute.is_of(kind):
            for value in BAD_VALUES[attribute.form]:
                script.call(call(f"{attribute.type}={value}"), "13")


def attributes(tests):
    script = Script()
    script.prepare(USER)
    for cells in rows(tests, "type | name"):
        for kind in ("data", "key"):
            give_all_ways(script, Attribute(cells), kind)
    script.play(tests, "which templates an attribute may stand in, and its forms")


def unknown_attributes(tests):
    script = Script()
    script.prepare(USER)
    known = {int(cells[0], 16) for cells in rows(tests, "type | name")}
    for unknown in sorted(set(ATTRIBUTE_TYPES) - known):
        for kind in ("data", "key"):
            script.call(creation(kind, f"{unknown:x}=00"), "12")
    script.play(tests, "attributes that aren't in the table")


def value_of(attribute, kind):
    """The value that the table says, in an object of this kind that was made of what it wants."""
    unless = attribute.unless[kind]
    if unless == "required":
        return MADE_OF[kind][attribute.type]
    if unless == "computed":
        return COMPUTED[attribute.type]
    return WORDS.get(unless) or number(unless)


def values(tests):
    script = Script()
    script.prepare(USER)
    made = {
        "data": script.create(f"1 CreateObject 1 {DATA}"),
        "key": script.create(f"1 CreateObject 1 {KEY_CLASS},{KEY_TYPE},{KEY_VALUE}", True),
        "generated": script.create(f"1 GenerateKey 1 350 161={number('4')} {COMPUTED['11']}", True),
    }
    for cells in rows(tests, "type | name"):
        attribute = Attribute(cells)
        for kind, handle in made.items():
            is_there = attribute.is_of("data" if kind == "data" else "key")
            reply = f"0 ={value_of(attribute, kind)}" if is_there else "12 !"
            script.call(f"1 GetAttributeValue 1 {handle} {attribute.type}:16", reply)
    script.play(tests, "the values of attributes that no template gives")


# ---- Key states


def key_in(script, state):
    """A new key of this state, which is one that a new key may have, or that an active one may
    become."""
    first = state if state in ("0", "1") else "1"
    handle = script.create(creation("key", f"80000001={number(first)}"))
    if state != first:
        script.call(f"1 SetKeyState 1 {handle} {state}", "0")
    return handle


def key_states(tests):
    script = Script()
    script.prepare(USER)
    table = rows(tests, "number | state")
    names = {cells[1]: cells[0] for cells in table}
    for state, _, becomes, signs, verifies in table:
        nexts = {names[name] for name in becomes.split(", ") if name}
        for after in names.values():
            handle = key_in(script, state)
            script.call(f"1 SetKeyState 1 {handle} {after}", "0" if after in nexts else "1b")
        handle = key_in(script, state)
        for unknown in sorted(set(map(str, STATE_NUMBERS)) - set(names.values())):
            script.call(f"1 SetKeyState 1 {handle} {unknown}", "7")
        script.call(f"1 SignInit 1 251 {handle}", "0" if signs else "68")
        script.call(f"1 VerifyInit 1 251 {handle}", "0" if verifies else "68")
        script.call("1 SessionCancel 1 2800", "0")
    script.play(tests, "key states")


# ---- Mechanisms and sessions


def mechanisms(tests):
    script = Script()
    script.prepare(USER)
    key = script.create(creation("key"))
    types = [GENERATION[0]]
    for _, digest, mac, general, length in rows(tests, "hash function (FIPS 180-4)"):
        digest, mac, general = (cell.split()[0] for cell in (digest, mac, general))
        types += [digest, mac, general]
        script.call(f"1 DigestInit 1 {digest}", "0")
        script.call("1 DigestFinal 1 ?", f"0 :{length}")
        for mechanism, size in ((mac, length), (f"{general}:{number('3')}", "3"),
                                (f"{general}:{int(length).to_bytes(8, 'little').hex()}", length)):
            script.call(f"1 SignInit 1 {mechanism} {key}", "0")
            script.call("1 SignFinal 1 ?", f"0 :{size}")
            script.call("1 SessionCancel 1 800", "0")
        for parameter in (":" + number("0"), f":{(int(length) + 1).to_bytes(8, 'little').hex()}",
                          ""):
            script.call(f"1 SignInit 1 {general}{parameter} {key}", "71")
        script.call("1 SessionCancel 1 400", "0")
    script.call("1 GetMechanismList", "0 " + ",".join(sorted(types)))
    script.play(tests, "mechanisms")


def session_states(tests):
    script = Script()
    script.prepare(["1 InitToken 31323334", "1 OpenSession 6", "1 Login 1 0 31323334",
                    "1 InitPIN 1 75736572", "1 Logout 1"])
    logins = {"nobody": [], "the user": ["1 Login 1 1 75736572"],
              "the security officer": ["1 CloseSession {only}", "1 Login 1 0 31323334"]}
    table = rows(tests, "login | read-only session")
    tests.expect([cells[0] for cells in table] == [*logins], f"the logins are not {[*logins]}")
    for only, (lines, (_, read_only, read_write)) in enumerate(zip(logins.values(), table), 2):
        script.call("1 OpenSession 4", f"0 {only}")
        script.prepare([line.format(only=only) for line in lines])
        state = read_only.split()[0]
        script.call(f"1 GetSessionInfo {only}", f"0 {state} 4" if state.isdigit() else "b3")
        script.call("1 GetSessionInfo 1", f"0 {read_write.split()[0]} 6")
        script.prepare(["1 Logout 1", f"1 CloseSession {only}"])
    script.play(tests, "states of sessions")


# ---- Pieces of messages


def pieces(tests):
    longest, longer = "61" * LONGEST_PIECE, "61" * (LONGEST_PIECE + 1)
    script = Script()
    script.prepare(USER)
    key = script.create(creation("key"))
    starts = {"Digest": "1 DigestInit 1 250", "Sign": f"1 SignInit 1 251 {key}",
              "Verify": f"1 VerifyInit 1 251 {key}"}
    for kind, start in starts.items():
        end = "00" * 31 if kind == "Verify" else "32"
        script.call(start, "0")
        script.call(f"1 {kind}Update 1 {longest}", "0")
        script.call(f"1 {kind}Update 1 {longer}", "21")
        script.call(f"1 {kind}Update 1 61", "91")
        script.call(start, "0")
        script.call(f"1 {kind} 1 {longer} {end}", "21")
        script.call(f"1 {kind}Final 1 {end}", "91")
        script.call(start, "0")
        script.call(f"1 {kind}Update 1 -", "0")
        script.call(f"1 {kind} 1 {longer} {end}", "91")
        script.call(f"1 {kind}Final 1 {end}", "91")
    script.play(tests, "the longest pieces of messages")


# ---- Scripts


def calls(tests):
    for name, arguments in rows(tests, "call | arguments"):
        name, count = name.strip("`"), 0 if arguments == "none" else len(arguments.split(", "))
        said = ["no arguments", "1 argument", f"{count} arguments"][min(count, 2)]
        line = f"1 {name}" + " x" * (count + 1)
        program.check_bad_line(tests, line.encode(), f"{name} takes {said}".encode())
        near = program.NO_CALL + f", the nearest is {name}".encode()
        program.check_bad_line(tests, f"1 C_{name}x".encode(), near)
    tests.end("how many arguments each call takes, and that a name near to one's is told")


# ---- The token's flags, wrong tries, limits, and queries


def number_in(text):
    """A number as pages write it: in digits, with commas, as a power, as one less or one more than
    that, or as a word."""
    power = re.fullmatch(r"(\d+)\^(\d+)(?: ([-+]) 1)?", text)
    if power:
        return int(power[1]) ** int(power[2]) + {None: 0, "-": -1, "+": 1}[power[3]]
    digits = text.replace(",", "")
    return int(digits) if digits.isdecimal() else NUMBER_WORDS.get(text.lower())


def is_set(where, state):
    """Whether a flag that is set in this case is set in a token of this state."""
    found = WRONG_TRIES.fullmatch(where)
    if not found:
        return where == "always (own)" or state[where]
    tries = state[found[1]]
    return tries >= int(found[2]) if found[3] else tries == int(found[2])


def info_of(table, sessions=1, **changes):
    """The reply to GetTokenInfo by the table of flags, of an initialized token whose user has a
    PIN, after these changes of its state."""
    state = {"the token is initialized": True, "the user has a PIN": True, "the user": 0,
             "the security officer": 0, **changes}
    number = sum(int(cells[1], 16) for cells in table if is_set(cells[2], state))
    return f"0 {number:x} 64 {sessions} {sessions}"


def flags(tests):
    """The flags of a token without PINs, without the user's PIN, and after each wrong try; and
    their names and numbers in the code."""
    table = rows(tests, "flag | number (hexadecimal)")
    said = {(name.removeprefix("CKF_"), number) for name, number, _ in table}
    known = set(FLAG.findall(read(CRATES, "ck_types", "src", "token_flags.rt")))
    tests.expect(said == known, f"said on the page, or known, and not both: {said ^ known}")
    no_pin, new = {"the user has a PIN": False}, {"the token is initialized": False}
    script = Script()
    script.call("1 GetTokenInfo", info_of(table, 0, **no_pin, **new))
    script.prepare(USER[:2])
    script.call("1 GetTokenInfo", info_of(table, **no_pin))
    script.prepare(USER[2:5])
    script.call("1 GetTokenInfo", info_of(table))
    wrong = {}
    for user, number in itertools.product(WRONG_LOGIN, range(1, 4)):
        wrong[user] = number
        script.call(WRONG_LOGIN[user], "a0")
        script.call("1 GetTokenInfo", info_of(table, **wrong))
    script.play(tests, "flags of the token")


def tries(tests):
    """After one wrong try of each user, each call of the table counts back the tries of those in
    whose columns it stands, and of no other."""
    table = rows(tests, "the user | the security officer")
    columns = {user: {row[at] for row in table if row[at]} for at, user in enumerate(WRONG_LOGIN)}
    tests.expect(set().union(*columns.values()) == set(COUNTING_BACK), f"the calls are {columns}")
    table = rows(tests, "flag | number (hexadecimal)")
    for name, (before, call) in COUNTING_BACK.items():
        script = Script()
        script.prepare(USER[:5] + before)
        sessions = 0 if name == "C_InitToken" else 1
        script.call("1 GetTokenInfo", info_of(table, sessions, **dict.fromkeys(WRONG_LOGIN, 1)))
        script.call(call, "0")
        left = {user: int(name not in calls) for user, calls in columns.items()}
        has_pin = {"the user has a PIN": name != "C_InitToken"}
        script.call("1 GetTokenInfo", info_of(table, sessions, **left, **has_pin))
        script.compare(tests)
    tests.end("calls that count wrong tries back")


def locks(tests):
    """As many wrong tries as the page says lock a user, and then the right PIN isn't tried."""
    said = re.search(r"^- (\w+) wrong tries lock a user", read(DOCS, "rules.md"), re.MULTILINE)
    for user, login in RIGHT_LOGIN.items():
        script = Script()
        script.prepare(USER[:5])
        for _ in range(number_in(said[1]) or 0 if said else 0):
            script.call(WRONG_LOGIN[user], "a0")
        script.call(login, "a4")
        script.compare(tests)
    tests.end("how many wrong tries lock a user")


def limits(tests):
    """The ranges are those that ck_cases takes, by the text that recorded_runs.py tries. Of cases
    in which one limit is 1, and the others are the largest, it plays the call beyond it."""
    table = rows(tests, "limit | range")
    said = [[number_in(it) for it in cells[1].split(" to ")] for cells in table]
    known = [[int(it) for it in pair] for pair in RANGE.findall(recorded_runs.BAD_LIMITS)]
    tests.expect(said == known, f"the ranges are {said} on the page, and {known}")
    lines = []
    for at, (cells, calls) in enumerate(zip(table, BEYOND)):
        code = CODED.fullmatch(cells[2])
        limits_of_case = [1 if it == at else most for it, (_, most) in enumerate(known)]
        lines += ["limits " + " ".join(map(str, limits_of_case)), *calls[:-1],
                  f"{calls[-1]} -> {code and code[2]}"]
    with tempfile.TemporaryDirectory() as folder:
        path = os.path.join(folder, "limits.cases")
        with open(path, "w", encoding="ascii") as file:
            file.write("".join(line + "\n" for line in lines))
        output, errors, status = program.Tests(recorded_runs.PROGRAM).run([path], b"")
    tests.expect(status == 0 and f" {len(BEYOND)} passed" in output.decode(),
                 f"cases of limits: {output.decode()} {errors}, status {status}")
    tests.end("limits")


def buffers(tests):
    """The replies of the table's rows, to a single-part and to a final call."""
    table, known = rows(tests, "| code | reply"), known_codes()
    tests.expect({cells[0] for cells in table} == set(BUFFERS), f"the rows are not {[*BUFFERS]}")
    script = Script()
    script.prepare(USER)
    for where, code, reply in table:
        wanted = f"{known.get(code.split(' ')[0])}{BUFFER_REPLIES.get(reply)}"
        for room in BUFFERS.get(where, []):
            script.prepare(["1 DigestInit 1 250"])
            script.call(f"1 Digest 1 61 {room}", wanted)
            script.prepare(["1 SessionCancel 1 400", "1 DigestInit 1 250", "1 DigestUpdate 1 61"])
            script.call(f"1 DigestFinal 1 {room}", wanted)
            script.prepare(["1 SessionCancel 1 400"])
    script.play(tests, "replies by the buffer")


def queries(tests):
    """The answers of the table's rows with their codes; and of several faults the code is that of
    the first one in the table, in whatever order the queries are."""
    table = rows(tests, "| answer | fault")
    tests.expect({cells[0] for cells in table} == set(QUERIES), f"the rows are not {[*QUERIES]}")
    script = Script()
    script.prepare(USER)
    key = script.create(creation("key", "103=01", "3=6162"))
    faults = []
    for where, answer, fault in table:
        code = CODED.search(fault)
        for query in QUERIES.get(where, []):
            script.call(f"1 GetAttributeValue 1 {key} {query}",
                        f"{code[2] if code else 0} {ANSWERS.get(answer)}")
        faults += [(len(faults), query, code[2]) for query in QUERIES.get(where, [])[:1] if code]
    for count in (2, 3):
        for some in itertools.permutations(faults, count):
            asked = ",".join(query for _, query, _ in some)
            script.call(f"1 GetAttributeValue 1 {key} {asked},3:8",
                        f"{min(some)[2]} {'!,' * count}=6162")
    script.play(tests, "answers to queries, and their codes")


# ---- The calls, and their checks


def part_of(page, title):
    """What stands below a title of a page, up to the next title."""
    _, _, rest = read(DOCS, page).partition(f"\n{title}\n")
    return rest.partition("\n#")[0]


def known_codes():
    """The number of each code, by its name."""
    texts = read(CRATES, "ck_run", "src", "tests", "texts.rt")
    return {name: code for code, name in CODE.findall(texts)}


def codes_of_template(purpose):
    """The codes of the checks of a template that does this, in their order."""
    said = re.sub(r"\([^()]*\)", "", part_of("rules.md", "## Checks of templates"))
    _, *parts = FRONT.split(said)
    return [known_codes().get(name) for front, text in zip(parts[::2], parts[1::2])
            if front in TEMPLATES[purpose] for name in CODE_NAME.findall(text)]


def codes_in_rules(tests, text):
    """The codes that these rules of a call name, in their order."""
    known = known_codes()
    queries = [CODED.search(cells[2]) for cells in rows(tests, "| answer | fault")]
    for found in CHECK.finditer(" ".join(text.split())):
        if found["purpose"]:
            yield from codes_of_template(found["purpose"])
        elif found["buffer"]:
            yield known["CKR_BUFFER_TOO_SMALL"]
        elif found["queries"]:
            yield from (it[2] for it in queries if it)
        else:
            tests.expect(known.get(found["name"]) == found["code"], f"rules.md: {found[0]}")
            yield found["code"]


def without_repeats(codes):
    """The codes, where each that follows itself counts once: two checks of a list may have one."""
    return [code for code, _ in itertools.groupby(codes)]


def codes_on_page(checks):
    """The codes of each call, in the order of its checks. The first one of a call that names a
    session is said of all of them."""
    _, *parts = CALL.split(part_of("rules.md", "## The calls"))
    codes = {}
    for name, given, text in zip(parts[::3], parts[1::3], parts[2::3]):
        numbers = re.findall(r"^(\d+)\. ", text, re.MULTILINE)
        checks.expect(numbers == [str(it + 1) for it in range(len(numbers))],
                     f"{name}: the checks have the numbers {numbers}")
        first = ["b3"] if (given or "").split(", ")[0] == "session" else []
        codes[name] = without_repeats(first + [*codes_in_rules(checks, text)])
    return codes


def codes_in_comment(text, name):
    """The codes that a comment names, in their order: first with its name, and then by itself. What
    is said `of a signature` isn't said of another call."""
    text = re.sub("of a signature (.*?);", r"\1;" if name.startswith("Sign") else "", text)
    named = {code for _, code in CODED.findall(text)}
    codes = [found[2] or found[0] for found in CODED_AGAIN.finditer(text)]
    return without_repeats(code for code in codes if code in named)


def codes_in_code():
    """The codes of each call by the comment of the function that decides it. One that isn't of the
    standard goes by the function's name."""
    codes = {}
    for path in sorted(glob.glob(os.path.join(CRATES, "ck_token", "src", "tokens", "*.rt"))):
        for comment, function in DECISION.findall(read(path)):
            found = CHECKED.search(" ".join(comment.replace("///", " ").split()))
            if found:
                own_name = function.title().replace("_", "")
                for name in OF_CALL.findall(found[1]) or [own_name]:
                    codes[name] = codes_in_comment(found[2] or "", name)
    return codes


def codes_recorded():
    """The codes with which each call is answered in the cases."""
    codes = {}
    for path in glob.glob(os.path.join(CRATES, "ck_cases", "data", "*.cases")):
        for name, code in RECORDED.findall(read(path)):
            codes.setdefault(name, set()).add(code)
    return codes


def checks_of_calls(tests):
    """The page has the checks of each call in the order in which the comment of its decision has
    them, and each code is that of a case. Those of pieces that are too long are played below."""
    page, code, recorded = codes_on_page(tests), codes_in_code(), codes_recorded()
    names = {name.strip("`") for name, _ in rows(tests, "call | arguments")}
    tests.expect(set(page) == names, f"said in one page only: {set(page) ^ names}")
    tests.expect(set(code) == names - {UNDECIDED}, f"said, or decided: {set(code) ^ names}")
    for name, said in page.items():
        decided = code.get(name, [])
        tests.expect(said == decided, f"{name}: {said} on the page, {decided} in the code")
        others = recorded.get(name, set()) ^ {"0", *said}
        tests.expect(others <= {"21"}, f"{name}: on the page, or in a case, and not both: {others}")
    tests.end("the checks of each call on the page of rules")


def arguments(tests):
    """Each row of the table of arguments: texts that it allows are read, and others aren't, with
    their reasons."""
    table = rows(tests, "argument | text")
    said, known = dict(table), {name: text for name, (text, *_) in ARGUMENTS.items()}
    tests.expect(said == known, f"the page, or what is played: {said.items() ^ known.items()}")
    script = Script()
    for _, lines, good, bad in ARGUMENTS.values():
        for line in lines:
            script.prepare([line.format(text) for text in good])
            for text, reason in bad.items():
                program.check_bad_line(tests, line.format(text).encode(), reason)
    script.play(tests, "how arguments are written")


def replies(tests):
    """Each row of the table of replies, by calls that are answered so."""
    said = dict(rows(tests, "what comes with the code | text after the code"))
    known = {name: text for name, (text, _) in REPLIES.items()}
    tests.expect(said == known, f"the page, or what is played: {said.items() ^ known.items()}")
    page = " ".join(read(DOCS, "script.md").split())
    tests.expect(LETTERS in page, f"the page of scripts doesn't say: {LETTERS}")
    script = Script()
    for _, calls in REPLIES.values():
        for line, reply in calls.items():
            script.call(line, reply)
    script.play(tests, "how replies are written")


def order_of_faults(checks):
    """The faults of a line in the order of the page, which names some by their table."""
    _, _, said = read(DOCS, "script.md").partition("one is named, the first in this order:\n\n")
    table = rows(checks, "what is wrong | text")
    for item in re.findall(r"^\d\. (.*)[;.]$", said.partition("\n\n")[0], re.MULTILINE):
        next_rows = re.search(r"of the table's next (\w+) ", item)
        count = number_in(next_rows[1]) if next_rows else None
        yield from [cells[0] for cells in table[1:count + 1]] if count else item.split(", ")


def faulty_line(faults):
    """A line with these faults, or none where no line has all of them."""
    if len({*faults} & {"the caller", "a caller above N"}) == 2:
        return None
    parts = {"front": b"", "mark": b"", "caller": b"1", "gap": b" ", "name": b"Login",
             "between": b" ", "first": b"1", "rest": b" 1 31", "more": b"", "end": b""}
    for fault in faults:
        parts.update(FAULTS[fault][1])
    if "fewer than two words" in faults:
        if {*faults} & {"the call's name", "the count of its arguments", "the first bad argument"}:
            return None
        parts["gap"] = parts["gap"].replace(b" ", b"")
        parts["between"] = parts["between"][1:]
    return b"".join(parts.values())


def faults_of_lines(tests):
    """Of each two faults of a line the one is named that comes first on the page."""
    order = list(order_of_faults(tests))
    tests.expect(sorted(order) == sorted(FAULTS), f"the faults are {order}")
    for faults in itertools.combinations(order, 2):
        line = faulty_line(faults) if {*faults} <= {*FAULTS} else None
        is_above = "a caller above N" in faults
        if line:
            tests.check(["--callers", "2"] if is_above else [], b"1 InitToken 31323334\n" + line,
                        b"" if is_above else b"0\n",
                        *program.bad_script(2, FAULTS[faults[0]][0]))
    tests.end("which of two faults of a line is named")


# ---- What pages say that is said elsewhere


def codes(tests):
    """The codes are those of the tests in the crate ck_run."""
    said = {(code.strip("`"), name.split()[0]) for code, name in rows(tests, "code | name")}
    known = {(code, name) for name, code in known_codes().items() if name not in UNANSWERED}
    tests.expect(said == known, f"said on the page, or known, and not both: {said ^ known}")
    tests.end("return codes on the page of scripts")


def reasons(tests):
    """The reasons are those that program.py tries."""
    table = rows(tests, "what is wrong | text")
    said = {reason for _, reasons in table for reason in QUOTED.findall(reasons)}
    tried = {reason.decode() for reason in program.REASONS}
    tests.expect(said == tried, f"said on the page, or tried, and not both: {said ^ tried}")
    tests.end("reasons of bad lines on the page of scripts")


def statuses(tests):
    """The statuses, with what is on standard error, are those that program.py tries."""
    said = [(int(status), "".join(QUOTED.findall(errors)).replace("line N", "line 2"))
            for status, _, errors in rows(tests, "status | when | line on standard error")]
    tried = [(status, errors.decode().rstrip("\n")) for errors, status in program.ENDS]
    tests.expect(said == [*tried, UNTRIED], f"{said}, and not {tried} and {UNTRIED}")
    tests.end("statuses on the page of scripts")


def statuses_of_cases(tests):
    """Each end of ck_cases that can be made has the status of the row that speaks of it."""
    table = rows(tests, "status | when")
    cases = program.Tests(recorded_runs.PROGRAM)
    for what, words, text in ENDS_OF_CASES:
        with tempfile.TemporaryDirectory() as folder:
            with open(os.path.join(folder, "t"), "wb") as file:
                file.write(text)
            _, _, status = cases.run(words, b"", cwd=folder)
        said = [cells[0] for cells in table if what in cells[1]]
        tests.expect(said == [str(status)], f"{what}: {said} on the page, and {status}")
    tests.end("statuses on the page of recorded runs")


def columns_of_mechanisms(table):
    """The numbers and the names of the mechanisms of each kind."""
    columns = [[row[kind].split() for row in table] for kind in (1, 2, 3)]
    for column in [*columns, [GENERATION]]:
        numbers, names = zip(*column)
        yield [*numbers], [name.removeprefix("CKM_") for name in names]


def names_of_mechanisms(tests):
    """The page of programs has the same names and numbers as that of rules, and so has the code."""
    columns = list(columns_of_mechanisms(rows(tests, "hash function (FIPS 180-4)")))
    said = [row for row in rows(tests, "name | the standard's") if row[1].startswith("CKM_")]
    tests.expect(len(said) == len(columns), f"{len(said)} rows of mechanisms")
    for (names, standard, numbers), (known_numbers, known) in zip(said, columns):
        shown = [known[0], known[-1]] if ".." in names else known
        tests.expect((QUOTED.findall(names), standard.split()[0], numbers.split(", ")) ==
                     (shown, f"CKM_{known[0]}", known_numbers), f"{names}: {numbers}")
    constants = MECHANISM.findall(read(CRATES, "ck_types", "src", "mechanism_numbers.rt"))
    known = {pair for numbers, names in columns for pair in zip(names, numbers)}
    tests.expect(set(constants) == known, f"mechanism_numbers.rt: {set(constants) ^ known}")
    tests.end("names of mechanisms on the page of programs")


def number_of(value, known):
    """The number of a constant's text: a number, a shift of one, or names joined by bars. None
    where it is another text."""
    names = value.split(" | ")
    if known.keys() >= {*names}:
        return sum(known[name] for name in names)
    found = re.fullmatch(r"(0x[0-9a-f]+|[0-9]+)(?: << ([0-9]+))?", value.replace("_", ""))
    return int(found[1], 0) << int(found[2] or 0) if found else None


def constants_in_c(text):
    """The constants of a file of C, by their names. That of a function stands behind its name."""
    known, function = {}, ""
    for line in text.split("\n"):
        begins = FUNCTION_IN_C.match(line)
        if begins or line == "}":
            function = begins[1] + " " if begins else ""
        for name, value in DEFINED_IN_C.findall(line) + CONSTANT_IN_C.findall(line):
            known[function + name] = number_of(value, known)
    return known


def constants_of(path):
    """The constants of a file, by their names."""
    text, known = read(CRATES, *path.split("/")), {}
    if path.endswith((".c", ".h")):
        return constants_in_c(text)
    if path.endswith(".py"):
        return {name: int(value)
                for names, values in CONSTANTS_IN_PYTHON.findall(text)
                for name, value in zip(names.split(", "), values.split(", "))}
    for name, value in CONSTANT.findall(text):
        known[name] = number_of(value, known)
    return known


def named_numbers():
    """The numbers of the names that programs give to calls: of constants, and of variants."""
    known = {}
    for path in NAMED:
        known.update(constants_of(path))
        for name, value in VARIANT.findall(read(CRATES, *path.split("/"))):
            known.setdefault(name, number_of(value, known))
    return known


def names_of_arguments(tests):
    """The rows of names that aren't mechanisms have the standard's names and numbers, and those of
    the code."""
    known, table = named_numbers(), rows(tests, "name | the standard's")
    said = [cells for cells in table if re.match("CK[UFOK]_", cells[1])]
    tests.expect(len(said) == 5, f"{len(said)} rows of names with numbers")
    for names, standard, numbers in said:
        names = [name.split("::")[-1] for name in QUOTED.findall(names)]
        numbers = [int(it, 16) for it in numbers.split(" (")[0].split(", ")]
        wanted = [known.get(name) for name in names]
        tests.expect(wanted in (numbers, numbers * 2), f"{names}: {numbers}, and not {wanted}")
        of_standard = [STANDARD.get(it) for it in standard.split(", ")]
        tests.expect(of_standard == numbers, f"{standard}: {numbers}, and not {of_standard}")
    tests.end("names and numbers on the page of programs")


def contracts_of_functions():
    """The functions with contracts: what each does, and the lines of its contract."""
    return {name: (what, lines)
            for path in glob.glob(os.path.join(CRATES, "*", "src", "**", "*.rt"), recursive=True)
            for name, what, lines in contracts.contracts_in(path)}


def head_of(lines):
    """The names of what a function is given except itself, and whether it gives a result."""
    given, result = HEAD.match(" ".join(" ".join(lines).split())).groups()
    given = [it.split(":")[0] for it in re.split(r",\s*", given.strip(" ,")) if it]
    return ([it for it in given if not it.endswith("self")], (result or "").startswith("Result<"))


def likeness(first, second):
    """How many words two texts have in common, of those that one of them has."""
    first, second = ({*re.findall(r"\w+", text.lower())} for text in (first, second))
    return len(first & second) / len(first | second)


def exchanged(described):
    """The names of each two that seem to have each other's words, of words on a page and in the
    code by names: with these exchanged they would be no less alike."""
    for (one, words), (other, others) in itertools.combinations(described.items(), 2):
        now = likeness(*words) + likeness(*others)
        if now <= likeness(words[0], others[1]) + likeness(others[0], words[1]):
            yield one, other


def functions_of_programs(tests):
    """The functions of the page have contracts, are given as many arguments as are shown, and give
    a result where a question mark stands. And no two rows seem to have each other's words."""
    functions, owner, described = contracts_of_functions(), "", {}
    for names, makes in rows(tests, "function | makes"):
        comments = []
        for shown in QUOTED.findall(names):
            found = SHOWN.fullmatch(shown)
            owner = found["owner"] or owner
            what, lines = functions.get(f"{owner}::{found['name']}", ("", None))
            tests.expect(lines, f"{shown}: there is no such function of {owner}")
            comments.append(what)
            if lines and found["given"]:
                given, is_result = head_of(lines)
                shown_given = found["given"].split(", ")
                tests.expect(len(given) == len(shown_given) and is_result == bool(found["asks"]),
                             f"{shown} is given {given}, and gives a result: {is_result}")
        described[names] = (makes, " ".join(comments))
    both = list(exchanged(described))
    tests.expect(not both, f"functions with each other's words: {both}")
    tests.end("functions on the page of programs")


def functions_besides_calls(tests):
    """The functions of the page that make no call have contracts."""
    functions = contracts_of_functions()
    for names, _ in rows(tests, "function | what it is for"):
        for shown in QUOTED.findall(names):
            tests.expect(shown in functions, f"{shown}: there is no such function")
    tests.end("functions that make no call on the page of programs")


def exports_of(crate):
    """The names that a crate gives to its users."""
    return {name for names in EXPORTED.findall(read(CRATES, crate, "src", "lib.rt"))
            for name in re.findall(r"\w+", names)}


def names_shown(cell):
    """The names in a cell: constants, functions, and types, also those that a function or a variant
    is of. Behind such a type only constants stand for themselves."""
    owner = None
    for shown in QUOTED.findall(cell):
        found = SHOWN.match(shown)
        owner = found["owner"] or owner
        if not shown.startswith("."):
            yield found["name"] if owner is None or found["name"].isupper() else owner


def names_of_programs(tests):
    """A program finds in ck_token what the page of programs names, and audits in ck_audit."""
    of_token, of_audit = exports_of("ck_token"), exports_of("ck_audit")
    cells = [cells[0] for heads in ("name | the standard's", "function | makes",
                                    "function | what it is for") for cells in rows(tests, heads)]
    for cell in cells:
        names = {*names_shown(cell)}
        given = of_audit if "of ck_audit" in cell else of_token
        tests.expect(names <= given, f"{cell}: these are not exported: {names - given}")
    tests.expect(len(cells) == 25, f"{len(cells)} rows of names and functions")
    tests.end("what ck_token exports of the page of programs")


def functions_without_ensures():
    """The public functions of libraries that have no clause `ensures`."""
    for folder in sorted(glob.glob(os.path.join(CRATES, "*", "src"))):
        if os.path.isfile(os.path.join(folder, "lib.rt")):
            for path in glob.glob(os.path.join(folder, "**", "*.rt"), recursive=True):
                lines = contracts.lines_of(path)
                for function in contracts.functions_in(lines):
                    clauses = contracts.clauses_after(lines, function.start, function.indent)
                    if function.is_public and not any(it.startswith("ensures") for it in clauses):
                        yield function.name


def functions_without_clauses(tests):
    """The functions without `ensures` are those that the page of proofs names, and as many."""
    page = " ".join(read(DOCS, "proofs.md").split())
    said = re.search(r"(\w+) public functions have no `ensures`\.(.*?)\. Unless", page)
    words = QUOTED.findall(said[2]) if said else []
    named = sorted(it.split("::")[-1] for it in words if it.split("::")[-1].islower())
    there = [it.split("::") for it in sorted(functions_without_ensures())]
    tests.expect(named == sorted(it[-1] for it in there), f"{named} on the page, and {there}")
    tests.expect(said and number_in(said[1]) == len(there), f"{said and said[1]}, and {there}")
    owners = {it.split("::")[0] for it in words}
    tests.expect(owners >= {it[0] for it in there}, f"of {owners} on the page, and {there}")
    tests.end("functions without clauses on the page of proofs")


def laws(tests):
    """The laws on the page are the statements of the specs that are proved, and so are those of
    wrong definitions. And no two laws have the words of one another: with these exchanged they
    would be more like the comments in the code."""
    statements, _, definitions = read(DOCS, "laws.md").partition("## Wrong definitions")
    words = dict(LAW.findall(statements))
    specs = {name for it in FILES_OF_LAWS
             for name in STATEMENT.findall(read(CRATES, "ck_journal", "specs", it))}
    comments = {name: comment for it in ("laws.rt", "cuts.rt")
                for comment, name in PROVED.findall(read(CRATES, "ck_journal", "src", it))}
    said = [name for name, _ in LAW.findall(statements)]
    said += [name for name in comments if f"`{name}`" in part_of("laws.md", CUT_TITLE)]
    turned = {name for name, _ in LAW.findall(definitions)}
    tests.expect(sorted(said) == sorted(comments), f"the laws on the page are {said}")
    tests.expect(turned == {*comments}, f"wrong definitions, or laws: {turned ^ {*comments}}")
    tests.expect(specs == {*comments}, f"in the specs, or proved: {specs ^ {*comments}}")
    described = {name: (words[name], comments[name]) for name in comments.keys() & words.keys()}
    both = list(exchanged(described))
    tests.expect(not both, f"laws with each other's words: {both}")
    tests.end("the page of laws")


def race_faults(what, comes, race):
    """Where a race has others than the page says: as many callers as the row begins with; the
    codes, which are the first ones by which calls of theirs are refused; how often a code comes;
    and handles, each of which comes once."""
    replies = REPLY.findall(race.partition("\ntogether")[2].partition("\nafterwards")[0])
    callers = {caller for caller, _ in replies}
    if len(callers) != (number_in(what.split(" ")[0]) or 2):
        yield f"{len(callers)} callers"
    texts = [reply for _, reply in replies]
    refused = without_repeats(it for it in texts if it.split(" ")[0] != "0")
    codes = [known_codes().get(name) for name in CODE_NAME.findall(comes)]
    if codes != refused[:len(codes)]:
        yield f"calls are refused by {refused}"
    for count, name in re.findall(r"(\w+) times (CKR_\w+)", comes):
        if texts.count(known_codes().get(name)) != number_in(count):
            yield f"{count} times {name}"
    for handle in re.findall(r"\b\d+\b", comes):
        if texts.count(f"0 {handle}") != 1:
            yield f"the handle {handle}"


def races_of_threads(tests):
    """Each row of the table of races is shown by a race of ck_races, except that of questions."""
    races = read(CRATES, "ck_races", "data", "callers.races").split("\n\n")
    table = dict(rows(tests, "what callers do at once | what comes"))
    tests.expect({*table} == {*RACES, ASKING}, f"said, or played: {table.keys() ^ RACES.keys()}")
    for what, comment in RACES.items():
        shown = [race for race in races if race.startswith(f"# {comment}")]
        tests.expect(len(shown) == 1, f"{len(shown)} races begin {comment}")
        for race in shown[:1]:
            faults = list(race_faults(what, table.get(what, ""), race))
            tests.expect(not faults, f"{what}: in the race: {faults}")
    tests.end("the table of races on the page of threads")


def body_of(path, name):
    """The lines between the braces of a function."""
    found = re.search(rf"^( *)(?:pub )?fn {name}\(.*?^\1\{{\n(.*?)^\1\}}$", read(CRATES, *path),
                      re.MULTILINE | re.DOTALL)
    return found[2] if found else ""


def sketch_of_call(tests):
    """The steps of one call stand in the code in the order of the page."""
    section = part_of("architecture.md", "## One call: decide, reserve, apply, enter")
    steps = re.findall(r"^    (\S.*?)(?: }\))?(?: +//.*)?$", section, re.MULTILINE)[:6]
    path = ("ck_token", "src", "tokens.rt")
    prepared = body_of(path, "call_after").replace("prepare(", body_of(path, "prepare"), 1)
    rest = " ".join(prepared.split())
    tests.expect(len(steps) == 6, f"the steps are {steps}")
    for step in steps:
        front = step.split(" caller")[0]
        tests.expect(front in rest, f"architecture.md: {step} doesn't come then")
        rest = rest.partition(front)[2]
    tests.end("the sketch of one call on the page of architecture")


def numbers_of_pages(tests):
    """Numbers on pages are those of constants, and the count of calls is that of their table."""
    for page, words, path, name in NUMBERS_ON_PAGES:
        found = re.search(words, " ".join(read(DOCS, page).split()))
        number = number_in(found[1]) if found else None
        name, sign, by = CHANGED.fullmatch(name).groups()
        constant = constants_of(path).get(name)
        if constant is not None and sign:
            constant = constant + int(by) if sign == "+" else constant * int(by)
        tests.expect(number is not None and number == constant,
                     f"{page}: {words}: {number}, and {name} is {constant}")
    count = re.findall(r"It has (\d+) calls", read(DOCS, "..", "README.md"))
    there = len(rows(tests, "call | arguments"))
    tests.expect(count == [str(there)], f"README.md: {count} calls, and not {there}")
    tests.end("numbers on pages that are constants")


def functions_of_module(tests):
    """The page of the module counts the functions that it doesn't support, and names the others."""
    page = " ".join(read(DOCS, "module.md").split())
    said = re.search(r"These functions answer the same: (.*?), such as C_SignMessage\.", page)[1]
    left = {*UNSUPPORTED.findall(read(CRATES, "..", "module", "unsupported.c"))}
    for words, kind in KINDS_OF_FUNCTIONS:
        of_kind = {name for name in left if re.fullmatch(kind, name)}
        count = re.search(words, said)
        tests.expect(count and int(count[1]) == len(of_kind), f"{words}: {len(of_kind)}")
        left -= of_kind
    named = {*re.findall(r"C_\w+", re.sub(r"such as C_\w+", "", said))}
    tests.expect(named == left, f"the page names {named ^ left} or doesn't")
    tests.end("functions that the module doesn't support")


def clients_of_module(tests):
    """The page of the module says how many clients are tried, and in how many threads."""
    page = " ".join(read(DOCS, "module.md").split())
    clients = read(CRATES, "..", "module", "tests", "clients.py")
    tried = len(re.findall(r'"\w+": use_', clients))
    kept = len(re.search(r"^RECORDED = \[(.*)\]", clients, re.MULTILINE)[1].split(", "))
    for words, wanted in [(r"and run (\w+) real clients", tried),
                          (r"and (\w+) of these runs are kept", kept)]:
        found = re.search(words, page)
        tests.expect(found and number_in(found[1]) == wanted, f"{words}: {wanted}")
    of_threads = read(CRATES, "..", "module", "tests", "run")
    counts = {int(number) for line in re.findall(
        r'for count in ([\d ]+);|"\$folder/thread\.so" (\d+) ', of_threads)
              for number in " ".join(line).split()}
    said = re.search(r"call from (\d+), (\d+) and (\d+) threads", page)
    tests.expect(said and [int(it) for it in said.groups()] == sorted(counts), f"threads: {counts}")
    tests.end("clients and threads of the module's tests")


def files_of_definition(path, known):
    """Adds a file of definitions to those that are known, and those that it names."""
    if path in known or not os.path.exists(path):
        return
    known.add(path)
    for crate, rest in NAMED_DEFINITION.findall(read(path)):
        parts = rest.strip(".").split(".")
        for count in range(1, len(parts) + 1):
            file = os.path.join(CRATES, crate, "specs", *parts[:count]) + ".antt"
            files_of_definition(file, known)


def lines_of_answers(tests):
    """The page of proofs says how many lines `answer` rests on: of its file, and of those that it
    names, without empty lines, comments and lines `use`."""
    known = set()
    files_of_definition(os.path.join(CRATES, "ck_journal", "specs", "Answers.antt"), known)
    lines = [line for path in known for line in read(path).split("\n")
             if line.strip() and not line.lstrip().startswith(("--", "use "))]
    said = re.search(r"ck_types: some (\S+) lines", " ".join(read(DOCS, "proofs.md").split()))
    tests.expect(said and abs(number_in(said[1]) - len(lines)) < 50, f"{len(lines)} lines")
    tests.end("lines on which answers rest")


def names_of_headings(page):
    """The names by which links lead to the headings of a page."""
    headings = re.findall(r"^#+ (.*)$", page, re.MULTILINE)
    return {re.sub(r"[^\w -]", "", heading.lower()).replace(" ", "-") for heading in headings}


def links(tests):
    """Each link leads to a file that is there, and to a heading of it."""
    count = 0
    for path in [*glob.glob(os.path.join(DOCS, "*.md")), os.path.join(DOCS, "..", "README.md")]:
        for to, heading in re.findall(r"\]\(([^)#\s]*)#?([^)\s]*)\)", read(path)):
            page = os.path.join(os.path.dirname(path), to) if to else path
            is_there = os.path.exists(page) and (
                not heading or heading in names_of_headings(read(page)))
            tests.expect(is_there, f"{path} has a link to {to}#{heading}")
            count += 1
    tests.expect(count > 100, f"{count} links")
    tests.end("links of pages")


def toolchain(tests):
    """README.md names the toolchain by what `rt version` prints of it."""
    if shutil.which("rt") is None:
        print("skipped rules: the toolchain that README.md names, since rt isn't there", flush=True)
        return
    said = subprocess.run(["rt", "version"], capture_output=True, text=True).stdout.split()
    page = read(DOCS, "..", "README.md")
    tests.expect(len(said) == 3 and f"`{said[0]}`" in page
                 and f"`{' '.join(said[1:])}`" in " ".join(page.split()), f"rt version: {said}")
    tests.end("the toolchain that README.md names")


def main(path):
    tests = program.Tests(path, "rules")
    attributes(tests)
    unknown_attributes(tests)
    values(tests)
    key_states(tests)
    mechanisms(tests)
    session_states(tests)
    pieces(tests)
    flags(tests)
    tries(tests)
    locks(tests)
    limits(tests)
    buffers(tests)
    queries(tests)
    checks_of_calls(tests)
    calls(tests)
    arguments(tests)
    replies(tests)
    faults_of_lines(tests)
    codes(tests)
    reasons(tests)
    statuses(tests)
    statuses_of_cases(tests)
    names_of_mechanisms(tests)
    names_of_arguments(tests)
    functions_of_programs(tests)
    functions_besides_calls(tests)
    names_of_programs(tests)
    functions_without_clauses(tests)
    laws(tests)
    races_of_threads(tests)
    sketch_of_call(tests)
    numbers_of_pages(tests)
    functions_of_module(tests)
    clients_of_module(tests)
    lines_of_answers(tests)
    links(tests)
    toolchain(tests)
    return tests.status()


if __name__ == "__main__":
    sys.exit(main(sys.argv[1] if len(sys.argv) > 1 else PROGRAM))
