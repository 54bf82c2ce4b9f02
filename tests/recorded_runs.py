#!/usr/bin/env python3
"""Runs the program ck_cases from outside, as its users do: its arguments, files of recorded calls,
what it writes to standard output and standard error, and its status.

The program is crates/ck_cases/out/ck_cases, which `rt ci` leaves and `rt run` in its folder builds,
or the one that is named. For each test a line is printed that begins with passed or FAILED, and the
status is 1 where one failed.
"""
import hashlib
import os
import resource
import sys
import tempfile

from program import HERE, Tests, seconds_of_programs

PROGRAM = os.path.join(HERE, "..", "crates", "ck_cases", "out", "ck_cases")

BAD_LIMITS = b"""\
limits are the word largest, or four numbers: 1 to 64 sessions open at once, \
1 to 4294967295 openings of sessions, 1 to 4294967295 creations of objects and \
1 to 2147483647 logins of the user"""

HELP = b"""\
Plays recorded PKCS #11 calls on a new token, and compares the replies

Usage: ck_cases [OPTIONS] <FILE>...

Arguments:
  <FILE>...  Files of calls and their replies

Options:
      --limits <LIMITS>  Play with the limits SESSIONS,OPENINGS,CREATIONS,LOGINS, or 'largest', in all cases
      --most <N>         Name at most N lines of a file that differ or are bad; the others are only counted [default: 100]
      --replies          Write the file with the replies that came, and nothing else
  -h, --help             Print help

Example: a file token.cases with a recorded run

  # Bytes are hexadecimal: 31323334 is the text 1234. This line is skipped.
  limits largest
  1 InitToken 31323334 -> 0
  1 OpenSession 6 -> 0 1
  1 Login 1 1 393939 -> 0

A line 'limits' begins a new token: 'limits largest', or four numbers as in
'limits 64 1000 1000 1000'. Each other line is a caller, a call and its arguments,
and behind the arrow the recorded reply, if there is one. 'ck_cases token.cases'
makes the calls on a new token and writes

  token.cases: line 5: 1 Login 1 1 393939: got 102 CKR_USER_PIN_NOT_INITIALIZED, expected 0 CKR_OK
  token.cases: 2 passed, 1 differ

To play the run with other limits, and to keep it with the replies that come:

  ck_cases --limits 2,1000,1000,1000 token.cases
  ck_cases --replies token.cases > kept.cases

The status is 0 where all is as recorded, 1 where a line differs or is bad, and 2
where the arguments are bad or a file can't be read.
"""

# The file of the help's example, and what the help says of it.
EXAMPLE = HELP[HELP.index(b"  # Bytes"):HELP.index(b"A line 'limits'")]
EXAMPLE_REPORT = HELP[HELP.index(b"  token.cases: line 5"):HELP.index(b"To play the run")]

# The report on a file of two lines that are no calls.
NO_CALLS = b"""\
t: line 1: %b: a line is a caller, a call and its arguments
t: line 2: %b: a line is a caller, a call and its arguments
t: 0 passed, 2 bad
"""

# A file `t`, the report on it that names at most two lines, and the status.
REPORTS = [
    (b"# A comment.\n1 InitToken 31323334 -> 0\n1 OpenSession 6 -> 0 1\n",
     b"t: 2 passed\n", 0),
    # another code, and another body
    (b"1 OpenSession 6 -> 0 1\n1 InitToken 31323334 -> 0\n1 OpenSession 6 -> 0 2\n",
     b"t: line 1: 1 OpenSession 6: got e1 CKR_TOKEN_NOT_RECOGNIZED, expected 0 CKR_OK 1\n"
     b"t: line 3: 1 OpenSession 6: got 0 CKR_OK 1, expected 0 CKR_OK 2\n"
     b"t: 1 passed, 2 differ\n", 1),
    # a call without a reply, and a code that no call answers
    (b"1 InitToken 31323334\n1 GetMechanismList -> 54\n",
     b"t: line 2: 1 GetMechanismList: got 0 CKR_OK "
     b"250,251,252,255,256,257,260,261,262,270,271,272,350, expected 54\n"
     b"t: 0 passed, 1 differ, 1 without a reply\n", 1),
    # lines of a case without a reply
    (b"journal\ncut\naudit largest\n", b"t: 0 passed, 3 without a reply\n", 0),
    # an audit of other limits
    (b"limits 2 9 9 9\n1 InitToken 31323334 -> 0\n1 OpenSession 6 -> 0 1\n"
     b"1 OpenSession 6 -> 0 2\naudit 1 9 9 9 -> legal\n",
     b"t: line 5: audit 1 9 9 9: got entry 3 is wrong, expected legal\n"
     b"t: 3 passed, 1 differ\n", 1),
    # lines that are bad, and one of which that is recorded
    (b"1 Logn 1 1 39 -> 0\nfoo\n1 Digest 1 -> bad script: Digest takes 3 arguments\n",
     b"t: line 1: 1 Logn 1 1 39: no call has this name, the nearest is Login\n"
     b"t: line 2: foo: a line is a caller, a call and its arguments\n"
     b"t: 1 passed, 2 bad\n", 1),
    # a bad line of which another reason is recorded
    (b"1 Nope -> bad script: x\n",
     b"t: line 1: 1 Nope: got bad script: no call has this name, expected bad script: x\n"
     b"t: 0 passed, 1 differ\n", 1),
    # bad lines of which something else is recorded
    (b"1 Nope -> no bad script: x\n1 Nope -> bad\n",
     b"t: line 1: 1 Nope: no call has this name\nt: line 2: 1 Nope: no call has this name\n"
     b"t: 0 passed, 2 bad\n", 1),
    # a body of more than one word, and a code that no call answers with a body
    (b"1 GetTokenInfo -> 0 4 64 0 1\n1 GetTokenInfo -> 54 4 64\n",
     b"t: line 1: 1 GetTokenInfo: got 0 CKR_OK 4 64 0 0, expected 0 CKR_OK 4 64 0 1\n"
     b"t: line 2: 1 GetTokenInfo: got 0 CKR_OK 4 64 0 0, expected 54 4 64\n"
     b"t: 0 passed, 2 differ\n", 1),
    # a space behind a reply, and a code in capital letters
    (b"1 InitToken 31323334 -> 0 \n1 Logout 1 -> B3\n",
     b"t: line 1: 1 InitToken 31323334: got 0 CKR_OK, expected 0 CKR_OK \n"
     b"t: line 2: 1 Logout 1: got b3 CKR_SESSION_HANDLE_INVALID, "
     b"expected B3 CKR_SESSION_HANDLE_INVALID\nt: 0 passed, 2 differ\n", 1),
    # a second arrow belongs to the reply, and one without spaces is none
    (b"1 InitToken 31323334 -> 0 -> 0\n1 Logout 1->b3\n",
     b"t: line 1: 1 InitToken 31323334: got 0 CKR_OK, expected 0 CKR_OK -> 0\n"
     b"t: line 2: 1 Logout 1->b3: a number is written in decimal digits\n"
     b"t: 0 passed, 1 differ, 1 bad\n", 1),
    # words alone that begin lines of a case, and lines of one word with another behind it
    (b"limits\naudit\n", NO_CALLS % (b"limits", b"audit"), 1),
    (b"limitslargest\nauditlargest\n", NO_CALLS % (b"limitslargest", b"auditlargest"), 1),
    (b"cut 1 x\njournal 1 x\n",
     b"t: line 1: cut 1 x: the caller is a number from 1 to 8\n"
     b"t: line 2: journal 1 x: the caller is a number from 1 to 8\nt: 0 passed, 2 bad\n", 1),
    (b"limits 65 1 1 1\ncut -> entries 0\n",
     b"t: line 1: limits 65 1 1 1: " + BAD_LIMITS + b"\nt: 1 passed, 1 bad\n", 1),
    # bad limits begin a new case, too
    (b"1 InitToken 31323334 -> 0\nlimits 65 1 1 1\n1 GetTokenInfo -> 0 4 64 0 0\n",
     b"t: line 2: limits 65 1 1 1: " + BAD_LIMITS + b"\nt: 2 passed, 1 bad\n", 1),
    # with the largest limits, not those of the case before
    (b"limits 2 9 9 9\n1 GetTokenInfo -> 0 4 2 0 0\n"
     b"limits 65 1 1 1\n1 GetTokenInfo -> 0 4 64 0 0\n",
     b"t: line 3: limits 65 1 1 1: " + BAD_LIMITS + b"\nt: 2 passed, 1 bad\n", 1),
    # a space or a number too many
    (b"limits largest \nlimits 2 9 9 9 9\n",
     b"t: line 1: limits largest : " + BAD_LIMITS + b"\nt: line 2: limits 2 9 9 9 9: "
     + BAD_LIMITS + b"\nt: 0 passed, 2 bad\n", 1),
    (b"audit 65 1 1 1 -> legal\n",
     b"t: line 1: audit 65 1 1 1: " + BAD_LIMITS + b"\nt: 0 passed, 1 bad\n", 1),
    # where such a line is kept as one that is bad, it passes
    (b"audit 65 1 1 1 -> bad script: " + BAD_LIMITS + b"\n", b"t: 1 passed\n", 0),
    # a reply without a call, and a file without lines
    (b" -> 0\n",
     b"t: line 1: : a line is a caller, a call and its arguments\nt: 0 passed, 1 bad\n", 1),
    (b"", b"t: 0 passed\n", 0),
    # a reply of no characters is recorded, and none
    (b"1 Logout 1 -> \n1 Logout 1 ->\n",
     b"t: line 1: 1 Logout 1: got b3 CKR_SESSION_HANDLE_INVALID, expected \n"
     b"t: line 2: 1 Logout 1 ->: Logout takes 1 argument\n"
     b"t: 0 passed, 1 differ, 1 bad\n", 1),
    # more lines than are named
    (b"1 Logout 1 -> 0\n1 Logout 1 -> 0\n1 Logout 1 -> 0\ncut -> legal\n",
     b"t: line 1: 1 Logout 1: got b3 CKR_SESSION_HANDLE_INVALID, expected 0 CKR_OK\n"
     b"t: line 2: 1 Logout 1: got b3 CKR_SESSION_HANDLE_INVALID, expected 0 CKR_OK\n"
     b"t: only counted: 2 more\nt: 0 passed, 4 differ\n", 1),
]

# A run of a token whose limits allow two sessions.
TWO_SESSIONS = b"""\
# Two sessions.
limits 2 9 9 9
1 InitToken 31323334
1 OpenSession 6 -> 0 1
1 OpenSession 6 -> 0 2
foo -> 0
"""

# The same with the replies that come.
SAME_SESSIONS = b"""\
# Two sessions.
limits 2 9 9 9
1 InitToken 31323334 -> 0
1 OpenSession 6 -> 0 1
1 OpenSession 6 -> 0 2
foo -> 0
"""

# With the replies of a token that allows one.
ONE_SESSION = b"""\
# Two sessions.
limits 1 9 8 7
1 InitToken 31323334 -> 0
1 OpenSession 6 -> 0 1
1 OpenSession 6 -> b1
foo -> 0
"""

# And with those of a token that allows the most.
MOST_SESSIONS = b"""\
# Two sessions.
limits largest
1 InitToken 31323334 -> 0
1 OpenSession 6 -> 0 1
1 OpenSession 6 -> 0 2
foo -> 0
"""

# The limits of an audit are its own, whatever others a run is played with.
AUDITED = b"""\
1 InitToken 31323334 -> 0
1 OpenSession 6 -> 0 1
1 OpenSession 6 -> 0 2
audit 1 9 9 9 -> entry 3 is wrong
"""

NO_CALL = b"t: line 6: foo: a line is a caller, a call and its arguments\n"

# Two cases with limits of their own, and with those and the replies of a token that allows one
# session.
TWO_CASES = b"""\
limits 2 9 9 9
1 InitToken 31323334 -> 0

limits 3 9 9 9
1 GetTokenInfo -> 0 4 3 0 0
"""
TWO_CASES_OF_ONE = b"""\
limits 1 9 8 7
1 InitToken 31323334 -> 0

limits 1 9 8 7
1 GetTokenInfo -> 0 4 1 0 0
"""

# A line with bad limits, which stays as it is.
BAD_LIMITS_LINE = b"limits 65 1 1 1\n1 GetTokenInfo"

# A run without limits of its own, and with the replies of a token that allows one session.
WITHOUT_LIMITS = b"""\
# Two sessions.
1 InitToken 31323334 -> 0
1 OpenSession 6 -> 0 1
1 OpenSession 6 -> 0 2
"""
WITH_LIMITS = b"""\
# Two sessions.
limits 1 9 8 7
1 InitToken 31323334 -> 0
1 OpenSession 6 -> 0 1
1 OpenSession 6 -> b1
"""

# Files, the limits with which they are written again, and what is written then: also of a file
# that begins with a bad line, and of files without a line that is played.
REWRITTEN = [
    (b"foo\n1 GetTokenInfo\n", "1,9,8,7",
     b"limits 1 9 8 7\nfoo\n1 GetTokenInfo -> 0 4 1 0 0\n",
     b"t: line 1: foo: a line is a caller, a call and its arguments\n"),
    (b"# x\n\n", "1,9,8,7", b"# x\n\n", b""),
    (b"", "1,9,8,7", b"", b""),
    # a bad line of limits gives way to the others
    (BAD_LIMITS_LINE + b"\n", "2,9,9,9", b"limits 2 9 9 9\n1 GetTokenInfo -> 0 4 2 0 0\n",
     b"t: line 1: limits 65 1 1 1: " + BAD_LIMITS + b"\n"),
    # a case without a line of limits, and one with it
    (b"1 GetTokenInfo\nlimits 3 9 9 9\n1 GetTokenInfo\n", "2,9,9,9",
     b"limits 2 9 9 9\n1 GetTokenInfo -> 0 4 2 0 0\n" * 2, b""),
    # three numbers of the largest limits, and all four
    *((b"journal\n", limits.replace(" ", ","), b"limits %b\njournal -> entries 0\n"
       % limits.encode(), b"")
      for limits in ("63 4294967295 4294967295 2147483647", "64 9 4294967295 2147483647",
                     "64 4294967295 9 2147483647", "64 4294967295 4294967295 9")),
    (b"journal\n", "64,4294967295,4294967295,2147483647",
     b"limits largest\njournal -> entries 0\n", b""),
]

# Lines of which other outcomes are recorded, and the same with those that come.
OTHER_OUTCOMES = b"""\
1 Nope -> bad script: x
cut -> a session is open
journal -> entries 1
audit largest -> entry 1 is wrong
"""
OUTCOMES = b"""\
1 Nope -> bad script: no call has this name
cut -> entries 0
journal -> entries 0
audit largest -> legal
"""

# The most lines of a file that are named, where nothing else is asked for, and what is written of a
# file with one bad line more.
MOST_NAMED = 100
TOO_MANY_LINES = b"a\n" * (MOST_NAMED + 1)
NAMED_LINES = b"".join(b"t: line %d: a: a line is a caller, a call and its arguments\n" % number
                       for number in range(1, MOST_NAMED + 1)) + b"t: only counted: 1 more\n"

# The most characters that are shown of a text, and lengths of texts that are tried.
MOST_SHOWN = 80
LENGTHS = (1, MOST_SHOWN, MOST_SHOWN + 1, 3 * MOST_SHOWN)

# A run with a reply of 130 characters: CKR_OK, a space and a digest with SHA-512.
DIGEST = hashlib.sha512(b"abc").hexdigest().encode()
BEFORE_DIGEST = b"1 InitToken 31323334 -> 0\n1 OpenSession 6 -> 0 1\n1 DigestInit 1 270 -> 0\n"

# A case with 64 objects of a million bytes, which end with the session.
LARGE_CASE = b"".join([
    b"1 InitToken 31323334 -> 0\n1 OpenSession 6 -> 0 1\n",
    b"1 CreateObject 1 0=0000000000000000,11=", b"61" * 1_000_000, b" -> 0 1\n",
    *(b"1 CopyObject 1 1 - -> 0 %d\n" % number for number in range(2, 65))])
LARGE_CASE_LINES = 66

# The bytes of an address space that has room for these objects once. An audit makes them again.
ROOM = 100_000_000

# Calls that make such a case long.
MORE_CALLS = 20_000
MORE = b"1 GetTokenInfo -> 0 404 64 1 1\n" * MORE_CALLS

# A call whose reply finds no room there, at both times that it is made: 200 million bytes.
LARGE_REPLY = b"".join([
    b"1 InitToken 31323334\n1 OpenSession 6\n",
    b"1 CreateObject 1 0=0000000000000000,11=", b"61" * 1_000_000, b"\n",
    b"1 GetAttributeValue 1 1 ", b",".join([b"11:1000000"] * 200), b"\n"])

# How many token objects a cut keeps in two cases that are compared, how many times as long that of
# the many may take, and how often at most they are played, since other work of the machine can make
# one take longer.
FEW_KEPT, MANY_KEPT = 20_000, 80_000
MOST_GROWTH = 8
MOST_TRIES = 6

# A call, with its reply and without, and how many lines of it files have that are compared.
ANSWERED = b"1 GetTokenInfo -> 0 4 64 0 0\n"
UNANSWERED = b"1 GetTokenInfo -> 0\n"
FEW_LINES, MANY_LINES = 20_000, 80_000

# A run with a value that fills a long reply, as recorded.
LONG_VALUE = b"61" * 1_000_000
LONG_REPLY = (b"1 InitToken 31323334 -> 0\n1 OpenSession 6 -> 0 1\n"
              b"1 CreateObject 1 0=0000000000000000,11=%b -> 0 1\n"
              b"1 GetAttributeValue 1 1 11:1000000 -> 0 =%b\n" % (LONG_VALUE, LONG_VALUE))

USAGE = b"\n\nUsage: ck_cases [OPTIONS] <FILE>..."
HINT = b"\n\nFor more information, try '--help'.\n"

BAD_OPTION = (b"error: invalid value for '--limits': " + BAD_LIMITS
              + b", with commas between the numbers\n")

# Bad arguments, and what is written of them.
BAD_ARGUMENTS = [
    ([], b"error: the following required arguments were not provided:\n  <FILE>..."
     b"\n\nUsage: ck_cases <FILE>..." + HINT),
    (["--most", "x", "t"],
     b"error: invalid value 'x' for '--most <N>': invalid digit found in string" + HINT),
    (["--nothing", "t"], b"error: unexpected argument '--nothing' found"
     b"\n\n  tip: to pass '--nothing' as a value, use '-- --nothing'" + USAGE + HINT),
    (["--most", "1", "--most", "2", "t"],
     b"error: the argument '--most <N>' cannot be used multiple times" + USAGE + HINT),
    (["--limits", "largest", "--limits", "2,9,9,9", "t"],
     b"error: the argument '--limits <LIMITS>' cannot be used multiple times" + USAGE + HINT),
    (["--limits", "65,1,1,1", "t"], BAD_OPTION),
    (["--limits", "2 3 4 5", "t"], BAD_OPTION),
    (["--limits", "1,2,3", "t"], BAD_OPTION),
    (["--limits", " largest", "t"], BAD_OPTION),
    (["--limits", "1,2,3,4,5", "t"], BAD_OPTION),
    (["--replies", "t", "t"], b"error: '--replies' takes one file\n"),
    (["--limits", "1,2,3", "--replies", "t", "t"], BAD_OPTION),
    # the byte ff
    (["\udcff"], b"error: an argument isn't text in UTF-8\n"),
]

# A file that isn't read, and why.
BAD_FILES = [
    (b"a\n\xff", b"line 2 isn't text in UTF-8"),
    (b"a\n\xff\nb\n", b"line 2 isn't text in UTF-8"),
    (b"a\n1 Logout 1\r\n",
     b"line 2 ends with a carriage return (CR LF), and lines end with a line feed only"),
    (b"1 Logout 1\r\n",
     b"line 1 ends with a carriage return (CR LF), and lines end with a line feed only"),
    # the first of several lines is told
    (b"a\r\nb\r\nc\r\n",
     b"line 1 ends with a carriage return (CR LF), and lines end with a line feed only"),
    (b"a\n\xff\n\xff\n", b"line 2 isn't text in UTF-8"),
    (b"a\r\n\xff\n", b"line 2 isn't text in UTF-8"),
    # a last line without its end
    (b"a\n# x\r",
     b"line 2 ends with a carriage return (CR LF), and lines end with a line feed only"),
]


class Files(Tests):
    """Tests of a program that is run in a folder with a file `t`."""

    def check_file(self, text, words, output, errors, status, **files):
        self.check_files({"t": text}, words, output, errors, status, **files)

    def check_files(self, texts, words, output, errors, status, **files):
        with tempfile.TemporaryDirectory() as folder:
            for name, text in texts.items():
                with open(os.path.join(folder, name), "wb") as file:
                    file.write(text)
            self.check(words, None, output, errors, status, cwd=folder, **files)


def plain(block):
    """The lines of a block of the help, without their indentation and empty lines."""
    return b"".join(line.strip() + b"\n" for line in block.split(b"\n") if line.strip())


def reports(tests):
    for text, report, status in REPORTS:
        tests.check_file(text, ["--most", "2", "t"], report, b"", status)
    # a file that is right and one that isn't, each with another after it
    for text, report, status in REPORTS[:2]:
        tests.check_file(text, ["t", "t"], report + report, b"", status)
    # a wrong one stays wrong behind a right one and before it
    for names in (["right", "wrong"], ["wrong", "right"], ["right", "wrong", "right"]):
        texts = {"right": REPORTS[0][0], "wrong": REPORTS[1][0]}
        told = {"right": REPORTS[0][1].replace(b"t:", b"right:"),
                "wrong": REPORTS[1][1].replace(b"t:", b"wrong:")}
        tests.check_files(texts, names, b"".join(told[name] for name in names), b"", 1)
    tests.check_file(b"a\nb", ["t"], b"t: line 1: a: a line is a caller, a call and its arguments\n"
                     b"t: line 2: b: a line is a caller, a call and its arguments\n"
                     b"t: 0 passed, 2 bad\n", b"", 1)
    report = plain(EXAMPLE_REPORT).replace(b"token.cases", b"t")
    tests.check_file(plain(EXAMPLE), ["t"], report, b"", 1)
    tests.end("reports on files")


def limits(tests):
    report = (b"t: line 5: 1 OpenSession 6: got b1 CKR_SESSION_COUNT, expected 0 CKR_OK 2\n"
              b"t: only counted: 1 more\nt: 1 passed, 1 differ, 1 bad, 1 without a reply\n")
    tests.check_file(TWO_SESSIONS, ["--limits", "1,9,8,7", "--most", "1", "t"], report, b"", 1)
    for words, output in [(["--limits", "1,9,8,7"], ONE_SESSION),
                          (["--limits", "largest"], MOST_SESSIONS), ([], SAME_SESSIONS)]:
        tests.check_file(TWO_SESSIONS, [*words, "--replies", "t"], output, NO_CALL, 1)
    tests.check_file(AUDITED, ["--limits", "2,9,9,9", "t"], b"t: 4 passed\n", b"", 0)
    for text in (OTHER_OUTCOMES, OUTCOMES):
        tests.check_file(text, ["--replies", "t"], OUTCOMES, b"", 0)
    # each case of a file has the other limits
    tests.check_file(TWO_CASES, ["--limits", "1,9,8,7", "--replies", "t"], TWO_CASES_OF_ONE, b"", 0)
    tests.check_file(TWO_CASES, ["--replies", "t"], TWO_CASES, b"", 0)
    # bad limits stay as they are, where others aren't asked for
    tests.check_file(BAD_LIMITS_LINE + b"\n", ["--replies", "t"],
                     BAD_LIMITS_LINE + b" -> 0 4 64 0 0\n",
                     b"t: line 1: limits 65 1 1 1: " + BAD_LIMITS + b"\n", 1)
    # a bad line of limits is told, and the others are in force behind it, too
    tests.check_file(b"limits 65 1 1 1\n1 GetTokenInfo -> 0 4 2 0 0\n",
                     ["--limits", "2,9,9,9", "t"],
                     b"t: line 1: limits 65 1 1 1: " + BAD_LIMITS + b"\nt: 1 passed, 1 bad\n",
                     b"", 1)
    tests.end("other limits, and replies that are written")


def limits_of_first_case(tests):
    report = (b"t: line 4: 1 OpenSession 6: got b1 CKR_SESSION_COUNT, expected 0 CKR_OK 2\n"
              b"t: 2 passed, 1 differ\n")
    tests.check_file(WITHOUT_LIMITS, ["t"], b"t: 3 passed\n", b"", 0)
    tests.check_file(WITHOUT_LIMITS, ["--limits", "1,9,8,7", "t"], report, b"", 1)
    tests.check_file(WITHOUT_LIMITS, ["--replies", "t"], WITHOUT_LIMITS, b"", 0)
    tests.check_file(WITHOUT_LIMITS, ["--limits", "1,9,8,7", "--replies", "t"], WITH_LIMITS, b"", 0)
    tests.end("other limits of a file without limits of its own")


def rewritten(tests):
    for text, limits, output, errors in REWRITTEN:
        tests.check_file(text, ["--limits", limits, "--replies", "t"], output, errors,
                         1 if errors else 0)
    # a line of limits stays as it is written, where others aren't asked for
    numbers = b"limits 64 4294967295 4294967295 2147483647\n"
    tests.check_file(numbers, ["--replies", "t"], numbers, b"", 0)
    # all that stands behind the first arrow is the reply
    tests.check_file(b"journal -> entries 0 -> x\n", ["--replies", "t"], b"journal -> entries 0\n",
                     b"", 0)
    tests.end("other limits of files that are written again")


def many_lines(tests):
    tests.check_file(TOO_MANY_LINES, ["t"], NAMED_LINES + b"t: 0 passed, 101 bad\n", b"", 1)
    tests.check_file(TOO_MANY_LINES, ["--replies", "t"], TOO_MANY_LINES, NAMED_LINES, 1)
    first, _, _ = NAMED_LINES.partition(b"t: line 2")
    tests.check_file(TOO_MANY_LINES, ["--most", "0", "t"],
                     b"t: only counted: 101 more\nt: 0 passed, 101 bad\n", b"", 1)
    errors = first + b"t: only counted: 100 more\n"
    tests.check_file(TOO_MANY_LINES, ["--most", "1", "--replies", "t"], TOO_MANY_LINES, errors, 1)
    # all of them, also where the number needs more than 32 bits
    all_named = NAMED_LINES.replace(b"only counted: 1 more",
                                    b"line 101: a: a line is a caller, a call and its arguments")
    for most in (MOST_NAMED + 1, 1 << 32, (1 << 64) - 1):
        tests.check_file(TOO_MANY_LINES, ["--most", str(most), "t"],
                         all_named + b"t: 0 passed, 101 bad\n", b"", 1)
    tests.end("of 101 bad lines 100 are named")


def shown(text):
    """The beginning of a text, and two dots where more follows."""
    return (text[:MOST_SHOWN] + ".." * (len(text) > MOST_SHOWN)).encode()


def check_long_reply(tests, recorded, place):
    """A digest of which another reply is recorded, and what is said of where they differ."""
    came, wanted = (b"0 CKR_OK " + shown(it.decode()) for it in (DIGEST, recorded))
    report = (b"t: line 4: 1 Digest 1 616263 64: got " + came + b", expected " + wanted + place
              + b"\nt: 3 passed, 1 differ\n")
    step = b"1 Digest 1 616263 64 -> 0 " + recorded + b"\n"
    tests.check_file(BEFORE_DIGEST + step, ["t"], report, b"", 1)


def long_texts(tests):
    # the second of these letters has two bytes
    for text in (letter * length for letter in ("x", "\u00e9") for length in LENGTHS):
        tests.check_file(text.encode(), ["t"], b"t: line 1: " + shown(text) + b": a line is a"
                         b" caller, a call and its arguments\nt: 0 passed, 1 bad\n", b"", 1)
    call, recorded = "1 InitToken " + "31" * MOST_SHOWN, "x" * (MOST_SHOWN + 1)
    tests.check_file(f"{call} -> {recorded}".encode(), ["t"], b"t: line 1: " + shown(call)
                     + b": got a2 CKR_PIN_LEN_RANGE, expected " + shown(recorded)
                     + b"\nt: 0 passed, 1 differ\n", b"", 1)
    for place in (3, 61, 80, 81, 82, 83, 130):
        # the code and the space before the digest are two characters
        at = place - 3
        said = b" (they differ from character %d on)" % place if place > MOST_SHOWN else b""
        check_long_reply(tests, DIGEST[:at] + b"x" + DIGEST[at + 1:], said)
    check_long_reply(tests, DIGEST[:77], b"")
    check_long_reply(tests, DIGEST[:78], b" (they differ from character 81 on)")
    check_long_reply(tests, DIGEST + b"00", b" (they differ from character 131 on)")
    tests.end("texts of 80 characters and of more are shortened")


def long_replies(tests):
    tests.check_file(LONG_REPLY, ["t"], b"t: 4 passed\n", b"", 0)
    tests.check_file(LONG_REPLY, ["--replies", "t"], LONG_REPLY, b"", 0)
    tests.end("a reply of a million bytes")


def audits(tests):
    short = {"preexec_fn": lambda: resource.setrlimit(resource.RLIMIT_AS, (ROOM, ROOM))}
    end = b"1 CloseAllSessions -> 0\n"
    for more, count, next_case in ((b"", 0, b""), (b"", 0, b"limits largest\n"),
                                   (MORE, MORE_CALLS, b"")):
        report = b"t: %d passed\n" % (LARGE_CASE_LINES + count + 1)
        tests.check_file(LARGE_CASE + more + end + next_case, ["t"], report, b"", 0, **short)
        tests.check_file(LARGE_CASE + more + next_case, ["t"], b"t: out of memory\n", b"", 1,
                         **short)
    tests.check_file(LARGE_CASE, ["--replies", "t"], b"", b"t: out of memory\n", 1, **short)
    cut = LARGE_CASE + b"cut -> a session is open\n1 CloseAllSessions -> 0\n"
    tests.check_file(cut, ["t"], b"t: out of memory\n", b"", 1, **short)
    tests.check_file(LARGE_REPLY, ["t"], b"t: out of memory a second time\n", b"", 1, **short)
    tests.end("cases are audited at their end and before a cut, and find no memory for it")


def passed_lines(count):
    """How the program is called with a file of so many lines that pass: the file and the words, and
    what it writes, and its status."""
    return ANSWERED * count, ["t"], b"t: %d passed\n" % count, 0


def rewritten_lines(count):
    """The same of a file that is written again."""
    return UNANSWERED * count, ["--replies", "t"], ANSWERED * count, 0


def named_lines(count):
    """The same of a file of which each line is named."""
    told = b"".join(b"t: line %d: 1 GetTokenInfo: got 0 CKR_OK 4 64 0 0, expected 0 CKR_OK\n" % line
                    for line in range(1, count + 1))
    return (UNANSWERED * count, ["--most", str(count), "t"],
            told + b"t: 0 passed, %d differ\n" % count, 1)


def seconds_of_file(tests, text, words, output, status):
    """The processor time in which a file is played."""
    before = seconds_of_programs()
    tests.check_file(text, words, output, b"", status)
    return seconds_of_programs() - before


def long_files(tests):
    """Each of many lines takes no more than twice as long as each of few."""
    for lines in (passed_lines, rewritten_lines, named_lines):
        few = many = float("inf")
        for _ in range(MOST_TRIES):
            few = min(few, seconds_of_file(tests, *lines(FEW_LINES)))
            many = min(many, seconds_of_file(tests, *lines(MANY_LINES)))
            if many < MOST_GROWTH * few:
                break
        tests.expect(many < MOST_GROWTH * few, f"{lines.__name__}: {few:.3f} and {many:.3f} s")
    tests.end("the time of long files")


def seconds_of_cut(tests, count):
    """The processor time of a case with a cut that keeps this many objects, and with an audit, which
    starts from them."""
    creations = b"".join(b"1 CreateObject 1 0=0000000000000000,1=01 -> 0 %d\n" % number
                         for number in range(1, count + 1))
    case = (b"1 InitToken 31323334 -> 0\n1 OpenSession 6 -> 0 1\n" + creations
            + b"1 CloseSession 1 -> 0\ncut -> entries %d\naudit largest -> legal\n" % (count + 3))
    before = seconds_of_programs()
    tests.check_file(case, ["t"], b"t: %d passed\n" % (count + 5), b"", 0)
    return seconds_of_programs() - before


def cuts(tests):
    """A cut, and a token that starts from what it has left, take no more than twice as long for each
    of many objects as for each of few."""
    few = many = float("inf")
    for _ in range(MOST_TRIES):
        few = min(few, seconds_of_cut(tests, FEW_KEPT))
        many = min(many, seconds_of_cut(tests, MANY_KEPT))
        if many < MOST_GROWTH * few:
            break
    tests.expect(many < MOST_GROWTH * few,
                 f"{FEW_KEPT} objects took {few:.3f} s, {MANY_KEPT} took {many:.3f} s")
    tests.end("the time of cuts")


def arguments(tests):
    for words in (["--help"], ["-h"], ["t", "--help"]):
        tests.check_file(b"foo", words, HELP, b"", 0)
    # files before an option and behind it
    text, report, status = REPORTS[0]
    tests.check_file(text, ["t", "--most", "2", "t"], report + report, b"", status)
    for words, errors in BAD_ARGUMENTS:
        tests.check_file(b"foo", words, b"", errors, 2)
    tests.end("arguments")


def bad_files(tests):
    for text, reason in BAD_FILES:
        tests.check_file(text, ["t"], b"", b"ck_cases: t: " + reason + b"\n", 2)
    # also beside a file with a line that differs, whichever is the first
    for text, report, _ in REPORTS[:2]:
        for words in (["none", "t"], ["t", "none"]):
            tests.check_file(text, words, report, b"ck_cases: none: No such file or directory"
                             b" (os error 2)\n", 2)
    # a folder
    tests.check_file(b"", ["."], b"", b"ck_cases: .: Is a directory (os error 21)\n", 2)
    tests.end("files that aren't read")


def full_device(tests):
    errors = b"ck_cases: No space left on device (os error 28)\n"
    text, _, _ = REPORTS[0]
    for words in (["t"], ["--replies", "t"], ["--help"]):
        with open("/dev/full", "wb") as full:
            tests.check_file(text, words, None, errors, 1, stdout=full)
    # where standard error takes nothing, no file is written and none is played any more
    for text, words in ((TWO_SESSIONS, ["--replies", "t"]), (text, ["none", "t"]),
                        (text, ["--nothing"])):
        with open("/dev/full", "wb") as full:
            tests.check_file(text, words, b"", None, 1, stderr=full)
    tests.end("a device that is full")


def main(program):
    tests = Files(program, "recorded runs")
    reports(tests)
    limits(tests)
    limits_of_first_case(tests)
    rewritten(tests)
    many_lines(tests)
    long_texts(tests)
    long_replies(tests)
    audits(tests)
    long_files(tests)
    cuts(tests)
    arguments(tests)
    bad_files(tests)
    full_device(tests)
    return tests.status()


if __name__ == "__main__":
    sys.exit(main(sys.argv[1] if len(sys.argv) > 1 else PROGRAM))
