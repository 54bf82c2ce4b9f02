#!/usr/bin/env python3
"""Runs the program ck_run from outside, as its users do: its arguments, scripts on standard input,
what it writes to standard output and standard error, and its status.

The program is crates/ck_run/out/ck_run, which `rt ci` leaves and `rt run` in its folder builds, or
the one that is named; one test runs crates/ck_threads/out/ck_threads. For each test a line is
printed that begins with passed, FAILED or skipped, and the status is 1 where one failed. This needs
Linux, which has the device /dev/full.
"""
import hashlib
import hmac
import os
import resource
import select
import socket
import subprocess
import sys
import tempfile
import threading
import time

HERE = os.path.dirname(os.path.abspath(__file__))
PROGRAM = os.path.join(HERE, "..", "crates", "ck_run", "out", "ck_run")
# The folder of the program that is the example of docs/threads.md.
SHARING = os.path.join(HERE, "..", "crates", "ck_threads")
RACES = os.path.join(HERE, "..", "crates", "ck_races", "out", "ck_races")
BENCH = os.path.join(HERE, "..", "crates", "ck_bench", "out", "ck_bench")

LONGEST_LINE = 4_194_304

# The most seconds that a program may take: far more than it does on a slow machine that does much
# else. They tell only of one that hangs.
SECONDS = 600

# Calls that leave 64 objects of a million bytes, and an address space that has room for these once.
# An audit makes them again.
LARGE_OBJECTS = b"".join([
    b"1 InitToken 31323334\n1 OpenSession 6\n",
    b"1 CreateObject 1 0=0000000000000000,11=", b"61" * 1_000_000, b"\n",
    b"1 CopyObject 1 1 -\n" * 63])
ROOM = 110_000_000

# Comments for which a program that reads a script whole takes 67 million bytes. The room has none
# for these and the objects at once.
LONG_COMMENTS = (b"#" * LONGEST_LINE + b"\n") * 10

# How many calls make their journal long, and a room for these, too.
LONG_JOURNAL = 200_000
ROOM_OF_LONG = 190_000_000

# How many calls each of eight callers makes in such a room, for their stacks as well. It has none
# for eight lists of all calls.
CALLS_OF_EACH = 50_000
ROOM_OF_EIGHT = 350_000_000

# How many copies of one large object are made in that room, each destroyed before the next, and how
# many searches, each of which finds this many objects and is ended. If they kept their memory, the
# copies wouldn't fit, and neither would the searches.
MANY_COPIES = 200
MANY_SEARCHES = 2_000
FOUND_BY_EACH = 20_000

# What most systems give the stack of a thread, which lies in that room, too; and a stack that is
# small, of which less than a quarter is used.
STACK = 8 << 20
SMALL_STACK = 256 << 10

# A thread's stack has the size of the limit on stacks. No address space has room for one of these.
STACK_WITHOUT_ROOM = 1 << 48

# What ck_races writes of three callers that have no threads: by `share` they work one after the
# other, and by `run_scripts` they don't work. And what it writes where they have threads.
WITHOUT_THREADS = [("share", b"callers: 1 1 2 2 3 3\n"), ("scripts", b"scripts with a thread: 0\n")]
WITH_THREADS = b"scripts with a thread: 3\n"

FIRST_CALLS = b"""\
1 InitToken 31323334
1 OpenSession 6
1 CreateObject 1 0=0000000000000000,3=6162
1 GetAttributeValue 1 1 3:8,11:?
1 DestroyObject 1 1
1 GetAttributeValue 1 1 3:8
"""
FIRST_REPLIES = b"0\n0 1\n0 1\n0 =6162,:0\n0\n82\n"

# More calls than any bound on their number lets through, also one of 2^21, and the reply to each
# where one session is open.
MANY = 2_200_000
ONE_OF_MANY = b"1 GetTokenInfo\n"
REPLY_TO_EACH = b"0 404 64 1 1\n"

# Such a call of each of eight callers.
ONE_OF_EIGHT = b"".join(b"%d GetTokenInfo\n" % number for number in range(1, 9))

# How many queries fill a reply of 90,003 bytes, which is more than one packet of those below.
QUERIES = 30_000

# How many items or queries of four bytes, and how many labels of five bytes, fill most of the
# longest line.
MANY_ITEMS = 1_000_000
MANY_LABELS = 800_000

# Calls that take these equal labels as well (`%b`), and their replies. Those of the second list get
# 10,000: one has another label behind them, one an attribute that a data object doesn't have.
LABELLED = [
    (b"CreateObject 1 0=0000000000000000%b", b"0 1"),
    (b"CopyObject 1 1 3=61%b", b"0 2"),
    (b"SetAttributeValue 1 2 3=61%b", b"0"),
    (b"GenerateKey 1 350 2=00,161=0100000000000000%b 00", b"0 3"),
]
LABELLED_SHORT = [
    (b"CreateObject 1 0=0000000000000000%b", b"0 1"),
    (b"CreateObject 1 0=0000000000000000%b,3=62", b"d1"),
    (b"CreateObject 1 0=0000000000000000%b,103=01", b"12"),
]

# How many bytes a parameter has that fills most of the longest line, how many objects one call
# finds, and how many answers one call gives.
LONG_PARAMETER = 2_000_000
MANY_FOUND = 150_000
MANY_ANSWERS = 100_000
LONG_ANSWERS = 20

# How many sessions are opened and closed, with two objects each, before each call is made: more
# than 2^17 openings and 2^18 creations.
MANY_SESSIONS = 140_000

# A token with a key, and what is made behind many calls and sessions: each call, with its reply.
FIRST_OF_MANY = b"""\
1 InitToken 31323334
1 OpenSession 6
1 CreateObject 1 0=0400000000000000,100=1000000000000000,11=4a656665,2=00
"""
DIGEST = hashlib.sha256(b"a").hexdigest()
SIGNATURE = hmac.new(b"Jefe", b"a", hashlib.sha256).hexdigest()
EACH_CALL = [
    ("OpenSession 6", "0 {session}"),
    ("GetSessionInfo {session}", "0 2 6"),
    ("CreateObject {session} 0=0000000000000000", "0 {created}"),
    ("CopyObject {session} {created} -", "0 {copied}"),
    ("GenerateKey {session} 350 161=0100000000000000,2=00 00", "0 {generated}"),
    ("GetAttributeValue {session} {generated} 161:8,3:?", "0 =0100000000000000,:0"),
    ("SetAttributeValue {session} {copied} 3=61", "0"),
    ("SetKeyState {session} {generated} 5", "0"),
    ("FindObjectsInit {session} 3=61", "0"),
    ("FindObjects {session} 9", "0 {copied}"),
    ("FindObjectsFinal {session}", "0"),
    ("DigestInit {session} 250", "0"),
    ("Digest {session} 61 32", f"0 {DIGEST}"),
    ("DigestInit {session} 250", "0"),
    ("DigestUpdate {session} 61", "0"),
    ("DigestFinal {session} 32", f"0 {DIGEST}"),
    ("SignInit {session} 251 1", "0"),
    ("Sign {session} 61 32", f"0 {SIGNATURE}"),
    ("SignInit {session} 251 1", "0"),
    ("SignUpdate {session} 61", "0"),
    ("SignFinal {session} 32", f"0 {SIGNATURE}"),
    ("VerifyInit {session} 251 1", "0"),
    ("Verify {session} 61 " + SIGNATURE, "0"),
    ("VerifyInit {session} 251 1", "0"),
    ("VerifyUpdate {session} 61", "0"),
    ("VerifyFinal {session} " + SIGNATURE, "0"),
    ("DigestInit {session} 250", "0"),
    ("SessionCancel {session} 400", "0"),
    ("DestroyObject {session} {created}", "0"),
    ("Login 1 0 31323334", "0"),
    ("InitPIN 1 75736572", "0"),
    ("SetPIN 1 31323334 31323334", "0"),
    ("Logout 1", "0"),
    ("GetMechanismList", "0 250,251,252,255,256,257,260,261,262,270,271,272,350"),
    ("GetTokenInfo", "0 40c 64 2 2"),
    ("CloseSession {session}", "0"),
    ("CloseAllSessions", "0"),
    ("InitToken 31323334", "0"),
]

# A room for the program by itself, of which it takes less than half.
ROOM_OF_PROGRAM = 8_000_000

# How many objects are created, each with a label of eight bytes; how many bytes one takes by
# docs/architecture.md, and the entry of its creation; and the room for them and the program.
MANY_CREATED = 130_000
BYTES_OF_OBJECT = 220
BYTES_OF_CREATION = 320
ROOM_OF_CREATED = MANY_CREATED * (BYTES_OF_OBJECT + BYTES_OF_CREATION) + ROOM_OF_PROGRAM

# How many sessions have a search each in this room, or an object each in that of the program.
SESSIONS = 64

# How many entries a journal has, and how many bytes one takes by docs/module.md, where it has no
# list; how many handles searches find, and how many searches there are, of three entries each; how
# many bytes the handles take with what the allocator adds; and the rooms for them and the program.
MANY_ENTRIES = 1_000_000
BYTES_OF_ENTRY = 152
FOUND_HANDLES, HANDLE_SEARCHES = 33, 50_000
BYTES_OF_HANDLES = FOUND_HANDLES * 8 + 8
ROOM_OF_ENTRIES = MANY_ENTRIES * BYTES_OF_ENTRY + ROOM_OF_PROGRAM
ROOM_OF_HANDLES = HANDLE_SEARCHES * (3 * BYTES_OF_ENTRY + BYTES_OF_HANDLES) + ROOM_OF_PROGRAM

# The bytes of a packet that one read of the program takes whole. Tests read packets twice as long.
PACKET = 65_536

# Short calls of callers in threads, and how many times they may sleep together.
MANY_SHORT = 400_000
MOST_SLEEPS = 20_000

# How many threads there are at once at some time, where each of eight callers has one. One after
# the other there would be two, and for a moment one that has just ended. And how often this and the
# sleeps above are tried at most, since other work of the machine can hold up some of the threads.
THREADS_OF_EIGHT = 9
TRIES = 3

# How many there are of ck_bench, which has up to four callers, where each asks this often.
THREADS_OF_FOUR = 5
ASKS = 1_700_000

# Two callers: the first makes six calls, the second two.
TWO_CALLERS = FIRST_CALLS + b"2 CloseSession 1\n2 CloseSession 1\n"

HELP = b"""\
Plays a script of PKCS #11 calls, read from standard input, on a new token

Usage: ck_run [OPTIONS]

Options:
      --callers <N>  Play each caller's lines in a thread of its own; N is 1 to 8
  -h, --help         Print help
"""

CALLERS = b"--callers takes a number from 1 to 8"
MORE = b"\n\nFor more information, try '--help'."
USAGE = b"\n\nUsage: ck_run [OPTIONS]" + MORE

# A reason of bad arguments for these words.
BAD_ARGUMENTS = [
    (["--callers", "0"], CALLERS),
    (["--callers", "9"], CALLERS),
    (["--callers", "x"], CALLERS),
    (["--callers", "02"], CALLERS),
    (["--callers", "+2"], CALLERS),
    (["--callers", ""], CALLERS),
    (["--callers=9"], CALLERS),
    (["--callers"], b"a value is required for '--callers <N>' but none was supplied" + MORE),
    (["--callers", "2", "--callers", "2"],
     b"the argument '--callers <N>' cannot be used multiple times"
     b"\n\nUsage: ck_run [OPTIONS]" + MORE),
    (["--nothing"], b"unexpected argument '--nothing' found" + USAGE),
    (["-c"], b"unexpected argument '-c' found" + USAGE),
    (["script.txt"], b"unexpected argument 'script.txt' found" + USAGE),
    (["--callers", "2", "script.txt"], b"unexpected argument 'script.txt' found" + USAGE),
    (["--callers", "2", "--callers", "2", "x", "y"], b"unexpected argument 'x' found" + USAGE),
    (["--caller", "2"], b"unexpected argument '--caller' found"
     b"\n\n  tip: a similar argument exists: '--callers'\n\nUsage: ck_run --callers <N>" + MORE),
    (["--help=1"], b"unexpected value '1' for '--help' found; no more were expected"
     b"\n\nUsage: ck_run --help" + MORE),
    (["x" * 1_000], b"unexpected argument '" + b"x" * 1_000 + b"' found" + USAGE),
    # the byte ff
    (["\udcff"], b"an argument isn't text in UTF-8"),
]

TOO_LONG = b"a line has at most 4194304 bytes"
CALLER_ABOVE_2 = b"the caller is a number from 1 to 2"
TOO_MANY_SPACES = (b"there are two spaces in a row, or one at an end of the line: "
                   b"single spaces separate its words")
NOT_TEXT = b"the line isn't text"
BYTE_ORDER_MARK = b"a byte order mark stands before the line"
CARRIAGE_RETURN = b"a carriage return stands at the end of the line"
TAB = b"there is a tab in the line: single spaces separate its words"
NOT_DECIMAL = b"a number is written in decimal digits"
NO_CODE_NUMBER = b"a code number is written in the digits 0 to 9 and a to f, without 0x"
LEADING_ZERO = b"a number has no leading zero"
TOO_LARGE = b"a number is below 2^64"
NO_BYTES = b"bytes are written in two hexadecimal digits each, and no bytes as -"
NO_MECHANISM = b"a mechanism is written as type, or with its parameter as type:bytes"
NO_TEMPLATE = b"a template is written as type=bytes,.. and an empty one as -"
NO_QUERIES = b"queries are written as type:room,.. and none as -"
FEW_WORDS = b"a line is a caller, a call and its arguments"
NO_CALLER = b"the caller is a number from 1 to 8"
LOGIN_TAKES_3 = b"Login takes 3 arguments"
NO_CALL = b"no call has this name"

# A bad line, and the reason that is given.
BAD_LINES = [
    (b"Nope", FEW_WORDS),
    (b"0 Logout 1", NO_CALLER),
    (b"9 Logout 1", NO_CALLER),
    (b"1 Nope", NO_CALL),
    (b"1 Logn 1 1 31", NO_CALL + b", the nearest is Login"),
    (b"1 Login 1 1", LOGIN_TAKES_3),
    (b"1 Logout x", NOT_DECIMAL),
    (b"1 Logout 01", LEADING_ZERO),
    (b"1 Logout 18446744073709551616", TOO_LARGE),
    (b"1 OpenSession 0x6", NO_CODE_NUMBER),
    (b"1 InitToken 313", NO_BYTES),
    (b"1 Logout 1\0", NOT_TEXT),
    (b"\x7fELF", NOT_TEXT),
    (b"1 Logout  1", TOO_MANY_SPACES),
    (b" # x", TOO_MANY_SPACES),
    (b"1 Logout 1\r", CARRIAGE_RETURN),
    (b"1\tLogout 1", TAB),
    (b"1 Logout\t1", TAB),
    (b"1 Logout 1\r2", NOT_DECIMAL),
    (b"1 Logout \xef\xbb\xbf1", NOT_DECIMAL),
    (b"1 Logout \xc3\x84", NOT_DECIMAL),
    (b"1 \xd0\x9d\xd0\x90", NO_CALL),
    (b"\xef\xbb1 Logout 1", NO_CALLER),
    (b"\xef\xbb\xbf1 Logout 1", BYTE_ORDER_MARK),
    (b"1 DigestInit 1 250:00:00", NO_MECHANISM),
    (b"1 CreateObject 1 3", NO_TEMPLATE),
    (b"1 GetAttributeValue 1 1 3", NO_QUERIES),
    # behind a long argument
    (b"1 InitToken " + b"31" * 100_000 + b"\0", NOT_TEXT),
    (b"1 InitToken " + b"31" * 100_000 + b"\t31", TAB),
    (b"1 InitToken " + b"31" * 100_000 + b"  31", TOO_MANY_SPACES),
    (b"1 InitToken " + b"31" * 100_000 + b"\r", CARRIAGE_RETURN),
]

# A line with several faults, and the one that is named: the first in the order of docs/script.md.
LINES_WITH_FAULTS = [
    (b"\xef\xbb\xbf1 Logout 1\r", BYTE_ORDER_MARK),
    (b"\xef\xbb\xbf1\tLogout 1", BYTE_ORDER_MARK),
    (b"\xef\xbb\xbf1 Logout  1", BYTE_ORDER_MARK),
    (b"\xef\xbb\xbf9 Nope", BYTE_ORDER_MARK),
    (b"1\tLogout 1\r", CARRIAGE_RETURN),
    (b"1 Logout  1\r", CARRIAGE_RETURN),
    (b"9 Nope\r", CARRIAGE_RETURN),
    (b"1\tLogout  1", TAB),
    (b"9\tNope", TAB),
    (b"9  Logout 1", TOO_MANY_SPACES),
    (b"Nope ", TOO_MANY_SPACES),
    (b"9", FEW_WORDS),
    (b"9 Nope", NO_CALLER),
    (b"1 Nope x 01", NO_CALL),
    (b"1 Login x 1", LOGIN_TAKES_3),
    # the first bad argument of two, of three and of four
    (b"1 SessionCancel x 0x400", NOT_DECIMAL),
    (b"1 Login x 01 3", NOT_DECIMAL),
    (b"1 Login 1 01 3", LEADING_ZERO),
    (b"1 SignInit x 251 01", NOT_DECIMAL),
    (b"1 GenerateKey x 0x350 - 6", NOT_DECIMAL),
    (b"1 GenerateKey x 350 3 00", NOT_DECIMAL),
    (b"1 GenerateKey 1 0x350 - 6", NO_CODE_NUMBER),
    (b"1 GenerateKey 1 0x350 3 00", NO_CODE_NUMBER),
    (b"1 GenerateKey 1 350 3 6", NO_TEMPLATE),
    # the first bad part of a mechanism, of an item and of a query, and the first bad item
    (b"1 DigestInit 1 0x250:6", NO_CODE_NUMBER),
    (b"1 CreateObject 1 0x3=6", NO_CODE_NUMBER),
    (b"1 GetAttributeValue 1 1 0x3:x", NO_CODE_NUMBER),
    (b"1 CreateObject 1 0x3=00,3", NO_CODE_NUMBER),
    (b"1 CreateObject 1 3,0x3=00", NO_TEMPLATE),
    # a number with two faults, and too many parts of which the first is bad
    (b"1 Logout 018446744073709551616", LEADING_ZERO),
    (b"1 OpenSession 010000000000000000", LEADING_ZERO),
    (b"1 DigestInit 1 0x250:00:00", NO_MECHANISM),
    (b"1 CreateObject 1 0x3=00=00", NO_TEMPLATE),
    (b"1 GetAttributeValue 1 1 0x3:8:8", NO_QUERIES),
]

# A name that is as near to two calls, of which the first is named; one with two letters too many,
# or three, after the longest name and the standard's `C_`; one that is too long; and one in
# which letters that stand side by side are exchanged twice, which are three changes.
NAMES = [
    (b"etAttributeValue", NO_CALL + b", the nearest is GetAttributeValue"),
    (b"C_GetAttributeValues", NO_CALL + b", the nearest is GetAttributeValue"),
    (b"c_getattributevaluexx", NO_CALL + b", the nearest is GetAttributeValue"),
    (b"C_GetAttributeValuexxx", NO_CALL),
    (b"GetAttributeValue" + b"x" * 8, NO_CALL),
    (b"Lgoni", NO_CALL),
]

# Lines that are written one after the other, each once the reply to the one before has come.
DIALOGUE = [
    (b"1 InitToken 31323334\n", b"0\n"),
    (b"1 OpenSession 6\n", b"0 1\n"),
    (b"# x\n1 GetTokenInfo\n", b"0 404 64 1 1\n"),
    (b"1 GetTokenInfo\n1 GetTok", b"0 404 64 1 1\n"),
    (b"enInfo\n", b"0 404 64 1 1\n"),
]

# How the program ends: what it writes to standard error, and its status.
PLAYED = (b"", 0)
READ_FAULT = (b"ck_run: read fault\n", 3)
WRITE_FAULT = (b"ck_run: write fault\n", 3)
NO_MEMORY = (b"ck_run: out of memory\n", 3)
NO_THREAD = (b"ck_run: thread not started\n", 3)


def bad_script(line, reason):
    return b"ck_run: line %d: bad script: %b\n" % (line, reason), 1


def bad_arguments(reason):
    return b"ck_run: bad arguments: %b\n" % reason, 2


# All ends that are tried, with nothing for the reason of a bad line and of bad arguments.
ENDS = [PLAYED, bad_script(2, b""), bad_arguments(b""), READ_FAULT, WRITE_FAULT, NO_MEMORY,
        NO_THREAD]

# All reasons of bad lines that are tried.
REASONS = [TOO_LONG, CALLER_ABOVE_2, *(reason for _, reason in BAD_LINES)]

# The seconds in which a reply comes.
SECONDS_OF_REPLY = 10

# The seconds of work in which a line is judged, however long it is.
SOON = 2


class Checks:
    """Checks of one name, and the line of each test."""

    def __init__(self, name):
        self.name = name
        self.failed = 0
        self.checked = 0
        self.faults = []

    def expect(self, is_right, fault):
        self.checked += 1
        if not is_right:
            self.faults.append(fault)

    def end(self, name):
        """Ends a test, and writes its line. A test without a check fails."""
        self.expect(self.checked > 0, "nothing was checked")
        for fault in self.faults:
            print(f"  {fault}", file=sys.stderr)
        self.failed += bool(self.faults)
        print(f"{'FAILED' if self.faults else 'passed'} {self.name}: {name}", flush=True)
        self.checked, self.faults = 0, []

    def status(self):
        return 1 if self.failed else 0


def front_of(text):
    """The beginning of what was written, where something is known of it, as it is shown."""
    return repr(text and text[:300])


class Tests(Checks):
    """The tests of one program."""

    def __init__(self, program, name="program"):
        super().__init__(name)
        self.program = os.path.abspath(program)

    def run(self, words, script, **files):
        """What the program writes to standard output and to standard error, and its status."""
        files = {"stdout": subprocess.PIPE, "stderr": subprocess.PIPE, **files}
        if "stdin" not in files:
            files["input"] = script
        try:
            ended = subprocess.run([self.program, *words], timeout=SECONDS, **files)
        except subprocess.TimeoutExpired:
            return b"", b"", f"no end in {SECONDS} seconds"
        return ended.stdout, ended.stderr, ended.returncode

    def check(self, words, script, output, errors, status, **files):
        """The program writes this and ends so."""
        made = self.run(words, script, **files)
        shown = script if len(script or b"") < 200 else f"a script of {len(script)} bytes"
        came = f"{front_of(made[0])} {front_of(made[1])} {made[2]}"
        wanted = f"{front_of(output)} {front_of(errors)} {status}"
        self.expect(made == (output, errors, status),
                    f"{words} {shown} {files}: {came}, and not {wanted}")


def scripts(tests):
    tests.check([], b"", b"", *PLAYED)
    tests.check([], b"1 InitToken 31323334", b"0\n", *PLAYED)
    tests.check([], FIRST_CALLS, FIRST_REPLIES, *PLAYED)
    tests.check([], TWO_CALLERS, FIRST_REPLIES + b"0\nb3\n", *PLAYED)
    tests.check([], b"1 InitToken 31323334\n\n# x\n1 Nope\n", b"0\n", *bad_script(4, NO_CALL))
    tests.end("a script is played line by line")


def reply_to(process, line):
    """What a program writes after this line, or nothing where it doesn't or has ended."""
    try:
        process.stdin.write(line)
    except BrokenPipeError:
        return b""
    is_written = select.select([process.stdout], [], [], SECONDS_OF_REPLY)[0]
    return process.stdout.read(99) if is_written else b""


def end_of(process):
    """What a program still writes when its standard input ends, and its status."""
    try:
        output, errors = process.communicate(timeout=SECONDS)
    except subprocess.TimeoutExpired:
        process.kill()
        return b"", b"", f"no end in {SECONDS} seconds"
    return output, errors, process.returncode


def dialogue(tests):
    with subprocess.Popen([tests.program], bufsize=0, stdin=subprocess.PIPE,
                          stdout=subprocess.PIPE, stderr=subprocess.PIPE) as process:
        for line, reply in DIALOGUE:
            came = reply_to(process, line)
            tests.expect(came == reply, f"{line}: {came}, and not {reply}")
            if came != reply:
                break
        end = end_of(process)
        tests.expect(end == (b"", *PLAYED), f"after the last line: {end}")
    tests.end("each line is answered before the next one comes")


def check_bad_line(tests, line, reason):
    script = b"1 InitToken 31323334\n" + line + b"\n1 GetTokenInfo\n"
    tests.check([], script, b"0\n", *bad_script(2, reason))
    tests.check(["--callers", "8"], script, b"", *bad_script(2, reason))


def bad_lines(tests):
    for line, reason in BAD_LINES:
        check_bad_line(tests, line, reason)
    tests.end("each reason of a bad line")
    for line, reason in LINES_WITH_FAULTS:
        check_bad_line(tests, line, reason)
    tests.end("of several faults of a line the first is named")


def seconds_of_programs():
    """The seconds that the programs have worked so far, however long they had to wait."""
    used = resource.getrusage(resource.RUSAGE_CHILDREN)
    return used.ru_utime + used.ru_stime


def names(tests):
    for name, reason in NAMES:
        check_bad_line(tests, b"1 " + name, reason)
    for name in (b"x" * (LONGEST_LINE - 2), b"C_Login" * ((LONGEST_LINE - 2) // 7)):
        before = seconds_of_programs()
        check_bad_line(tests, b"1 " + name, NO_CALL)
        seconds = seconds_of_programs() - before
        tests.expect(seconds <= 2 * SOON,
                     f"a name of {len(name)} bytes took {seconds} seconds in two runs")
    tests.end("names that are near to a call's, and names of 4 million letters")


def longest_lines(tests):
    end = bad_script(1, TOO_LONG)
    comment = b"#" * LONGEST_LINE
    call = b"1 InitToken " + b"31" * ((LONGEST_LINE - 12) // 2)
    tests.check([], comment, b"", *PLAYED)
    tests.check([], comment + b"\n1 InitToken 31323334\n", b"0\n", *PLAYED)
    tests.check([], comment + b"#\n", b"", *end)
    tests.check([], comment + b"#", b"", *end)
    tests.check([], b"\xef\xbb\xbf" + b"1" * LONGEST_LINE + b"\r", b"", *end)
    tests.check([], call + b"\n", b"a2\n", *PLAYED)
    tests.check([], call + b"3\n", b"", *end)
    for words in (["--callers", "1"], ["--callers", "8"]):
        tests.check(words, comment, b"entries 0\naudit ok\n", *PLAYED)
        tests.check(words, comment + b"#\n", b"", *end)
    tests.end("lines of 4,194,304 bytes and of one more")


def long_lists(tests):
    """A line may have as many queries and items as it has room for, and a value or a parameter as
    many bytes."""
    start = b"1 InitToken 31323334\n1 OpenSession 6\n"
    queries = b"1 GetAttributeValue 1 1 " + b"3:?," * MANY_ITEMS + b"3:?\n"
    items = b"1 FindObjectsInit 1 " + b"3=-," * MANY_ITEMS + b"3=-\n"
    tests.check([], start + queries + items, b"0\n0 1\n82\n0\n", *PLAYED)
    tests.check(["--callers", "1"], start + queries + items, b"entries 4\naudit ok\n", *PLAYED)
    for rows, count in ((LABELLED, MANY_LABELS), (LABELLED_SHORT, 10_000)):
        labels = b",3=61" * count
        calls = b"".join(b"1 %b\n" % (call % labels) for call, _ in rows)
        replies = b"".join(reply + b"\n" for _, reply in rows)
        tests.check([], start + calls, b"0\n0 1\n" + replies, *PLAYED)
        tests.check(["--callers", "1"], start + calls, b"entries %d\naudit ok\n" % (len(rows) + 2),
                    *PLAYED)
    front = b"1 CreateObject 1 0=0000000000000000,11="
    value = b"61" * ((LONGEST_LINE - len(front)) // 2)
    calls = front + value + b"\n1 GetAttributeValue 1 1 11:?,11:%d\n" % (len(value) // 2)
    tests.check([], start + calls, b"0\n0 1\n0 1\n0 :%d,=%b\n" % (len(value) // 2, value), *PLAYED)
    parameter = b"1 DigestInit 1 250:" + b"00" * LONG_PARAMETER + b"\n"
    tests.check([], start + parameter, b"0\n0 1\n71\n", *PLAYED)
    # callers make copies of their calls, and so does an audit
    tests.check(["--callers", "1"], start + calls + parameter, b"entries 5\naudit ok\n", *PLAYED)
    tests.end("lists, values and a parameter that fill the longest line")


def long_replies(tests):
    """A reply may have as many handles and answers as the call asks for."""
    handles = [b"%d" % (number + 1) for number in range(MANY_FOUND)]
    calls = (b"1 InitToken 31323334\n1 OpenSession 6\n"
             + b"1 CreateObject 1 0=0000000000000000\n" * MANY_FOUND
             + b"1 FindObjectsInit 1 -\n1 FindObjects 1 %d\n" % MANY_FOUND
             + b"1 GetAttributeValue 1 1 " + b",".join([b"3:?"] * MANY_ANSWERS) + b"\n")
    answers = b",".join([b":0"] * MANY_ANSWERS)
    replies = (b"0\n0 1\n" + b"".join(b"0 %b\n" % handle for handle in handles)
               + b"0\n0 %b\n0 %b\n" % (b",".join(handles), answers))
    tests.check([], calls, replies, *PLAYED)
    value = b"61" * 1_000_000
    calls = (b"1 InitToken 31323334\n1 OpenSession 6\n"
             + b"1 CreateObject 1 0=0000000000000000,11=%b\n" % value
             + b"1 GetAttributeValue 1 1 %b\n" % b",".join([b"11:1000000"] * LONG_ANSWERS))
    replies = b"0\n0 1\n0 1\n0 %b\n" % b",".join([b"=" + value] * LONG_ANSWERS)
    tests.check([], calls, replies, *PLAYED)
    tests.end("replies with many handles, with many answers and with long ones")


def each_call(sessions):
    """Each call, and the reply to each, behind so many sessions with two objects each."""
    numbers = {"session": sessions + 2, "created": 2 * sessions + 2, "copied": 2 * sessions + 3,
               "generated": 2 * sessions + 4}
    calls = "".join(f"1 {call}\n".format(**numbers) for call, _ in EACH_CALL)
    replies = "".join(f"{reply}\n".format(**numbers) for _, reply in EACH_CALL)
    return calls.encode(), replies.encode()


def long_history(tests):
    """Each call is answered, however many calls, sessions and objects there were before."""
    sessions = range(2, MANY_SESSIONS + 2)
    calls = [b"1 OpenSession 6\n1 CreateObject %d 0=0000000000000000\n"
             b"1 CopyObject %d %d -\n1 CloseSession %d\n" % (it, it, 2 * it - 2, it)
             for it in sessions]
    replies = [b"0 %d\n0 %d\n0 %d\n0\n" % (it, 2 * it - 2, 2 * it - 1) for it in sessions]
    made, came = each_call(MANY_SESSIONS)
    tests.check([], FIRST_OF_MANY + ONE_OF_MANY * MANY + b"".join(calls) + made,
                b"0\n0 1\n0 1\n" + REPLY_TO_EACH * MANY + b"".join(replies) + came, *PLAYED)
    tests.end("each call behind many others")


def small_stacks(tests):
    """Each call, a long line, what is wrong and eight callers need little room on their stacks."""
    most = resource.getrlimit(resource.RLIMIT_STACK)[1]
    short = {"preexec_fn": lambda: resource.setrlimit(resource.RLIMIT_STACK, (SMALL_STACK, most))}
    calls, replies = each_call(0)
    calls = FIRST_OF_MANY + calls
    tests.check([], calls, b"0\n0 1\n0 1\n" + replies, *PLAYED, **short)
    tests.check(["--callers", "1"], calls, b"entries %d\naudit ok\n" % calls.count(b"\n"), *PLAYED,
                **short)
    tests.check(["--callers", "8"], ONE_OF_EIGHT, b"entries 8\naudit ok\n", *PLAYED, **short)
    labels = b"1 CreateObject 1 0=0000000000000000" + b",3=61" * MANY_LABELS + b"\n"
    start = b"1 InitToken 31323334\n1 OpenSession 6\n"
    tests.check([], start + labels, b"0\n0 1\n0 1\n", *PLAYED, **short)
    tests.check(["--callers", "1"], start + labels, b"entries 3\naudit ok\n", *PLAYED, **short)
    tests.check([], b"1 Nope\n", b"", *bad_script(1, NO_CALL), **short)
    tests.check(["--callers", "9"], b"", b"", *bad_arguments(CALLERS), **short)
    tests.end("stacks of 256 KiB")


def packets(tests):
    """A read asks for many bytes: what it leaves of a packet is lost, and here that is a call."""
    call = b"\n1 InitToken 31323334\n"
    packet = b"#".ljust(PACKET - len(call), b"x") + call
    for words, output in (([], b"0\n0 1\n"), (["--callers", "1"], b"entries 2\naudit ok\n")):
        ours, theirs = socket.socketpair(socket.AF_UNIX, socket.SOCK_SEQPACKET)
        with ours, theirs:
            ours.send(packet)
            ours.send(b"1 OpenSession 6\n")
            ours.shutdown(socket.SHUT_WR)
            tests.check(words, None, output, *PLAYED, stdin=theirs)
    tests.end("packets are read whole")


def read_packets(end, packets):
    """Adds the packets that come at this end until the other one is closed."""
    packets.extend(iter(lambda: end.recv(2 * PACKET), b""))


def single_writes(tests):
    """A reply is one write, and so are the two lines of callers: who reads packets gets them
    whole."""
    mechanisms = b"0 250,251,252,255,256,257,260,261,262,270,271,272,350\n"
    lengths = b"0 " + b",".join([b":0"] * QUERIES) + b"\n"
    script = (b"1 InitToken 31323334\n1 GetMechanismList\n1 GetTokenInfo\n1 OpenSession 6\n"
              b"1 CreateObject 1 0=0000000000000000\n"
              b"1 GetAttributeValue 1 1 " + b",".join([b"3:?"] * QUERIES) + b"\n")
    replies = [b"0\n", mechanisms, b"0 404 64 0 0\n", b"0 1\n", b"0 1\n", lengths]
    for words, wanted in (([], replies), (["--callers", "1"], [b"entries 6\naudit ok\n"])):
        ours, theirs = socket.socketpair(socket.AF_UNIX, socket.SOCK_SEQPACKET)
        packets_of_run = []
        # They are read while they are written: a program that writes many would wait otherwise.
        reader = threading.Thread(target=read_packets, args=(ours, packets_of_run))
        with ours, theirs:
            reader.start()
            _, errors, status = tests.run(words, script, stdout=theirs)
            theirs.close()
            reader.join()
        tests.expect((packets_of_run, errors, status) == (wanted, *PLAYED),
                     f"{words}: {packets_of_run}, {errors}, {status}")
    tests.end("replies are written whole")


def single_errors(tests):
    """What went wrong is told in one write on standard error."""
    for words, script, wanted in (([], b"1 Nope\n", 1), (["--callers", "0"], b"", 2)):
        ours, theirs = socket.socketpair(socket.AF_UNIX, socket.SOCK_SEQPACKET)
        with ours, theirs:
            output, _, status = tests.run(words, script, stderr=theirs)
            theirs.close()
            told = list(iter(lambda: ours.recv(PACKET), b""))
        tests.expect((output, status, len(told)) == (b"", wanted, 1) and told[0][-1:] == b"\n",
                     f"{words}: {output}, {status}, {told}")
    tests.end("what went wrong is told in one write")


def callers(tests):
    for words in (["--callers", "2"], ["--callers=2"], ["--callers", "8"]):
        tests.check(words, TWO_CALLERS, b"entries 8\naudit ok\n", *PLAYED)
    tests.check(["--callers", "1"], FIRST_CALLS, b"entries 6\naudit ok\n", *PLAYED)
    # also where the last calls change sessions and objects
    tests.check(["--callers", "1"],
                b"1 InitToken 31323334\n" + ONE_OF_MANY * MANY
                + b"1 OpenSession 6\n1 CreateObject 1 0=0000000000000000\n",
                b"entries %d\naudit ok\n" % (MANY + 3), *PLAYED)
    # with these comments the script has 83 million bytes
    comments = (b"#" * LONGEST_LINE + b"\n") * 12
    tests.check(["--callers", "8"], comments + ONE_OF_EIGHT * (MANY // 8),
                b"entries %d\naudit ok\n" % MANY, *PLAYED)
    for count in range(1, 9):
        line = b"%d GetTokenInfo\n" % count
        tests.check(["--callers", str(count)], line, b"entries 1\naudit ok\n", *PLAYED)
        tests.check([f"--callers={count}"], line * 2, b"entries 2\naudit ok\n", *PLAYED)
    tests.check(["--callers", "2"], b"", b"entries 0\naudit ok\n", *PLAYED)
    tests.check(["--callers", "2"], TWO_CALLERS + b"3 GetTokenInfo\n", b"",
                *bad_script(9, CALLER_ABOVE_2))
    tests.check(["--callers", "5"], b"1 GetTokenInfo\n8 GetTokenInfo\n", b"",
                *bad_script(2, b"the caller is a number from 1 to 5"))
    tests.check(["--callers", "2"], b"3 Login x\n", b"",
                *bad_script(1, LOGIN_TAKES_3))
    tests.end("callers in threads")


def in_room(room):
    """How a program is started in an address space of so many bytes."""
    def leave_room():
        most = resource.getrlimit(resource.RLIMIT_STACK)[1]
        stack = STACK if most == resource.RLIM_INFINITY else min(STACK, most)
        resource.setrlimit(resource.RLIMIT_STACK, (stack, most))
        resource.setrlimit(resource.RLIMIT_AS, (room, room))

    return {"preexec_fn": leave_room}


def audits(tests):
    words = ["--callers", "1"]
    for more, room in ((0, ROOM), (2_000, ROOM), (LONG_JOURNAL, ROOM_OF_LONG)):
        calls = ONE_OF_MANY * more
        tests.check(words, LARGE_OBJECTS + b"1 CloseAllSessions\n" + calls,
                    b"entries %d\naudit ok\n" % (67 + more), *PLAYED, **in_room(room))
        tests.check(words, LARGE_OBJECTS + calls, b"", *NO_MEMORY, **in_room(room))
    tests.check(words, LARGE_OBJECTS + b"1 CopyObject 1 1 -\n" * 100, b"", *NO_MEMORY,
                **in_room(ROOM))
    # what was read of a long script gives its memory back before the calls are made
    tests.check(words, LONG_COMMENTS + LARGE_OBJECTS + b"1 CloseAllSessions\n",
                b"entries 67\naudit ok\n", *PLAYED, **in_room(ROOM))
    tests.end("the journal of callers is audited, and an audit or a call finds no memory for many "
              "objects")


def ended(tests):
    """Copies that are destroyed and searches that are ended give their memory back."""
    short = in_room(ROOM)
    start, replies = b"1 InitToken 31323334\n1 OpenSession 6\n", b"0\n0 1\n"
    value = b"1 CreateObject 1 0=0000000000000000,11=" + b"61" * 1_000_000 + b"\n"
    numbers = range(2, MANY_COPIES + 2)
    copies = b"".join(b"1 CopyObject 1 1 -\n1 DestroyObject 1 %d\n" % it for it in numbers)
    tests.check([], start + value + copies,
                replies + b"0 1\n" + b"".join(b"0 %d\n0\n" % it for it in numbers), *PLAYED,
                **short)
    numbers = range(1, FOUND_BY_EACH + 1)
    searches = b"1 FindObjectsInit 1 -\n1 FindObjectsFinal 1\n" * MANY_SEARCHES
    tests.check([], start + b"1 CreateObject 1 0=0000000000000000\n" * len(numbers) + searches,
                replies + b"".join(b"0 %d\n" % it for it in numbers) + b"0\n0\n" * MANY_SEARCHES,
                *PLAYED, **short)
    tests.end("the memory of destroyed copies and of ended searches")


def memory(tests):
    """Objects and entries take no more memory than the page says. A token of which the journal
    takes twice as much has too little room here; and so has one in which searches that find one
    object have room for all."""
    numbers = range(1, MANY_CREATED + 1)
    calls = [f"1 CreateObject 1 0=0000000000000000,3={number:016x}" for number in numbers]
    replies = ["0", "0 1", *(f"0 {number}" for number in numbers)]
    for session in range(2, SESSIONS + 1):
        calls += ["1 OpenSession 6", f"1 FindObjectsInit {session} 3={session:016x}"]
        replies += [f"0 {session}", "0"]
    script = "\n".join(["1 InitToken 31323334", "1 OpenSession 6", *calls]).encode()
    tests.check([], script, "".join(reply + "\n" for reply in replies).encode(), *PLAYED,
                **in_room(ROOM_OF_CREATED))
    tests.end("the memory of objects, of entries and of searches")


def memory_of_entries(tests):
    """An entry takes no more memory than the page says, and handles that were found no more than
    they need."""
    tests.check([], ONE_OF_MANY * MANY_ENTRIES, b"0 4 64 0 0\n" * MANY_ENTRIES, *PLAYED,
                **in_room(ROOM_OF_ENTRIES))
    numbers = range(1, FOUND_HANDLES + 1)
    handles = b",".join(b"%d" % number for number in numbers)
    script = (b"1 InitToken 31323334\n1 OpenSession 6\n"
              + b"1 CreateObject 1 0=0000000000000000\n" * FOUND_HANDLES
              + b"1 FindObjectsInit 1 -\n1 FindObjects 1 99\n1 FindObjectsFinal 1\n"
              * HANDLE_SEARCHES)
    replies = (b"0\n0 1\n" + b"".join(b"0 %d\n" % number for number in numbers)
               + b"0\n0 %b\n0\n" % handles * HANDLE_SEARCHES)
    tests.check([], script, replies, *PLAYED, **in_room(ROOM_OF_HANDLES))
    tests.end("the memory of entries and of found handles")


def sessions_with_objects(tests):
    """The list of a session's objects takes no more memory than a few objects need."""
    numbers = range(1, SESSIONS + 1)
    calls = [*["1 OpenSession 6"] * SESSIONS,
             *(f"1 CreateObject {number} 0=0000000000000000" for number in numbers)]
    script = "".join(line + "\n" for line in ["1 InitToken 31323334", *calls]).encode()
    replies = "0\n" + "".join(f"0 {number}\n" for number in [*numbers, *numbers])
    tests.check([], script, replies.encode(), *PLAYED, **in_room(ROOM_OF_PROGRAM))
    tests.end("the memory of sessions with objects")


def many_changes(tests):
    """What a shared token takes for each call that changes sessions or logins it gives back."""
    count = 50_000
    script = b"1 InitToken 31323334\n" + b"".join(
        b"1 OpenSession 6\n1 CloseSession %d\n" % (number + 1) for number in range(count))
    tests.check(["--callers", "1"], script, b"entries %d\naudit ok\n" % (2 * count + 1), *PLAYED,
                **in_room(ROOM))
    tests.end("calls that open and close sessions leave no memory behind")


def memory_of_callers(tests):
    """Each caller has room for the calls that it makes, and not for those of the others."""
    # one heap for all threads: else the system sets room aside for more
    environment = {**os.environ, "MALLOC_ARENA_MAX": "1"}
    tests.check(["--callers", "8"], ONE_OF_EIGHT * CALLS_OF_EACH,
                b"entries %d\naudit ok\n" % (8 * CALLS_OF_EACH), *PLAYED, env=environment,
                **in_room(ROOM_OF_EIGHT))
    tests.end("the memory of callers")


def count_threads(tests, words, script):
    """How many threads the program has at once at the most, with the one that it begins with. And
    what it writes, and its status."""
    most, end = 0, time.monotonic() + SECONDS
    with tempfile.TemporaryFile() as file:
        file.write(script)
        file.seek(0)
        with subprocess.Popen([tests.program, *words], stdin=file, stdout=subprocess.PIPE,
                              stderr=subprocess.PIPE) as process:
            while process.poll() is None:
                most = max(most, len(os.listdir(f"/proc/{process.pid}/task")))
                if time.monotonic() > end:
                    process.kill()
            return most, end_of(process)


def side_by_side(tests):
    script = ONE_OF_EIGHT * 50_000
    for _ in range(TRIES):
        most, end = count_threads(tests, ["--callers", "8"], script)
        tests.expect(end == (b"entries 400000\naudit ok\n", *PLAYED), f"with eight callers: {end}")
        if most == THREADS_OF_EIGHT:
            break
    tests.expect(most == THREADS_OF_EIGHT, f"with eight callers there are {most} threads at once")
    tests.end("callers have their threads at the same time")


def threads_of_bench(tests):
    """Each caller of `share` has a thread of its own, besides the one that shares the token."""
    for _ in range(TRIES):
        most, (_, errors, status) = count_threads(Tests(BENCH), ["threads", str(ASKS)], b"")
        tests.expect((errors, status) == PLAYED, f"ck_bench: {errors}, status {status}")
        if most == THREADS_OF_FOUR:
            break
    tests.expect(most == THREADS_OF_FOUR, f"with four callers there are {most} threads at once")
    tests.end("each caller of ck_bench has a thread")


def count_sleeps(tests, script):
    """How often the threads sleep of four callers who make these calls."""
    before = resource.getrusage(resource.RUSAGE_CHILDREN).ru_nvcsw
    tests.check(["--callers", "4"], script, b"entries %d\naudit ok\n" % MANY_SHORT, *PLAYED)
    return resource.getrusage(resource.RUSAGE_CHILDREN).ru_nvcsw - before


def seldom_asleep(tests):
    """A caller of a short call looks for the lock again before it sleeps: what it sleeps then takes
    far longer than the call. Where the system takes the processor from the caller that has the
    lock, the others may sleep, so this is tried a few times."""
    script = b"".join(b"%d GetTokenInfo\n" % (1 + count % 4) for count in range(MANY_SHORT))
    for _ in range(TRIES):
        times = count_sleeps(tests, script)
        if times < MOST_SLEEPS:
            break
    tests.expect(times < MOST_SLEEPS, f"{MANY_SHORT} short calls slept {times} times")
    tests.end("callers of short calls seldom sleep")


def without_threads():
    """How a program is started that can make no thread. None where that can't be had."""
    most = resource.getrlimit(resource.RLIMIT_STACK)[1]
    if most != resource.RLIM_INFINITY and most < STACK_WITHOUT_ROOM:
        return None
    limits = (STACK_WITHOUT_ROOM, most)
    return {"preexec_fn": lambda: resource.setrlimit(resource.RLIMIT_STACK, limits)}


def threads(tests):
    refused = without_threads()
    if refused is None:
        print("skipped program: threads that can't be made, since stacks are limited for good",
              flush=True)
        return
    for words in (["--callers", "1"], ["--callers", "8"]):
        for script in (FIRST_CALLS, b""):
            tests.check(words, script, b"", *NO_THREAD, **refused)
    tests.check(["--callers", "8"], b"1 Nope\n", b"", *bad_script(1, NO_CALL), **refused)
    tests.check([], FIRST_CALLS, FIRST_REPLIES, *PLAYED, **refused)
    tests.end("threads that can't be made")


def threads_of_share(tests):
    """Callers of `share` work one after the other, in their order, where no thread can be made: the
    example of threads.md, which ck_threads is, writes the same. And no script is run then."""
    refused = without_threads()
    if refused is None:
        print("skipped program: callers that have no threads, since stacks are limited for good",
              flush=True)
        return
    with open(os.path.join(SHARING, "stdout"), "rb") as file:
        wanted = (file.read(), *PLAYED)
    made = Tests(os.path.join(SHARING, "out", "ck_threads")).run([], b"", **refused)
    tests.expect(made == wanted, f"ck_threads: {made}, and not {wanted}")
    for word, output in WITHOUT_THREADS:
        made = Tests(RACES).run([word], b"", **refused)
        tests.expect(made == (output, *PLAYED), f"ck_races {word}: {made}")
    made = Tests(RACES).run(["scripts"], b"")
    tests.expect(made == (WITH_THREADS, *PLAYED), f"ck_races scripts: {made}")
    tests.end("callers that work one after the other")


def arguments(tests):
    for words in (["--help"], ["-h"], ["-hx"], ["--callers", "2", "--help"]):
        tests.check(words, b"Nope\n", HELP, *PLAYED)
    for words, reason in BAD_ARGUMENTS:
        tests.check(words, b"1 InitToken 31323334\n", b"", *bad_arguments(reason))
    tests.end("arguments")


def readers(tests):
    folder = os.open("/", os.O_RDONLY)
    for words in ([], ["--callers", "2"]):
        tests.check(words, None, b"", *READ_FAULT, stdin=folder)
        tests.check(words, None, b"", *READ_FAULT, stdin=subprocess.DEVNULL,
                    preexec_fn=lambda: os.close(0))
    os.close(folder)
    tests.end("a reader that fails")


def writers(tests):
    for words in ([], ["--callers", "2"], ["--help"]):
        with open("/dev/full", "wb") as full:
            tests.check(words, TWO_CALLERS, None, *WRITE_FAULT, stdout=full)
        reading, writing = os.pipe()
        os.close(reading)
        tests.check(words, TWO_CALLERS, None, *WRITE_FAULT, stdout=writing)
        os.close(writing)
        tests.check(words, TWO_CALLERS, b"", *WRITE_FAULT, preexec_fn=lambda: os.close(1))
    with open("/dev/full", "wb") as full:
        tests.check([], b"", None, *PLAYED, stdout=full)
        tests.check(["--callers", "9"], b"", None, *bad_arguments(CALLERS), stdout=full)
        tests.check([], b"Nope\n", b"", None, 1, stderr=full)
    tests.end("a writer that fails")


def main(program):
    tests = Tests(program)
    scripts(tests)
    dialogue(tests)
    bad_lines(tests)
    names(tests)
    longest_lines(tests)
    long_lists(tests)
    long_replies(tests)
    long_history(tests)
    small_stacks(tests)
    packets(tests)
    single_writes(tests)
    single_errors(tests)
    callers(tests)
    audits(tests)
    ended(tests)
    memory(tests)
    memory_of_entries(tests)
    sessions_with_objects(tests)
    many_changes(tests)
    memory_of_callers(tests)
    side_by_side(tests)
    threads_of_bench(tests)
    seldom_asleep(tests)
    threads(tests)
    threads_of_share(tests)
    arguments(tests)
    readers(tests)
    writers(tests)
    return tests.status()


if __name__ == "__main__":
    sys.exit(main(sys.argv[1] if len(sys.argv) > 1 else PROGRAM))
