#!/usr/bin/env python3
"""Refuses each growth of memory, one after the other, of the programs that play cases, scripts and
the races of a shared token.

Each case of the files in crates/ck_cases/data except many_objects.cases, which has too many
growths, or of the files that are named, is played once for each growth of memory, which is refused.
What finds no memory, a call, a cut or an audit, the program of cases makes again after a look at
the journal: so the case passes, or the program itself is out of memory. Where it finds none a
second time either, it says so in other words, and that is a fault. The calls of a case are also
played as a script: all replies are written, or whole lines of their beginning, and the program
says that it is out of memory. The same script is played in threads, with `--callers 8`: it is
summed up, or nothing is written, since there was no memory or no thread. Where anything else comes,
it is printed, and the status is 1. Bad lines are left out, since they make no call. Some are played
by themselves: what is bad is told also where there is no memory for the arguments.

The calls of each race in crates/ck_races/data are made one after the other, in three ways. By two
callers of a shared token in turn: where one finds no memory, it knows what it did before and is
answered without the lock as before, and the other caller makes the call, which is one entry more.
By `run` on a token: where it stops, the journal has as many entries as calls were answered, and it
goes on. By a script of one caller, by `run_scripts`: the same. In the end the journal has an entry
for each call. Where there is no memory to share a token, it is shared then. Memory that lacks a
second time is a fault, for which ck_races has words of its own. With the argument `shared` only
these are played.

Calls for which room in the journal is reserved are made while every growth is refused. Scripts of
three callers are played by `run_scripts`: where a growth of a thread is refused, its script isn't
run, and the others are.

What is made again in a case is counted also where another case follows. What a cut takes out is
audited, as it was before the cut, which takes memory for each call with bytes; a cut that is
refused takes none for the objects. A refused creation, copy, generation or change takes no memory
for its object or its values, and a value of which only the length is asked, or for which there is
too little room, none either. A creation that finds no memory for the mark of a label is answered.
The journal takes memory for 512 entries at once. The help, a reason for bad arguments and one for a
bad name are written whole, or the program says that it is out of memory; the nearest name may lack.
And only where a growth of a thread is refused does the program say that one isn't started.

Each run without a refused growth must have growths, and in all some must be refused and something
made again: else the library that refuses them isn't loaded.

With the argument `short` every fourth growth of a case and of a script is refused, and every second
one of a race, so that it takes less time; but each one of long_journal.cases, searches.cases,
key_sequences.cases, digests.cases and signatures.cases. Which one is the first follows from the
name of the case, so that it isn't the same growths of all cases that are passed over.

The programs are crates/ck_cases/out/ck_cases, crates/ck_run/out/ck_run and
crates/ck_races/out/ck_races, built by `rt run` in their folders. This needs Linux with the GNU C
library, and a C compiler, `cc`, for growths.c beside this file.
"""
import collections
import concurrent.futures
import contextlib
import glob
import os
import select
import signal
import subprocess
import sys
import tempfile
import zlib

HERE = os.path.dirname(os.path.abspath(__file__))
CRATES = os.path.join(HERE, "..", "crates")
CASES = os.path.join(CRATES, "ck_cases", "out", "ck_cases")
SCRIPTS = os.path.join(CRATES, "ck_run", "out", "ck_run")
RACES = os.path.join(CRATES, "ck_races", "out", "ck_races")
RACES_DATA = os.path.join(CRATES, "ck_races", "data", "callers.races")
DATA = os.path.join(CRATES, "ck_cases", "data", "*.cases")
LONG = os.path.join(CRATES, "ck_cases", "data", "many_objects.cases")
# All growths of these are refused: of one of which a call makes the journal grow that has entries
# already, and of those with most kinds of calls.
WHOLE = [os.path.join(CRATES, "ck_cases", "data", f"{name}.cases") for name in (
    "long_journal", "searches", "key_sequences", "digests", "signatures")]
LARGEST = "limits largest"
BAD_LINE = " -> bad script: "
# A thread that gets no memory isn't started.
THREAD_ERRORS = (b"ck_run: out of memory\n", b"ck_run: thread not started\n")
MEMORY_ERRORS = (
    b"Error: out of memory\n",
    b"Error: memory allocation failed\n",
    # ck_cases, where its arguments are read and after it
    b"error: out of memory\n",
    b"ck_cases: out of memory\n",
)

# With `short` some 41,800 growths are refused. After some 6,700 of them something is made again.
# These are fewer where cases, races or growths are passed over.
LEAST_OF_SHORT = 38_000
LEAST_MADE_AGAIN = 6_000

# After so many seconds a run is ended, and counts as one that has failed.
SECONDS = 120

# Calls that create objects, each with bytes that a copy takes memory for.
CREATED = 50
CREATIONS = ["1 InitToken 31323334 -> 0", "1 OpenSession 6 -> 0 1", *(
    f"1 CreateObject 1 0=0000000000000000,3={'61' * 100} -> 0 {number}"
    for number in range(1, CREATED + 1))]

# Calls that are answered with as many growths as one another, behind these first ones: queries, and
# calls that are refused in a session that isn't open and, for their template, in one that is.
VALUE = f"11={'61' * 100}"
FIRST = f"1 InitToken 31323334\n1 OpenSession 6\n1 CreateObject 1 0=0000000000000000,{VALUE}\n"
PRIVATE = f"0=0000000000000000,2=01,{VALUE}"
ALIKE = [
    [f"1 GetAttributeValue 1 1 {query}" for query in ("10:?", "11:?", "11:5")],
    *([call.format(session) for session in (2, 1)] for call in (
        f"1 CreateObject {{}} {PRIVATE}",
        "1 CopyObject {} 1 2=01",
        f"1 GenerateKey {{}} 350 161=2000000000000000 {'61' * 32}",
        f"1 SetAttributeValue {{}} 1 1=00,{VALUE}",
    )),
]

# Bad lines that take memory for their arguments, each behind the beginning of a line that is bad for
# the same reason and takes none, and what fills that up to the same length.
BAD_LINES = [
    ("1 Logout ", "x", "1 Digest 1 61626364 xx"),
    ("1 Logout ", "x", "1 Digest x 61626364 32"),
    ("1 DigestUpdate 1 ", "6", "1 InitToken 616263646g"),
    ("1 DigestUpdate 1 ", "6", "1 CreateObject 1 3=6162,11=616"),
    ("1 DigestUpdate 1 ", "6", "1 GenerateKey 1 350:6 11=6162 6162"),
]

# A call that takes no memory itself, and for how many entries the journal takes memory at once.
FREE_CALL = b"1 GetTokenInfo\n"
SEGMENT = 512

# What ck_races writes of scripts of so many callers, and how many of them had a thread.
CALLERS = 3
STARTED = "scripts with a thread: {}\n"

# Words of ck_run and a script for which it writes a text, and what may lack of that.
TEXTS = [(["--help"], b"", b""), (["--nothing"], b"", b""),
         ([], b"1 Logn 1 1 31\n", b", the nearest is Login")]
NO_MEMORY = (3, b"", b"ck_run: out of memory\n")

# A call that takes memory each time it is made, also in an audit, and how many of them are cut.
CALL = "1 Digest 1 616263 32 -> b3"
CUT_CALLS = 100

# A short case with a call, an audit and a cut that take memory.
SHORT_CASE = [LARGEST, "1 InitToken 31323334 -> 0", "1 OpenSession 6 -> 0 1",
              f"1 CreateObject 1 0=0000000000000000,1=01,3={'61' * 100} -> 0 1",
              "1 CloseSession 1 -> 0", "audit largest -> legal", "cut -> entries 4"]
SECOND_TIME = b": out of memory a second time\n"

Ended = collections.namedtuple("Ended", "status output errors growths")


def build(folder):
    """The library that refuses a growth."""
    library = os.path.join(folder, "growths.so")
    source = os.path.join(HERE, "growths.c")
    subprocess.run(["cc", "-O2", "-shared", "-fPIC", "-o", library, source], check=True)
    return library


def status_of(child):
    """The status with which a process ends. Where it takes too long it is killed."""
    watched = os.pidfd_open(child)
    ends = select.poll()
    ends.register(watched, select.POLLIN)
    if not ends.poll(1000 * SECONDS):
        os.kill(child, signal.SIGKILL)
    os.close(watched)
    _, status = os.waitpid(child, 0)
    return os.WEXITSTATUS(status) if os.WIFEXITED(status) else -1


def play(library, words, text, growth, first=0, of_main=False, second=0):
    """One run of a command. Refuses the growths of the numbers `growth` and `second`, and each from
    number `first` on; 0 is none. With `of_main` those of the main thread alone are counted."""
    # Standard input, output and error, and descriptor 3, to which growths.c writes how many growths
    # there were.
    files = [tempfile.TemporaryFile() for _ in range(4)]
    files[0].write(text)
    files[0].seek(0)
    actions = [(os.POSIX_SPAWN_DUP2, file.fileno(), number) for number, file in enumerate(files)]
    environment = {"LD_PRELOAD": library, "REFUSED_GROWTH": str(growth),
                   "REFUSED_SECOND": str(second), "REFUSED_FROM": str(first),
                   "GROWTHS_OF_MAIN": str(int(of_main))}
    child = os.posix_spawn(words[0], words, environment, file_actions=actions)
    status = status_of(child)
    texts = []
    for file in files[1:]:
        file.seek(0)
        texts.append(file.read())
        file.close()
    files[0].close()
    return Ended(status, texts[0], texts[1], int(texts[2] or 0))


def cases_in(path):
    """The cases of a file without bad lines: of each its lines, the limits first, and the number of
    the first."""
    cases = []
    with open(path, encoding="utf-8", newline="\n") as file:
        for number, line in enumerate(file, 1):
            line = line.rstrip("\n")
            if line.startswith("limits "):
                cases.append((number, [line]))
            elif line and not line.startswith("#") and BAD_LINE not in line:
                if not cases:
                    cases.append((number, [LARGEST]))
                cases[-1][1].append(line)
    return cases


def races_in(path):
    """The races of a file: of each its lines, and the number of the first."""
    races = []
    with open(path, encoding="utf-8", newline="\n") as file:
        for number, line in enumerate(file, 1):
            line = line.rstrip("\n")
            if line.startswith("race"):
                races.append((number, []))
            if races:
                races[-1][1].append(line)
    return races


def calls_in(case):
    """The calls of a case, each with its reply."""
    steps = [line.split(" -> ", 1) for line in case[1:]]
    return [step for step in steps if step[0].split(" ")[0] not in ("cut", "journal", "audit")]


def is_case_right(ended, name, plain):
    """The case passes, or the program itself is out of memory."""
    if ended.output in (plain.output, plain.output[:-1] + b", 1 made again\n"):
        return ended.status == 0
    without_memory = (f"{name}: out of memory\n".encode(), b"out of memory\n")
    is_said = ended.output in without_memory or ended.errors in (
        *MEMORY_ERRORS, f"ck_cases: {name}: out of memory\n".encode())
    return ended.status == 1 and (is_said or not ended.output + ended.errors)


def is_script_right(ended, plain):
    """All replies are written, or whole lines of their beginning."""
    if ended.status == 0:
        return (ended.output, ended.errors) == (plain.output, b"")
    is_front = plain.output.startswith(ended.output) and ended.output[-1:] in (b"", b"\n")
    return is_front and (ended.status, ended.errors) == (3, b"ck_run: out of memory\n")


def is_summary_right(ended, plain):
    """The calls are summed up, or nothing is written."""
    if ended.output == plain.output:
        return ended.status == 0
    return (ended.status, ended.output) == (3, b"") and ended.errors in THREAD_ERRORS


def is_started_right(ended):
    """At most one script has no thread, or the program itself is out of memory."""
    if ended.status == 0:
        rights = [STARTED.format(CALLERS - lacking).encode() for lacking in (0, 1)]
        return ended.output in rights and ended.errors == b""
    return (ended.status, ended.output) == (1, b"") and ended.errors in (b"", *MEMORY_ERRORS)


def refused_numbers(name, growths, step):
    """The numbers of the growths that are refused of this many: one in `step`. The first of them
    follows from the name."""
    return range(1 + zlib.crc32(name.encode()) % step, growths + 1, step)


@contextlib.contextmanager
def file_of(lines):
    """The name of a file with these lines."""
    with tempfile.NamedTemporaryFile("w", suffix=".cases", encoding="utf-8", newline="\n") as file:
        file.write("\n".join(lines) + "\n")
        file.flush()
        yield file.name


def check_case(library, command, name, lines, passed, step):
    """How many growths the case is refused, after how many something was made again, and what was
    wrong. Without a refused growth this many pass: the lines of a case, or one race. Of the growths
    one in `step` is refused."""
    with file_of(lines) as path:
        words = [*command, path]
        plain = play(library, words, b"", 0)
        if plain.output != f"{path}: {passed} passed\n".encode() or plain.growths == 0:
            return 0, 0, [f"{name}: {plain}"]
        retries = 0
        faults = []
        numbers = refused_numbers(name, plain.growths, step)
        for growth in numbers:
            ended = play(library, words, b"", growth)
            retries += ended.output.endswith(b" made again\n")
            if not is_case_right(ended, path, plain):
                faults.append(f"{name}, growth {growth}: {ended}")
    return len(numbers), retries, faults


def check_calls(library, words, name, text, output, is_right, step):
    """The same of a script in place of a case, of which nothing is made again. Without a refused
    growth this output is written."""
    plain = play(library, words, text, 0)
    if (plain.status, plain.output) != (0, output) or plain.growths == 0:
        return 0, 0, [f"{name}: {plain}"]
    faults = []
    numbers = refused_numbers(name, plain.growths, step)
    for growth in numbers:
        ended = play(library, words, text, growth)
        if not is_right(ended, plain):
            faults.append(f"{name}, growth {growth}: {ended}")
    return len(numbers), 0, faults


def check_reserved(library):
    """Calls with reserved room take no memory, and are answered where every growth is refused."""
    reserving = play(library, [RACES, "reserve"], b"", 0)
    calling = play(library, [RACES, "reserved"], b"", 0)
    refused = play(library, [RACES, "reserved"], b"", 0, reserving.growths + 1)
    is_right = (reserving.status, calling.status, refused.status) == (0, 0, 0)
    if is_right and calling.growths == reserving.growths > 0:
        return 0, 0, []
    return 0, 0, [f"reserved calls: {reserving}, {calling}, {refused}"]


def check_next_case(library):
    """What is made again in a case is counted also where another case follows, without a call."""
    case = [LARGEST, CALL]
    alone = check_case(library, [CASES], "a case with a call", case, 1, 1)
    followed = check_case(library, [CASES], "a case and another", [*case, LARGEST], 1, 1)
    faults = alone[2] + followed[2]
    if not 0 < alone[1] <= followed[1]:
        faults.append(f"{alone[1]} times something is made again in a case, and {followed[1]} times"
                      " where another follows")
    return alone[0] + followed[0], alone[1] + followed[1], faults


def check_cut(library):
    """What a cut takes out is audited, as it was before: each call takes memory once more."""
    calls = [CALL] * CUT_CALLS
    growths = []
    for lines in (calls, [*calls, f"cut -> entries {CUT_CALLS}"]):
        with file_of(lines) as path:
            ended = play(library, [CASES, path], b"", 0)
            if ended.output != f"{path}: {len(lines)} passed\n".encode():
                return 0, 0, [f"{CUT_CALLS} calls and a cut: {ended}"]
            growths.append(ended.growths)
    if growths[1] < growths[0] + CUT_CALLS:
        return 0, 0, [f"{CUT_CALLS} calls have {growths[0]} growths, and {growths[1]} with a cut"]
    return 0, 0, []


def check_refused_cut(library):
    """A cut that is refused, since a session is open, makes no copies of the objects. The journal
    is audited before it."""
    growths = []
    for last in ("audit largest -> legal", "cut -> a session is open"):
        lines = [*CREATIONS, last]
        with file_of(lines) as path:
            ended = play(library, [CASES, path], b"", 0)
            if ended.output != f"{path}: {len(lines)} passed\n".encode():
                return 0, 0, [f"objects and a refused cut: {ended}"]
            growths.append(ended.growths)
    if growths[1] >= growths[0] + CREATED:
        return 0, 0, [f"an audit has {growths[0]} growths, and a refused cut {growths[1]}"]
    return 0, 0, []


def check_without_reply(library):
    """What is made again is counted behind the lines without a reply."""
    with file_of([CALL, "1 GetTokenInfo"]) as path:
        plain = play(library, [CASES, path], b"", 0)
        ends = [play(library, [CASES, path], b"", growth)
                for growth in range(1, plain.growths + 1)]
    counts = f"{path}: 1 passed, 1 without a reply\n".encode()
    faults = [f"a line without a reply: {ended}" for ended in ends
              if not is_case_right(ended, path, plain)]
    retries = sum(ended.output.endswith(b" made again\n") for ended in ends)
    if plain.output != counts or retries == 0:
        faults.append(f"a line without a reply: {plain}, {retries} times made again")
    return len(ends), retries, faults


def ends_with_second(library, words, growth):
    """How a program ends that is refused this growth and one behind it, which is each in turn."""
    most = play(library, words, b"", growth).growths
    for second in range(growth + 1, most + 1):
        yield play(library, words, b"", growth, second=second)


def check_second(library):
    """Whatever is made again may find no memory a second time, and is then told in other words.
    Where two things are made again, both are counted."""
    with file_of(SHORT_CASE) as path:
        words = [CASES, path]
        plain = play(library, words, b"", 0)
        again = [growth for growth in range(1, plain.growths + 1)
                 if play(library, words, b"", growth).output.endswith(b" made again\n")]
        rights = [(0, plain.output[:-1] + b", 2 made again\n"), (1, path.encode() + SECOND_TIME)]
        twice = [*ends_with_second(library, words, again[0])] if again else []
        faults = [] if rights[0] in [ended[:2] for ended in twice] else ["nothing made again twice"]
        for growth in again:
            for ended in ends_with_second(library, words, growth):
                if ended[:2] not in rights and not is_case_right(ended, path, plain):
                    faults.append(f"growth {growth} and another: {ended}")
                if ended[:2] == rights[1]:
                    break
            else:
                faults.append(f"growth {growth}: none is refused a second time")
    return len(again), len(again), faults


def check_alike(library):
    """Calls have as many growths as one another."""
    faults = []
    for calls in ALIKE:
        growths = [play(library, [SCRIPTS], f"{FIRST}{call}\n".encode(), 0).growths
                   for call in calls]
        if len({*growths}) != 1 or growths[0] == 0:
            faults.append(f"{calls} have {growths} growths")
    return 0, 0, faults


def count_passed_over(library, script):
    """After how many refused growths all replies are written nevertheless."""
    plain = play(library, [SCRIPTS], script.encode(), 0)
    ends = [play(library, [SCRIPTS], script.encode(), growth)
            for growth in range(1, plain.growths + 1)]
    return sum(ended[:3] == plain[:3] for ended in ends)


def check_marks(library):
    """A creation is answered where there is no memory for the mark of the object's label."""
    before = FIRST[:FIRST.index("1 CreateObject")]
    created, other = (count_passed_over(library, script) for script in (FIRST, before))
    if created == other + 1:
        return 0, 0, []
    return 0, 0, [f"with a creation {created} refused growths are passed over, and {other} without"]


def answers_to(library, line):
    """How a line is answered, how many growths it has, how often it finds no memory where one after
    the other is refused, and how else it is answered then."""
    script = f"{line}\n".encode()
    plain = play(library, [SCRIPTS], script, 0)
    ends = [play(library, [SCRIPTS], script, growth)[:3] for growth in range(1, plain.growths + 1)]
    others = [ended for ended in ends if ended not in (plain[:3], NO_MEMORY)]
    return plain[:3], plain.growths, ends.count(NO_MEMORY), others


def check_bad_lines(library):
    """What is bad is told also where there is no memory for the arguments."""
    faults = []
    for front, filler, line in BAD_LINES:
        told, growths, lacking, others = answers_to(library, line)
        wanted, fewer, least, none = answers_to(library, front.ljust(len(line), filler))
        if (told, lacking, others + none) != (wanted, least, []) or told[0] != 1:
            faults.append(f"{line}: {told}, {lacking} times without memory, {others}")
        elif growths <= fewer:
            faults.append(f"{line}: {growths} growths")
    return 0, 0, faults


def check_segment(library):
    """The journal takes memory for many entries at once, and no other for them."""
    one, many = (play(library, [SCRIPTS], FREE_CALL * calls, 0).growths for calls in (1, SEGMENT))
    return 0, 0, [] if one == many > 0 else [f"a call has {one} growths, and {SEGMENT} have {many}"]


def check_text(library, words, script, may_lack):
    """A text is written whole, or the program is out of memory."""
    plain = play(library, [SCRIPTS, *words], script, 0)
    rights = (plain[:3], (plain.status, plain.output, plain.errors.replace(may_lack, b"")),
              NO_MEMORY)
    faults = [] if plain.growths > 0 and plain[:3] != NO_MEMORY else [f"{words}: {plain}"]
    for growth in range(1, plain.growths + 1):
        ended = play(library, [SCRIPTS, *words], script, growth)
        if ended[:3] not in rights:
            faults.append(f"{words} {script}, growth {growth}: {ended}")
    return plain.growths, 0, faults


def check_threads(library, callers):
    """A thread has one growth of the main thread, or two: only where one of these is refused isn't
    it started."""
    text = b"".join(b"%d GetTokenInfo\n" % (number + 1) for number in range(callers))
    words = [SCRIPTS, "--callers", str(callers)]
    growths = play(library, words, text, 0, of_main=True).growths
    ends = [play(library, words, text, growth, of_main=True) for growth in range(1, growths + 1)]
    count = sum(ended.errors == THREAD_ERRORS[1] for ended in ends)
    if callers <= count <= 2 * callers:
        return growths, 0, []
    return growths, 0, [f"{callers} threads aren't started where {count} growths are refused"]


def check_some_threads(library):
    """Where no thread can be made for one of the scripts, all others are run."""
    words = [RACES, "scripts"]
    growths = play(library, words, b"", 0, of_main=True).growths
    ends = [play(library, words, b"", growth, of_main=True) for growth in range(1, growths + 1)]
    faults = [f"scripts of {CALLERS} callers: {ended}" for ended in ends
              if not is_started_right(ended)]
    lacking = [ended.output for ended in ends].count(STARTED.format(CALLERS - 1).encode())
    if not CALLERS <= lacking <= 2 * CALLERS:
        faults.append(f"one of {CALLERS} scripts has no thread {lacking} times")
    return growths, 0, faults


def checks_of_case(library, name, lines, step):
    """What is checked of a case: functions, each with its arguments."""
    yield check_case, library, [CASES], name, lines, len(lines) - 1, step
    if lines[0] == LARGEST:
        calls = calls_in(lines)
        text = "".join(call + "\n" for call, _ in calls).encode()
        replies = "".join(reply + "\n" for _, reply in calls).encode()
        yield (check_calls, library, [SCRIPTS], f"{name} as a script", text, replies,
               is_script_right, step)
        summary = b"entries %d\naudit ok\n" % len(calls)
        yield (check_calls, library, [SCRIPTS, "--callers", "8"], f"{name} in threads", text,
               summary, is_summary_right, step)


def checks_of_file(library, path, step):
    for number, lines in cases_in(path):
        yield from checks_of_case(library, f"{os.path.basename(path)}, line {number}", lines, step)


def checks_of_races(library, races, step):
    for number, lines in races:
        name = f"{os.path.basename(RACES_DATA)}, line {number}"
        yield check_case, library, [RACES, "in-turn"], name, lines, 1, step
    if races:
        yield check_reserved, library
        yield check_some_threads, library


def checks_of_counts(library):
    """What is checked of counts of a whole file: functions, each with its arguments."""
    yield check_next_case, library
    yield check_cut, library
    yield check_refused_cut, library


def checks_of_retries(library):
    """What is checked of what is made again: functions, each with its arguments."""
    yield check_without_reply, library
    yield check_second, library


def checks_of_scripts(library):
    """What is checked of growths of short scripts, and of texts: functions, each with its
    arguments."""
    yield check_alike, library
    yield check_marks, library
    yield check_bad_lines, library
    yield check_segment, library
    for words, script, may_lack in TEXTS:
        yield check_text, library, words, script, may_lack
    for callers in (1, 2):
        yield check_threads, library, callers


def main(paths, races, is_short=False):
    case_step, race_step = (4, 2) if is_short else (1, 1)
    pool = concurrent.futures.ThreadPoolExecutor(os.cpu_count())
    with tempfile.TemporaryDirectory() as folder, pool:
        library = build(folder)
        checks = list(checks_of_races(library, races, race_step))
        for path in paths:
            checks += checks_of_file(library, path, 1 if path in WHOLE else case_step)
        if paths:
            checks += [*checks_of_counts(library), *checks_of_retries(library),
                       *checks_of_scripts(library)]
        results = [made.result() for made in [pool.submit(*check) for check in checks]]
    faults = [fault for _, _, of_case in results for fault in of_case]
    growths = sum(refused for refused, _, _ in results)
    retries = sum(made_again for _, made_again, _ in results)
    least, least_again = (LEAST_OF_SHORT, LEAST_MADE_AGAIN) if is_short else (1, 1)
    if growths < least or retries < least_again:
        faults.append("too few growths were refused, or too little was made again")
    for fault in faults:
        print(fault)
    print(f"{growths} growths refused, {retries} times made again, {len(faults)} faults")
    return 1 if faults else 0


if __name__ == "__main__":
    every_case = sorted(set(glob.glob(DATA)) - {LONG})
    if sys.argv[1:] == ["shared"]:
        sys.exit(main([], races_in(RACES_DATA)))
    if sys.argv[1:] == ["short"]:
        sys.exit(main(every_case, races_in(RACES_DATA), is_short=True))
    if sys.argv[1:]:
        sys.exit(main(sys.argv[1:], []))
    sys.exit(main(every_case, races_in(RACES_DATA)))
