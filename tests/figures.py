#!/usr/bin/env python3
"""Looks at the scripts of bench/ that measure: whether they read the figures of programs, and judge
them as is wanted. Nothing is measured for that: small programs and tables give fixed figures. First
all are at their bounds, which is good, and then one after the other is beyond its bound, which must
be told. And the scripts of calls that are measured are played.

The program that plays them is crates/ck_run/out/ck_run, which `rt ci` leaves, or the one that is
named. What crates/ck_bench/out/ck_bench says of few calls and of many is compared, and of messages
and of their hashes. For each test a line is printed that begins with passed or FAILED, and the
status is 1 where one failed.
"""
import contextlib
import copy
import hmac
import io
import os
import re
import sys
import tempfile
from unittest import mock

import program

sys.path.insert(0, os.path.join(program.HERE, "..", "bench"))
import make_script
import measure
import module

PROGRAM = program.PROGRAM
BENCH = measure.FIGURES_PROGRAM

# How many lines or objects the scripts have that are played, and in a crowd how many labels are
# read, so that this doesn't take long.
SIZE = 30
make_script.LABEL_ROUNDS = 1_000

# How many calls are few and many, how many times as long the many must take, and how many times as
# long as these an audit of as many entries may take, or they as long as it.
FEW, MANY = 1_000, 100_000
LEAST_GROWTH = 20
MOST_OF_AUDIT = 8

# How often ck_bench is run at most until its times are so: one may be longer while the machine does
# other work, with which caches are shared. A run without times isn't tried again.
RUNS = 6

# How many times each of these calls is made, and how many times as long they may take as `sha2`
# alone takes for their messages. Calls that hash each message twice take twice as long.
MESSAGES = 30
MOST_OF_HASHES = 1.5
MESSAGE = b"a" * 100_000
SIGNATURE = hmac.digest(b"key", MESSAGE, "sha256").hex()
FIRST_CALLS = """\
1 InitToken 31323334
1 OpenSession 6
1 CreateObject 1 0=0400000000000000,100=1000000000000000,11=6b6579,2=00,108=01,10a=01
"""
TAKING_CALLS = {
    "a digest": ["DigestInit 1 250", "Digest 1 MESSAGE 32"],
    "a digest of a piece": ["DigestInit 1 250", "DigestUpdate 1 MESSAGE", "DigestFinal 1 32"],
    "a signature": ["SignInit 1 251 1", "Sign 1 MESSAGE 32"],
    "a signature of a piece": ["SignInit 1 251 1", "SignUpdate 1 MESSAGE", "SignFinal 1 32"],
    "a verification": ["VerifyInit 1 251 1", f"Verify 1 MESSAGE {SIGNATURE}"],
    "a verification of a piece": [
        "VerifyInit 1 251 1", "VerifyUpdate 1 MESSAGE", f"VerifyFinal 1 {SIGNATURE}"],
}

# Short calls that a token answers which isn't shared, and that one caller makes by the lock; and
# how many times as long as the former the latter may take: up to four times is usual.
SHORT_CALLS = {
    "calls": "1 GetTokenInfo\n" * MANY,
    "changes": "".join(f"1 OpenSession 6\n1 CloseSession {number + 2}\n"
                       for number in range(MANY // 4)),
}
MOST_BY_LOCK = 8

# How often callers ask while the longest histories grow: by three calls for each 25 questions, and
# behind them each caller asks once more.
ASKS = 1_700_000

# How many rounds a section of single calls has, and how many times it stands there.
ROUNDS = 1_000
TIMES = 10

# How many times as long as among 1,000 objects a call may take among 100,000, which is 1,000 ns.
GROWTHS = {"create": 2, "get label": 2, "change": 2, "destroy": 2, "destroy all, each": 2,
           "open and close (both together)": 1.5, "login and logout (both together)": 1.5}

# The nanoseconds of sections of ck_bench, by where they are measured: all at their bounds.
FIGURES = {
    **{(1_000, name): 1_000 / growth for name, growth in GROWTHS.items()},
    **{(100_000, name): 1_000 for name in GROWTHS},
    (1_000, make_script.SEARCH): 12 * 1_000,
    (50_000, make_script.SEARCH): 30 * 50_000,
    **{(way, name): 100 * calls for way in ("unshared", "locked")
       for name, calls, _ in make_script.SINGLE_CALLS},
    ("locked", "session info"): (100 + 150) * 1_000,
    ("locked", "open and close, each"): (100 + 400) * 2_000,
    ("unshared", "audit"): 70,
    ("threads", "asks of one caller"): 100_000_000,
    ("threads", "asks of four callers"): 133_300_000,
    ("threads", "asks beside changes"): 111_100_000,
    ("threads", "changes of one caller"): 617_000_000,
    ("threads", "changes of four callers"): 685_000_000,
    ("threads", "digests of one caller"): 3_000,
    ("threads", "digests of four callers"): 4_000,
    ("threads", "wait beside digests"): 200_000,
    ("threads", "pause beside digests"): 900_000,
}

# Changes after each of which one figure isn't as wanted.
BEYOND = [
    *({(1_000, name): 1_000 / growth - 1} for name, growth in GROWTHS.items()),
    *({(1_000, name): 1_001, (100_000, name): 1_001} for name in GROWTHS),
    {(1_000, make_script.SEARCH): 12_001},
    {(50_000, make_script.SEARCH): 1_500_001},
    {("locked", "session info"): 250_001},
    {("locked", "open and close, each"): 1_000_001},
    {("threads", "asks of one caller"): 100_000_001},
    {("threads", "asks of four callers"): 133_400_000},
    {("threads", "asks beside changes"): 112_000_000},
    {("threads", "changes of one caller"): 616_000_000},
    {("threads", "changes of one caller"): 700_000_000,
     ("threads", "changes of four callers"): 686_000_000},
    {("threads", "digests of four callers"): 4_020},
    {("threads", "wait beside digests"): 200_001},
]

# The nanoseconds of rows of the module and its peers, by one thread and by four, all at their
# bounds; and of the token's own calls.
TIMES_OF_MODULES = {threads: {peer: {"label": 500, "search": 500} for peer in
                              ("module", "SoftHSM", "NSS")} for threads in (1, 4)}
TIMES_OF_MODULES[4]["module"].update({module.MEDIAN_WAIT: 200_000, module.LONGEST_WAIT: 900_000})
TIMES_OF_TOKEN = {"label": 500}

# Another time of these rows, and how many faults are told then. Beside NSS only those rows are
# judged that the token's own call is fast enough for.
OTHER_TIMES = [
    ((1, "module", "label"), 501, 2),
    ((4, "module", "label"), 501, 2),
    ((1, "module", "search"), 501, 1),
    ((4, "module", "search"), 501, 1),
    ((1, "SoftHSM", "label"), 499, 1),
    ((4, "SoftHSM", "label"), 499, 1),
    ((1, "NSS", "label"), 499, 0),
    ((4, "NSS", "label"), 499, 1),
    ((4, "module", module.MEDIAN_WAIT), 200_001, 1),
    ((4, "module", module.LONGEST_WAIT), 900_001, 0),
]

# What a program of figures may write, with the least of them last.
BENCH_OUTPUT = """\
get label: 1000 calls, 0 refused
get label: 5000 ns
audit of 10 entries: true
audit: 700 ns
get label: 1000 calls, 0 refused
get label: 4000 ns
"""

# A client that has other times in each run.
CLIENT = f"""\
#!/bin/sh
echo >> "$0.runs"
runs=$(wc -l < "$0.runs")
echo "label: $((40 - 10 * runs))"
echo "{module.WAIT}: $((10 * runs))"
"""


@contextlib.contextmanager
def unseen():
    with contextlib.redirect_stdout(io.StringIO()):
        yield


def stops(function, *arguments):
    """Whether a script ends at once, since what a program wrote is wrong."""
    try:
        function(*arguments)
    except SystemExit:
        return True
    return False


def write_program(folder, text):
    path = os.path.join(folder, "program")
    with open(path, "w", encoding="utf-8") as file:
        file.write(text)
    os.chmod(path, 0o700)
    return path


def program_of(folder, output):
    """A program that writes this, whatever it is given."""
    return write_program(folder, f"#!/bin/sh\n/bin/cat > /dev/null\n/bin/cat << end\n{output}end\n")


# ---- What is read


def readings(tests):
    with tempfile.TemporaryDirectory() as folder:
        measure.FIGURES_PROGRAM = program_of(folder, BENCH_OUTPUT)
        times = measure.times_of("", "unshared")
        tests.expect(times == {"get label": [5000, 4000] * 5, "audit": [70] * 5}, f"{times}")
        tests.expect(measure.best_of(times) == {"get label": 4000, "audit": 70}, "the best times")
        for right, wrong in ((" 0 refused", " 1 refused"), (": true", ": false")):
            program_of(folder, BENCH_OUTPUT.replace(right, wrong))
            tests.expect(stops(measure.times_of, "", "unshared"), f"figures with{wrong} are taken")
        among = make_script.crowd_sections(SIZE)
        program_of(folder, "".join(f"{name}: {5 * rounds} ns\n" for name, rounds, _ in among))
        with mock.patch.object(measure, "check_crowd"):
            times = measure.times_among(PROGRAM, SIZE)
        tests.expect(times == {name: 5 for name, _, _ in among}, f"{times}")
    tests.end("figures of ck_bench")


def readings_of_module(tests):
    with tempfile.TemporaryDirectory() as folder:
        best = module.measure([write_program(folder, CLIENT)], dict(os.environ))
        tests.expect(best == {"label": 10, module.MEDIAN_WAIT: 20, module.LONGEST_WAIT: 30},
                     f"{best}")
        sections = [section for section, _ in module.TOKEN_CALLS.values()]
        module.BENCH = program_of(folder, "".join(
            BENCH_OUTPUT.replace("get label", section) for section in sections))
        times = module.token_times()
        wanted = {name: 4 * calls for name, (_, calls) in module.TOKEN_CALLS.items()}
        tests.expect(times == wanted, f"{times}, and not {wanted}")
    tests.end("figures of the module and of the token's calls")


# ---- What the built ck_bench says


def times_of_sections(text, *way):
    """The times that it writes of sections and of an audit, none where something is wrong."""
    with mock.patch.multiple(measure, FIGURES_PROGRAM=BENCH, FIGURE_RUNS=1):
        try:
            return measure.times_of(text, *way)
        except SystemExit:
            return {}


def are_times_of_calls(times, has_audit):
    """Whether the least time of many calls is far longer than that of few, and an audit, where
    there is one, makes each call again: in each try it takes about as long as they."""
    few, many, audits = (times.get(name, [0]) for name in ("few", "many", "audit"))
    is_audit_right = (MANY * max(audits) < MOST_OF_AUDIT * min(many)
                      and min(many) < MOST_OF_AUDIT * MANY * min(audits))
    return 0 < LEAST_GROWTH * min(few) < min(many) and (is_audit_right or not has_audit)


def times_of_calls(tests):
    """The times are those of the calls and of the audit."""
    call = "1 GetTokenInfo\n"
    text = f"#measure few\n{call * FEW}#measure many\n{call * MANY}"
    for way in ("unshared", "locked"):
        for _ in range(RUNS):
            times = times_of_sections(text, way)
            is_right = are_times_of_calls(times, way == "unshared")
            if is_right or not times:
                break
        tests.expect(is_right, f"{way}, ns of {FEW} calls, {MANY} calls and an entry: {times}")
    tests.end("times of few calls and of many, by the built ck_bench")


def are_hashed_once(times):
    """Whether the calls take less than half as long again as to hash their messages."""
    least = {name: min(tries) for name, tries in times.items()}
    return all(0 < least.get(name, 0) < MOST_OF_HASHES * least.get(f"{name}, only hashed", 0)
               for name in TAKING_CALLS)


def times_of_messages(tests):
    """A message that is taken in is hashed once."""
    text = FIRST_CALLS + "".join(
        f"#measure {name}\n" + "".join(f"1 {call}\n" for call in calls) * MESSAGES
        for name, calls in TAKING_CALLS.items()).replace("MESSAGE", MESSAGE.hex())
    for _ in range(RUNS):
        times = times_of_sections(text, "hashed")
        is_right = are_hashed_once(times)
        if is_right or not times:
            break
    tests.expect(is_right, f"ns of {MESSAGES} messages: {times}")
    tests.end("times of messages and of their hashes, by the built ck_bench")


def are_fast_by_lock(unshared, locked):
    """Whether short calls by the lock take less than eight times as long as others."""
    return all(0 < min(locked.get(name, [0])) < MOST_BY_LOCK * min(unshared.get(name, [0]))
               for name in SHORT_CALLS)


def times_by_lock(tests):
    """The lock, and what is kept beside the token, take not much longer than a short call."""
    text = "1 InitToken 31323334\n1 OpenSession 6\n" + "".join(
        f"#measure {name}\n{calls}" for name, calls in SHORT_CALLS.items())
    for _ in range(RUNS):
        unshared, locked = (times_of_sections(text, way) for way in ("unshared", "locked"))
        is_right = are_fast_by_lock(unshared, locked)
        if is_right or not (unshared and locked):
            break
    tests.expect(is_right, f"ns of short calls: {unshared}, and by the lock {locked}")
    tests.end("times of short calls by the lock, by the built ck_bench")


def asks_behind_many_calls(tests):
    """Callers are answered without the lock behind 200,000 calls, too."""
    times = times_of_sections("", "threads", str(ASKS))
    names = {name for where, name in FIGURES if where == "threads"}
    tests.expect(set(times) == names, f"not all tasks of callers are done: {times}")
    tests.end("questions behind many calls, by the built ck_bench")


# ---- What is judged


def counts_of_callers(tests):
    """The callers of ck_bench make as many calls as bench/measure.py takes them to make, and those
    that ask behind many calls make 200,000 before."""
    with open(os.path.join(measure.CRATES, "ck_bench", "src", "threads.rt"),
              encoding="utf-8") as file:
        made = dict(re.findall(r"let (\w+) = Task::new\(Round::Change, asks / (\d+)\)",
                               file.read()))
    tests.expect(made == {"all_changes": "25", "change": "100"}, f"callers change: {made}")
    tests.expect(3 * ASKS // 25 >= 200_000, f"{ASKS} questions have too few calls beside them")
    tests.end("how many calls the callers of ck_bench make")


def figures_at(figures, where):
    return {name: time for (at, name), time in figures.items() if at == where}


def count_unmet(changes):
    """How many of the last figures aren't as wanted, after these changes of good ones."""
    figures = {**FIGURES, **changes}
    made = mock.patch.multiple(
        measure, script=lambda kind: "",
        times_among=lambda _, count: figures_at(figures, count),
        times_of=lambda _, way, *rest: {
            name: [time] for name, time in figures_at(figures, way).items()})
    with made, unseen():
        return measure.measure_figures(PROGRAM).count(False)


def bounds(tests):
    unmet = count_unmet({})
    tests.expect(unmet == 0, f"{unmet} of good figures aren't as wanted")
    for changes in BEYOND:
        unmet = count_unmet(changes)
        tests.expect(unmet == 1, f"{changes}: {unmet} figures aren't as wanted")
    with unseen():
        growths = [measure.is_within("lines", [1, 5, most], [1, 2, 3]) for most in (3, 3.01)]
        waits = [measure.is_wait_met({"wait beside digests": [1, wait, 900_000],
                                      "pause beside digests": [1]}) for wait in (200_000, 200_001)]
    tests.expect(growths == [True, False], f"3 and 3.01 times as much time: {growths}")
    tests.expect(waits == [True, False], f"medians of 200,000 and 200,001 ns: {waits}")
    tests.end("bounds of figures")


def faults_of_module(place, time):
    times = copy.deepcopy(TIMES_OF_MODULES)
    threads, name, row = place
    times[threads][name][row] = time
    return list(module.faults_of(times, TIMES_OF_TOKEN))


def faults_of_share(name, share):
    with mock.patch.object(module, "shares", lambda *_: [(name, share, 7)]), unseen():
        return list(module.share_faults("client", "folder"))


def bounds_of_module(tests):
    faults = list(module.faults_of(TIMES_OF_MODULES, TIMES_OF_TOKEN))
    tests.expect(faults == [], f"good times: {faults}")
    for place, time, count in OTHER_TIMES:
        faults = faults_of_module(place, time)
        tests.expect(len(faults) == count, f"{place}, {time} ns: {faults}")
    for peer in ("SoftHSM", "NSS"):
        times = {threads: {name: rows for name, rows in measured.items() if name != peer}
                 for threads, measured in TIMES_OF_MODULES.items()}
        faults = list(module.faults_of(times, TIMES_OF_TOKEN))
        tests.expect(len(faults) == 1, f"without {peer}: {faults}")
    for name in ("session info", "token info", "open and close", "label"):
        counts = [len(faults_of_share(name, share)) for share in (100, 101)]
        tests.expect(counts == [0, int(name != "label")], f"the module's share of {name}: {counts}")
    tests.end("bounds of the module's times")


# ---- Scripts that are measured


def sections_in(text):
    """The sections of a script: of each its name, and how many calls it has."""
    sections = []
    for line in text.splitlines():
        if line.startswith("#measure "):
            sections.append([line.removeprefix("#measure "), 0])
        elif sections:
            sections[-1][1] += 1
    return sections


def sections(tests):
    wanted = [[name, ROUNDS * len(calls(1, 1))] for name, _, calls in make_script.SINGLE_CALLS
              for _ in range(TIMES)]
    tests.expect(sections_in(make_script.script("single-calls")) == wanted, "single calls")
    wanted = [[name, rounds * len(calls(0))] for name, rounds, calls in
              make_script.crowd_sections(SIZE)]
    tests.expect(sections_in(make_script.script("crowd", SIZE)) == wanted, "a crowd")
    for words, is_right in (
            (["objects", "3"], True), (["single-calls"], True), (["objects"], False),
            (["objects", "x"], False), (["nothing", "3"], False), ([], False)):
        with mock.patch.object(sys, "argv", ["make_script.py", *words]), unseen():
            is_stopped = stops(make_script.main)
        tests.expect(is_stopped != is_right, f"make_script.py {words}: stopped: {is_stopped}")
    tests.end("sections of scripts, and the arguments of make_script.py")


def scripts(tests):
    for kind in (*make_script.ROUNDS, *make_script.OBJECTS):
        text = make_script.script(kind, SIZE)
        output, errors, status = tests.run([], text.encode())
        calls = [line for line in text.splitlines() if not line.startswith("#")]
        codes = [reply.split(b" ")[0] for reply in output.splitlines()]
        tests.expect((errors, status, codes) == (b"", 0, [b"0"] * len(calls)),
                     f"{kind}: {len(calls)} calls, {codes.count(b'0')} of {len(codes)} replies are "
                     f"CKR_OK, {errors!r:.300}, status {status}")
    tests.end("the calls of scripts")


def judges(tests):
    """Scripts of each kind whose replies are looked at, and others in their place."""
    searches, labels = (make_script.script(kind, SIZE) for kind in ("searches", "labels"))
    objects, crowd = (make_script.script(kind, SIZE) for kind in ("objects", "crowd"))
    wrong = "1 FindObjects 1 9\n"
    for is_right, judge, *arguments in (
            (True, measure.check_replies, objects, "objects", SIZE),
            (False, measure.check_replies, wrong, "objects", 1),
            (False, measure.check_replies, objects, "objects", SIZE + 1),
            (True, measure.check_searches, searches, SIZE),
            (False, measure.check_searches, labels, SIZE),
            (True, measure.check_crowd, crowd), (False, measure.check_crowd, wrong)):
        is_stopped = stops(judge, tests.program, *arguments)
        tests.expect(is_stopped != is_right, f"{judge.__name__}: stopped: {is_stopped}")
    tests.end("looks at the replies of scripts")


def main(path):
    tests = program.Tests(path, "figures")
    readings(tests)
    readings_of_module(tests)
    times_of_calls(tests)
    times_of_messages(tests)
    times_by_lock(tests)
    asks_behind_many_calls(tests)
    counts_of_callers(tests)
    bounds(tests)
    bounds_of_module(tests)
    sections(tests)
    scripts(tests)
    judges(tests)
    return tests.status()


if __name__ == "__main__":
    sys.exit(main(sys.argv[1] if len(sys.argv) > 1 else PROGRAM))
