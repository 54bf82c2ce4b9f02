#!/usr/bin/env python3
"""Looks at what no contract says of the built program ck_run: how its time grows. Only processor
time counts, and only by how much one script takes more of it than another, so that other work of
the machine makes little difference. Where it does, the scripts are played again.

The program is crates/ck_run/out/ck_run, which `rt ci` leaves, or the one that is named. For each
test a line is printed that begins with passed or FAILED, and the status is 1 where one failed.
"""
import subprocess
import sys

import program

PROGRAM = program.PROGRAM
FIRST_CALLS = ["1 InitToken 31323334", "1 OpenSession 6"]

# How often scripts are played at least, and at most, before what takes too long is told.
TRIES, MOST_TRIES = 3, 12

# How many objects there are, in scripts that are compared, and how many searches among the few and
# among the most. What gets slower behind a number of objects below the few is slow among fewer.
FEWER, FEW, MANY, MOST = 5_000, 20_000, 80_000, 280_000
SEARCHES, SEARCHES_OF_MOST = 2_000, 60

# How many digests are asked for, each of a message of this length.
DIGESTS, LENGTH = 500, 65_536

# How many times as long as these digests the short calls of a script may take, 160,000 at least. On
# the machine on which it was tried they took less time than the digests.
MOST_OF_DIGESTS = 3

# How much of the time of another search one by a label takes at most, and between which times as
# much four times as many take.
LABEL_PART = 3
LEAST_GROWTH, MOST_GROWTH = 2, 8

# What stands before and behind the number in a long label.
LONG_FRONT, LONG_END = "61" * 100, "62" * 14


# How calls end that are refused: digests without room, and queries of destroyed objects.
REFUSED_ENDS = " 31", " 3:7"


def refused_of(calls):
    """How many of these calls may be refused: some of other_calls, and those that end so."""
    return sum(call in REFUSED_CALLS or call.endswith(REFUSED_ENDS) for call in calls)


def seconds_of(tests, calls, words=()):
    """The processor time in which the program plays these calls, of which no others are refused
    than must be. The system's part is taken with it: of short runs the system only guesses which
    part is its own."""
    script = "".join(line + "\n" for line in FIRST_CALLS + calls).encode()
    before = program.seconds_of_programs()
    ended = subprocess.run([tests.program, *words], input=script, stdout=subprocess.PIPE,
                           check=False, timeout=program.SECONDS)
    seconds = program.seconds_of_programs() - before
    replies = ended.stdout.count(b"\n")
    wanted = 2 if words else len(FIRST_CALLS) + len(calls)
    tests.expect((ended.returncode, replies) == (0, wanted),
                 f"status {ended.returncode}, {replies} replies")
    if not words:
        answered = sum(reply.split(b" ")[0] == b"0" for reply in ended.stdout.splitlines())
        least = wanted - refused_of(calls)
        tests.expect(answered >= least, f"{answered} calls are CKR_OK, and not {least}")
    return seconds


def least_seconds(tests, scripts, holds, words=()):
    """The least processor time of each of these scripts, over a few times. They are played again
    while these times aren't as they must be, since other work of the machine, with which caches
    are shared, can make one take longer."""
    least = [float("inf")] * len(scripts)
    for tries in range(MOST_TRIES):
        if tries >= TRIES and holds(*least):
            break
        least = [min(seconds, seconds_of(tests, calls, words))
                 for seconds, calls in zip(least, scripts)]
    return least


def creations(count, front="", end=""):
    """Calls that create data objects, each with a label and an application of its own."""
    return [f"1 CreateObject 1 0=0000000000000000,3={front}{number:08x}{end},10={number:08x}"
            for number in range(count)]


def destructions(count):
    """Calls that destroy these objects, the first one first."""
    return [f"1 DestroyObject 1 {number + 1}" for number in range(count)]


def searches(count, front, end="", first=0):
    """Calls that search for this many objects, from this number on. Each search is for one, by a
    template with its number between these."""
    return [line for number in range(first, first + count) for line in (
        f"1 FindObjectsInit 1 {front}{number:08x}{end}", "1 FindObjects 1 2",
        "1 FindObjectsFinal 1")]


def changes(count, first=0):
    """Calls that give these objects the labels from this number on: from 0 on, they have them."""
    return [f"1 SetAttributeValue 1 {number + 1} 3={first + number:08x}"
            for number in range(count)]


def applications(count):
    """Calls that give these objects the applications that they have."""
    return [f"1 SetAttributeValue 1 {number + 1} 10={number:08x}" for number in range(count)]


def copies(count):
    """Calls that copy the first object, each time with a label of its own."""
    return [f"1 CopyObject 1 1 3={number:08x}" for number in range(count)]


def generations(count):
    """Calls that generate public keys, each with an identifier of its own."""
    return [f"1 GenerateKey 1 350 161=0100000000000000,2=00,102={number:08x} 00"
            for number in range(count)]


# Calls that log the user in.
LOGIN = ["1 Login 1 0 31323334", "1 InitPIN 1 75736572", "1 Logout 1", "1 Login 1 1 75736572"]


def private_objects(count, is_of_token="01"):
    """Calls that create private objects, with the user logged in, and log the user out. Those that
    aren't token objects end then."""
    return [*LOGIN, *[f"1 CreateObject 1 0=0000000000000000,1={is_of_token},2=01"] * count,
            "1 Logout 1"]


def single_results(count):
    """Calls that search for all of these objects, and get them one by one."""
    return ["1 FindObjectsInit 1 -"] + ["1 FindObjects 1 1"] * count


def thirds(count):
    """Calls that create objects in threes, and destroy two of each."""
    return [line for number in range(count) for line in (
        *["1 CreateObject 1 0=0000000000000000"] * 3,
        f"1 DestroyObject 1 {3 * number + 1}", f"1 DestroyObject 1 {3 * number + 2}")]


def scattered(count):
    """These calls, and then looks at those objects that are left, four times at each."""
    return thirds(count) + [
        f"1 GetAttributeValue 1 {3 * number + 3} 3:8" for number in range(count)] * 4


def missing(count):
    """These calls, and then queries of the destroyed objects."""
    return thirds(count) + [f"1 GetAttributeValue 1 {3 * number + place} 3:7"
                            for number in range(count) for place in (1, 2)]


def turnover(count):
    """Calls that create objects, two fewer than a power of two, and then create two more objects
    and destroy them, one pair after the other."""
    live = (1 << count.bit_length() - 1) - 2
    creation = "1 CreateObject 1 0=0000000000000000"
    return [creation] * live + [line for number in range(live + 1, live + count, 2) for line in (
        creation, creation, f"1 DestroyObject 1 {number}", f"1 DestroyObject 1 {number + 1}")]


def keys(count, placement="2=00"):
    """Calls that create keys, public ones if nothing else is said, each with a label and an
    identifier of its own."""
    return [f"1 CreateObject 1 0=0400000000000000,100=1000000000000000,11=00,{placement},"
            f"3={number:08x},102={number:08x}" for number in range(count)]


def key_states(count):
    """Calls that create keys, and set the state of each."""
    return keys(count) + [f"1 SetKeyState 1 {number + 1} 5" for number in range(count)]


def signatures(count):
    """Calls that create keys, and sign by each."""
    return keys(count) + [line for number in range(count) for line in (
        f"1 SignInit 1 251 {number + 1}", "1 Sign 1 61 32")]


def sessions(count, objects=0, closing="CloseSession {}", opening=(), kind="2=00"):
    """Calls that open sessions, one after the other, make these calls in each, create this many
    session objects in it, and close it by this call."""
    return [line for number in range(count) for line in (
        "1 OpenSession 6", *(call.format(number + 2) for call in opening),
        *[f"1 CreateObject {number + 2} 0=0000000000000000,{kind}"] * objects,
        "1 " + closing.format(number + 2))]


def logins(count, login="1 Login 1 0 31323334"):
    """Calls that log in and out."""
    return [login, "1 Logout 1"] * count


def initializations(count):
    """Calls that create objects, four times as many, and then initialize the token again and again,
    each time with one object."""
    return [*creations(4 * count), "1 CloseSession 1", *(line for number in range(count) for line in (
        "1 InitToken 31323334", "1 OpenSession 6",
        f"1 CreateObject {number + 2} 0=0000000000000000", f"1 CloseSession {number + 2}"))]


# Calls of the kinds that the other scripts lack, which leave the token as it was: on a digest, a
# signature, a verification, a key's state, PINs and a search, and some that are refused.
ROUND = """\
1 GetMechanismList
1 GetTokenInfo
1 GetSessionInfo 1
1 DigestInit 1 250
1 DigestUpdate 1 61
1 DigestFinal 1 32
1 DigestInit 1 250
1 Digest 1 61 32
1 SignInit 1 251 1
1 SignUpdate 1 61
1 SignFinal 1 ?
1 SignFinal 1 32
1 SignInit 1 251 1
1 Sign 1 61 32
1 VerifyInit 1 251 1
1 VerifyUpdate 1 61
1 VerifyFinal 1 61
1 VerifyInit 1 251 1
1 Verify 1 61 61
1 DigestInit 1 250
1 SessionCancel 1 400
1 SetKeyState 1 1 5
1 SetKeyState 1 1 1
1 FindObjectsInit 1 3=6162
1 FindObjectsFinal 1
1 Login 1 0 31323334
1 InitPIN 1 75736572
1 SetPIN 1 31323334 31323334
1 Logout 1
1 SignUpdate 1 61
1 DestroyObject 1 4096
1 CreateObject 1 -
1 CloseSession 2
""".split("\n")[:-1]


# Those of them that are refused, with some that other scripts have.
REFUSED_CALLS = {
    "1 VerifyFinal 1 61", "1 Verify 1 61 61", "1 SignUpdate 1 61", "1 DestroyObject 1 4096",
    "1 CreateObject 1 -", "1 CloseSession 2", "1 FindObjectsInit 1 3=00",
    "1 GetAttributeValue 1 1 11:?,11:5"}


def other_calls(count):
    """These calls, one time for each ten of the number, on a key that is active."""
    key = "1 CreateObject 1 0=0400000000000000,100=1000000000000000,11=00,2=00,108=01,10a=01"
    return [key, *ROUND * (count // 10)]


def refused_searches(count):
    """Calls that begin a search of all of these objects while another one is active."""
    return [*creations(count), "1 FindObjectsInit 1 -", *["1 FindObjectsInit 1 3=00"] * count]


def lengths(count):
    """Calls that ask for the length of a value, or have too little room for it."""
    value = "61" * 1_000_000
    return [f"1 CreateObject 1 0=0000000000000000,11={value}",
            *["1 GetAttributeValue 1 1 11:?,11:5"] * count]


def short_lengths(count):
    """As many, of a value that is short."""
    return ["1 CreateObject 1 0=0000000000000000,11=" + "61" * 16,
            *["1 GetAttributeValue 1 1 11:?,11:5"] * count]


def long_messages(count):
    """Calls of which some bring long messages, behind many others."""
    return [*["1 GetTokenInfo"] * (4 * count), "1 DigestInit 1 250",
            *["1 DigestUpdate 1 " + "61" * 4_096] * (count // 40)]


def comments(count):
    """Long comments."""
    return ["#" + "x" * 999] * count


def long_template(count):
    """A creation by this many equal labels, and as many equal applications."""
    return [f"1 CreateObject 1 0=0000000000000000{',3=61' * count}{',10=61' * count}"]


def long_templates(count):
    """Forty creations by as many items together."""
    return long_template(count // 40) * 40


def long_searches(count):
    """A few searches of one object, which has all of this many equal labels, and as many equal
    applications."""
    template = f"0=0000000000000000{',3=61' * count}{',10=61' * count}"
    return ["1 CreateObject 1 0=0000000000000000,3=61,10=61",
            *[f"1 FindObjectsInit 1 {template}", "1 FindObjects 1 9", "1 FindObjectsFinal 1"] * 5]


def long_queries(count):
    """Calls that ask for the lengths of this many values at once, each a few times."""
    queries = ",".join(["3:?"] * count)
    return ["1 CreateObject 1 0=0000000000000000", *[f"1 GetAttributeValue 1 1 {queries}"] * 5]


def is_faster_by_label(before, with_labels, with_others):
    """Whether searches by a label take less than a third of the time of as many others."""
    return (with_labels - before) * LABEL_PART < with_others - before


def label_searches(tests):
    """A search by a label passes over most objects without reading them, where labels are long,
    were given anew or were changed, where other attributes were given anew, where other objects
    have been destroyed before, where the template has other attributes, too, among keys, also
    private ones of a user who is logged in, and among many.
    Each row has calls, the searches behind them by a label, and as many others."""
    made, most = creations(FEW), creations(MOST)
    by_label, by_other = searches(SEARCHES, "3="), searches(SEARCHES, "10=")
    for first, labels, others in (
            (creations(FEW, LONG_FRONT, LONG_END),
             searches(SEARCHES, "3=" + LONG_FRONT, LONG_END), by_other),
            (made, searches(SEARCHES, "0=0000000000000000,3="), by_other),
            (made, searches(SEARCHES, "0=0000000000000000,1=00,3="), by_other),
            (made, searches(SEARCHES, "3=", ",0=0000000000000000,1=00"), by_other),
            (made + changes(FEW), by_label, by_other),
            (made + changes(FEW, FEW), searches(SEARCHES, "3=", first=FEW), by_other),
            (made + applications(FEW), by_label, by_other),
            (creations(FEW, "00") + destructions(FEW) + made, by_label, by_other),
            (keys(FEW), by_label, searches(SEARCHES, "102=")),
            ([*LOGIN, *keys(FEW, "1=01,2=01")], by_label, searches(SEARCHES, "102=")),
            (most, searches(SEARCHES_OF_MOST, "3="), searches(SEARCHES_OF_MOST, "10="))):
        times = least_seconds(tests, (first, first + labels, first + others), is_faster_by_label)
        tests.expect(is_faster_by_label(*times),
                     f"{len(first)} calls took {times[0]:.3f} s, with {len(labels)} as {labels[0]} "
                     f"{times[1]:.3f} s, with as many as {others[0]} {times[2]:.3f} s")
    tests.end("searches by label")


# What takes as long among many as among few, and the calls of this many.
EVEN = [
    ("creations", creations),
    ("creations and destructions", lambda count: creations(count) + destructions(count)),
    ("results of a search, one by one", lambda count: creations(count) + single_results(count)),
    ("results of a search, all at once", lambda count: [
        *creations(count), "1 FindObjectsInit 1 -", f"1 FindObjects 1 {count}"]),
    ("objects among missing ones", scattered),
    ("missing objects among others", missing),
    ("key states among keys", key_states),
    ("signatures among keys", signatures),
    ("objects that come and go in twos beside others", turnover),
    ("sessions with an object each, one after the other", lambda count: sessions(count, 1)),
    ("sessions with two objects each, one after the other", lambda count: sessions(count, 2)),
    ("sessions that are all closed, with two objects",
     lambda count: sessions(count, 2, "CloseAllSessions")),
    ("sessions with a private object each, one after the other",
     lambda count: LOGIN + sessions(count, 1, kind="2=01")),
    ("sessions that are all closed, with a private object", lambda count: [
        *LOGIN, "1 Logout 1",
        *sessions(count, 1, "CloseAllSessions", ["1 Login {} 1 75736572"], "2=01")]),
    ("sessions beside private objects of another",
     lambda count: private_objects(count, "00")[:-1] + sessions(count)),
    ("sessions beside objects of another", lambda count: creations(count) + sessions(count)),
    ("sessions that are all closed, beside token objects", lambda count: [
        *[f"{call},1=01" for call in creations(count)],
        *sessions(count, closing="CloseAllSessions")]),
    ("logins beside objects", lambda count: creations(count) + logins(count)),
    ("logins beside private objects",
     lambda count: private_objects(count) + logins(count, "1 Login 1 1 75736572")),
    ("logins behind private objects that have ended",
     lambda count: private_objects(count, "00") + logins(count, "1 Login 1 1 75736572")),
    ("initializations behind objects that have ended", initializations),
    ("changes of labels", lambda count: creations(count) + changes(count)),
    ("copies of one object", lambda count: creations(1) + copies(count)),
    ("generated keys", generations),
    ("items of two attributes each in a template", long_template),
    ("items of two attributes each in forty templates", long_templates),
    ("items of two attributes each in templates of searches", long_searches),
    ("queries of one call, and their answers", long_queries),
    ("calls of the other kinds", other_calls),
    ("searches that are refused beside objects", refused_searches),
]

# Those of them that are few long lines.
LONG_LINES = long_template, long_templates, long_searches, long_queries


def grows_evenly(*times):
    """Whether each four times as many take more than twice as long, and less than eight times.
    Where they take less, it is the fewer that take too long."""
    return all(LEAST_GROWTH * few < many < MOST_GROWTH * few
               for few, many in zip(times, times[1:]))


def even_times(tests):
    """Four times as many take more than twice as long, and less than eight times. A line of fewer
    items or queries is read too soon to be compared."""
    for what, calls_of in EVEN:
        counts = (FEW, MANY) if calls_of in LONG_LINES else (FEWER, FEW, MANY)
        times = least_seconds(tests, [calls_of(count) for count in counts], grows_evenly)
        tests.expect(grows_evenly(*times), f"{what}: " + ", ".join(
            f"{count} took {seconds:.3f} s" for count, seconds in zip(counts, times)))
    tests.end("times among many")


def long_messages_of_callers(tests):
    """A shared token takes in long messages behind many calls as fast as behind few."""
    times = least_seconds(tests, [long_messages(count) for count in (FEW, MANY)], grows_evenly,
                          ["--callers", "1"])
    tests.expect(grows_evenly(*times), f"{times[0]:.3f} and {times[1]:.3f} s")
    tests.end("times of long messages behind calls")


def long_scripts_of_callers(tests):
    """A script that is read whole isn't copied for each read."""
    times = least_seconds(tests, [comments(count) for count in (FEW, MANY)], grows_evenly,
                          ["--callers", "1"])
    tests.expect(grows_evenly(*times), f"{times[0]:.3f} and {times[1]:.3f} s")
    tests.end("times of long scripts of callers")


def takes_no_copies(short, long):
    """Whether calls on a long value take less than three times as long as on a short one: a copy
    for each call would take far longer than the call."""
    return long < 3 * short


def is_told_early(length, refusal):
    """Whether a digest without room takes at most a third longer than one that asks for its length:
    with the message taken in it would take half as long again."""
    return refusal <= length * 4 / 3


def long_values(tests):
    """To tell the length of a long value makes no copy of it."""
    times = least_seconds(tests, [short_lengths(MANY), lengths(MANY)], takes_no_copies)
    tests.expect(takes_no_copies(*times), f"{times[0]:.3f} and {times[1]:.3f} s")
    tests.end("times of lengths")


def early_digests(tests):
    """A digest for which there is too little room takes hardly longer than a call that only asks
    for its length: the message isn't taken in."""
    message = "61" * LENGTH
    scripts = [["1 DigestInit 1 250", *[f"1 Digest 1 {message} {room}"] * DIGESTS]
               for room in ("?", "31")]
    times = least_seconds(tests, scripts, is_told_early)
    tests.expect(is_told_early(*times), f"{times[0]:.3f} and {times[1]:.3f} s")
    tests.end("times of digests without room")


def is_fast_enough(length, digest):
    """Whether a digest takes less than three times as long as a call that only asks for its length:
    to take in the message takes less than twice the time of that call."""
    return digest < 3 * length


def single_digests(tests):
    """To take in a message takes not much longer than to read its line."""
    message = "61" * LENGTH
    scripts = [["1 DigestInit 1 250", *[f"1 Digest 1 {message} ?"] * DIGESTS],
               ["1 DigestInit 1 250", f"1 Digest 1 {message} 32"] * DIGESTS]
    times = least_seconds(tests, scripts, is_fast_enough)
    tests.expect(is_fast_enough(*times), f"{times[0]:.3f} and {times[1]:.3f} s")
    tests.end("times of digests")


# The short calls of scripts that are compared with digests.
SHORT_CALLS = [
    other_calls,
    lambda count: creations(count) + destructions(count),
    lambda count: ["1 GetTokenInfo"] * (4 * count),
]


def are_short(digests, *calls):
    """Whether short calls take less than three times as long as digests of long messages."""
    return max(calls) < MOST_OF_DIGESTS * digests


def short_calls(tests):
    """Short calls take little time. No reply is written, and an audit makes all calls again."""
    digests = ["1 DigestInit 1 250", f"1 Digest 1 {'61' * LENGTH} 32"] * DIGESTS
    scripts = [digests, *(calls_of(MANY) for calls_of in SHORT_CALLS)]
    times = least_seconds(tests, scripts, are_short, ["--callers", "1"])
    tests.expect(are_short(*times), ", ".join(f"{seconds:.3f}" for seconds in times) + " s")
    tests.end("times of short calls beside digests")


def main(path):
    tests = program.Tests(path, "speed")
    label_searches(tests)
    even_times(tests)
    long_messages_of_callers(tests)
    long_scripts_of_callers(tests)
    long_values(tests)
    early_digests(tests)
    single_digests(tests)
    short_calls(tests)
    return tests.status()


if __name__ == "__main__":
    sys.exit(main(sys.argv[1] if len(sys.argv) > 1 else PROGRAM))
