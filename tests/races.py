#!/usr/bin/env python3
"""Runs the program ck_races from outside: on its file of races, on copies of this file that say one
wrong reply each, on races whose replies depend on the order of the calls, and on bad files. And the
file of races is compared with what is said of it here.

The program is crates/ck_races/out/ck_races, which `rt ci` leaves and `rt run` in its folder builds,
or the one that is named. For each test a line is printed that begins with passed or FAILED, and the
status is 1 where one failed.
"""
import os
import sys

from program import HERE
from recorded_runs import Files

CRATE = os.path.join(HERE, "..", "crates", "ck_races")
PROGRAM = os.path.join(CRATE, "out", "ck_races")
DATA = os.path.join(CRATE, "data")
NAME = "callers.races"

# How many calls of each race stand together, and the lines between them.
SHAPES = """\
7, together, 5
7, together, 3, afterwards, 1
7, together, 4, afterwards, 1
7, together, 5
1, cut, 0, together, 2
1, cut, 0, together, 2
1, together in any order, 2, afterwards, 1
7, together in any order, 8, afterwards, 1
0, sessions 2, 1, together in any order, 8, afterwards, 1
63, together in any order, 8, afterwards, 1
6, together, 6
7, together, 5
10, together in any order, 4, afterwards, 1
9, together, 5
7, cut, 1, together in any order, 4, afterwards, 1
7, together in any order, 2, afterwards, 1
7, together, 4
7, together, 3
7, together, 3
7, together, 3
8, together, 2, afterwards, 2
8, together, 3
8, together, 4
8, together, 3
8, together, 4
8, together, 5
9, together, 7
12, together in any order, 3
4, cut, 0, together in any order, 5
4, cut, 0, together in any order, 6
4, cut, 0, together in any order, 7
7, together, 9, afterwards, 1
"""

# The races of the file whose wrong replies are played without the word in-turn too, by their places
# in it: one with a set order, and two in any order, with two sessions and with a cut.
NOT_ALONE = [2, 9, 15]

# How many times each race is run in threads: by `run_scripts` with all calls in the order of the
# race, by `run_scripts` and by `share` with all calls in an order that is drawn, and with only the
# first ones.
RUNS = 400

# After this many faults a test of wrong replies ends.
MOST_FAULTS = 9

ARROW = " -> "

# Of a message on standard error at most so much is written.
LONGEST_MESSAGE = 120

# Calls after which session 1 is open, and the user is logged in.
LOGIN = """\
race
1 InitToken 31323334 -> 0
1 OpenSession 6 -> 0 1
1 Login 1 0 31323334 -> 0
1 InitPIN 1 75736572 -> 0
1 Logout 1 -> 0
1 Login 1 1 75736572 -> 0
"""

OTHER_REPLIES = "Error: the replies are not those of the race\n"

# Two calls in any order, which are answered in the other order otherwise than the race says, and
# what is written of that.
ORDERS = [
    # another code
    (LOGIN + """\
together in any order
1 DigestInit 1 250 -> 0
2 DigestUpdate 1 61 -> 0
""", OTHER_REPLIES),
    # no other replies, but one of them comes less often and another one more often
    (LOGIN + """\
1 DigestUpdate 1 61 -> 91
1 DigestInit 1 250 -> 0
together in any order
1 SessionCancel 1 400 -> 0
2 DigestUpdate 1 61 -> 91
""", OTHER_REPLIES),
    # the same code, and other numbers
    (LOGIN + """\
together in any order
1 OpenSession 6 -> 0 2
2 GetTokenInfo -> 0 40c 64 2 2
""", OTHER_REPLIES),
    # the same replies to both calls, and another one afterwards
    (LOGIN + """\
1 DigestInit 1 250 -> 0
together in any order
1 DigestUpdate 1 61 -> 0
2 DigestUpdate 1 62 -> 0
afterwards
1 DigestFinal 1 32 -> 0 fb8e20fc2e4c3f248c60c39bd652f3c1347298bb977b8b4d5903b85055620603
""", "Error: line 13: came 0 970f519c2cadbcefb1e81694f904bc6229dd2a8300e98c6d0d4fc4bfca584140\n"),
]

CALL = "GetTokenInfo -> 0 4 64 0 0"

CALLER = "the caller is a number from 1 to 8"
SESSIONS = "sessions are 1 to 64"

# The second line of a race that is bad, and why.
BAD_LINES = [
    ("nothing", ": a line is a caller, a call and its arguments"),
    ("Together", ": a line is a caller, a call and its arguments"),
    ("together in order", ": " + CALLER),
    ("0 " + CALL, ": " + CALLER),
    ("9 " + CALL, ": " + CALLER),
    ("x " + CALL, ": " + CALLER),
    ("1 Nope -> 0", ": no call has this name"),
    ("1 Logout -> 0", ": Logout takes 1 argument"),
    ("1  " + CALL,
     ": there are two spaces in a row, or one at an end of the line: "
     "single spaces separate its words"),
    (" # x", " has no call"),
    ("sessions 0", ": " + SESSIONS),
    ("sessions 65", ": " + SESSIONS),
    ("sessions x", ": " + SESSIONS),
]

GOOD = f"race\n1 {CALL}\n"

# A file that isn't played to its end, and why.
BAD_FILES = [
    ("1 " + CALL, "line 1 is of no race"),
    ("# x\n\ncut\n", "line 3 is of no race"),
    ("race\n1 GetTokenInfo\n", "line 2: came 0 4 64 0 0"),
    (GOOD + "race\n1 GetTokenInfo -> \n", "line 4: came 0 4 64 0 0"),
    (GOOD + GOOD + "race\n0 " + CALL, "line 6: " + CALLER),
    ("race\n1 GetTokenInfo -> 1\n1 Nope -> 0\n", "line 3: no call has this name"),
    ("", "there is no race"),
    ("# x\n\n", "there is no race"),
    ("race\n", "the race of line 1 has no calls that are made together"),
    (GOOD + "\nrace\n" + GOOD, "the race of line 4 has no calls that are made together"),
    (GOOD + "together\n", "the race of line 1 has no calls that are made together"),
    (GOOD + "cut\n", "the race of line 1 has no calls that are made together"),
    (f"{GOOD}cut\n1 {CALL}\ncut\n1 {CALL}\n", "line 5: cut can't stand here"),
    (f"{GOOD}together\n1 {CALL}\ncut\n1 {CALL}\n", "line 5: cut can't stand here"),
    (f"{GOOD}together\n1 {CALL}\ntogether\n", "line 5: together can't stand here"),
    (f"{GOOD}together\n1 {CALL}\ntogether in any order\n",
     "line 5: together in any order can't stand here"),
    (f"{GOOD}together\nafterwards\n1 {CALL}\n", "line 4: afterwards can't stand here"),
    (f"{GOOD}afterwards\n1 {CALL}\ntogether\n", "line 5: together can't stand here"),
    (f"{GOOD}afterwards\n1 {CALL}\nafterwards\n", "line 5: afterwards can't stand here"),
]


def read(*names):
    with open(os.path.join(*names), encoding="utf-8") as file:
        return file.read()


def races_in(lines):
    """The races of a file: where the lines of each stand, without empty ones and comments."""
    races = []
    for number, line in enumerate(lines):
        if line == "race":
            races.append([])
        if line and not line.startswith("#"):
            races[-1].append(number)
    return races


def parts_of(lines, race):
    """The parts of a race: where the calls of each stand. And the lines between the parts."""
    parts, between = [[]], []
    for number in race[1:]:
        if ARROW in lines[number]:
            parts[-1].append(number)
        else:
            parts.append([])
            between.append(lines[number])
    return parts, between


def shape_of(lines, race):
    """How many calls each part of a race has, with the lines between them, as in `SHAPES`."""
    parts, between = parts_of(lines, race)
    shape = str(len(parts[0]))
    for line, part in zip(between, parts[1:]):
        shape += f", {line}, {len(part)}"
    return shape


def other(sign):
    return "1" if sign == "0" else "0"


def wrong_replies(reply):
    """Replies with a word less and one more, and with another first and last sign of each word."""
    words = reply.split(" ")
    wrong = [words[:-1], words + ["0"]]
    for place, word in enumerate(words):
        for changed in (other(word[0]) + word[1:], word[:-1] + other(word[-1])):
            wrong.append(words[:place] + [changed] + words[place + 1:])
    return list(dict.fromkeys(" ".join(words) for words in wrong))


def shortened(message):
    """A message as the program writes it, which shortens a long one."""
    if len(message) > LONGEST_MESSAGE:
        return message[:LONGEST_MESSAGE - 3] + "..."
    return message


def check_wrong(tests, words, lines, number):
    """Files in which this line says a wrong reply fail, and the line is named."""
    call, reply = lines[number].split(ARROW)
    errors = "Error: " + shortened(f"line {number + 1}: came {reply}") + "\n"
    for wrong in wrong_replies(reply):
        text = "\n".join(lines[:number] + [call + ARROW + wrong] + lines[number + 1:])
        if len(tests.faults) < MOST_FAULTS:
            tests.check_file(text.encode(), words, b"", errors.encode(), 1)


def calls_of_callers(lines, race):
    """How many calls of a race its callers make: all except those before a cut and afterwards."""
    parts, between = parts_of(lines, race)
    first = between.index("cut") + 1 if "cut" in between else 0
    last = between.index("afterwards") + 1 if "afterwards" in between else len(parts)
    return sum(map(len, parts[first:last]))


def output_of(name, text):
    """What the program writes of a file with these races: by their calls, and by threads too, with
    all else that callers do."""
    lines = text.split("\n")
    races = races_in(lines)
    count = len(races)
    calls = RUNS * sum(calls_of_callers(lines, race) for race in races)
    _, rest = read(CRATE, "stdout").split("\n", 1)
    in_turn = f"{name}: {count} passed\n"
    return in_turn.encode(), f"{name}: {count} passed, {calls} calls in threads\n{rest}".encode()


def whole_file(tests):
    in_turn, output = output_of(NAME, read(DATA, NAME))
    tests.check(["in-turn", NAME], None, in_turn, b"", 0, cwd=DATA)
    tests.check(["in-turn", NAME, NAME], None, in_turn + in_turn, b"", 0, cwd=DATA)
    tests.check([NAME], None, output, b"", 0, cwd=DATA)
    tests.expect(output == read(CRATE, "stdout").encode(), f"{output} isn't in the file stdout")
    tests.end("the file of races")


def shapes(tests):
    lines = read(DATA, NAME).split("\n")
    came = [shape_of(lines, race) for race in races_in(lines)]
    wanted = SHAPES.splitlines()
    tests.expect(len(came) == len(wanted),
                 f"{NAME} has {len(came)} races, and not {len(wanted)}")
    for place, (shape, said) in enumerate(zip(came, wanted), 1):
        tests.expect(shape == said,
                     f"race {place} of {NAME} has the calls {shape}, and not {said}")
    tests.end("how many races there are, and calls in each part of them")


def each_wrong_reply(tests):
    lines = read(DATA, NAME).split("\n")
    for number, line in enumerate(lines):
        if ARROW in line:
            check_wrong(tests, ["in-turn", "t"], lines, number)
    tests.end("wrong replies to each call")


def wrong_in_parts(tests):
    """The program finds these too before it starts threads, since it first makes all calls as they
    stand. What only threads find is in `ORDERS`."""
    lines = read(DATA, NAME).split("\n")
    races = races_in(lines)
    for place in NOT_ALONE:
        race = races[place - 1]
        only = [line if number in race else "" for number, line in enumerate(lines)]
        for part in parts_of(lines, race)[0]:
            for number in part[-1:]:
                check_wrong(tests, ["t"], only, number)
    tests.end("wrong replies in each part of a race, without the word in-turn")


def orders(tests):
    for text, errors in ORDERS:
        tests.check_file(text.encode(), ["in-turn", "t"], b"t: 1 passed\n", b"", 0)
        tests.check_file(text.encode(), ["t"], b"", errors.encode(), 1)
    tests.end("replies that depend on the order, in races in any order")


def set_orders(tests):
    text = "".join(text for text, _ in ORDERS).replace("together in any order", "together")
    _, output = output_of("t", text)
    tests.check_file(text.encode(), ["t"], output, b"", 0)
    tests.end("the same in races with a set order")


def check_bad(tests, text, reason):
    for words in (["in-turn", "t"], ["t"]):
        tests.check_file(text, words, b"", f"Error: {reason}\n".encode(), 1)


def bad_lines(tests):
    for line, reason in BAD_LINES:
        check_bad(tests, f"race\n{line}\n".encode(), f"line 2{reason}")
    tests.end("each reason of a bad line")


def bad_files(tests):
    for text, reason in BAD_FILES:
        check_bad(tests, text.encode(), reason)
    check_bad(tests, b"race\n\xff\n", "stream did not contain valid UTF-8")
    for words in (["none"], ["in-turn", "none"], ["in-turn", "t", "none"]):
        errors = b"Error: No such file or directory (os error 2)\n"
        tests.check_file(GOOD.encode(), words, b"", errors, 1)
    tests.end("files that aren't played to their end")


def main(program):
    tests = Files(program, "races")
    whole_file(tests)
    shapes(tests)
    each_wrong_reply(tests)
    wrong_in_parts(tests)
    orders(tests)
    set_orders(tests)
    bad_lines(tests)
    bad_files(tests)
    return tests.status()


if __name__ == "__main__":
    sys.exit(main(sys.argv[1] if len(sys.argv) > 1 else PROGRAM))
