"""Plays the files of cases of ck_cases through the C interface, and compares each reply's text.

Called with the module's file and the program ck_cases, with random_source.so preloaded. Each case
is played by typed calls, and again with OSPREYRACK_JOURNAL. A token then goes on from that journal.
At the end the system's random bytes come late, in parts, or not at all.
"""
import collections
import ctypes
import glob
import os
import sys
import tempfile
from concurrent.futures import ThreadPoolExecutor

import support
from support import bytes_of, hexadecimal, items_of

DEVICE_ERROR = 0x30
LONGEST_PIN = LONGEST_SIGNATURE = 64
PIECE = 1000

# ---- Cases


class Case:
    """A token's lines: pairs of a call's words and the reply's text."""

    def __init__(self, place, limits):
        self.place = place
        self.limits = limits
        self.lines = []


def read_cases(path):
    cases = [Case(f"{os.path.basename(path)}:1", "largest")]
    with open(path, encoding="utf-8", newline="\n") as file:
        for count, line in enumerate(file, 1):
            line = line.rstrip("\n")
            if line.startswith("limits "):
                cases.append(Case(f"{os.path.basename(path)}:{count}", line[7:]))
            elif line and not line.startswith("#"):
                cases[-1].lines.append(line.partition(" -> ")[::2])
    return [case for case in cases if case.lines]


def key_length(template):
    """How many random bytes C_GenerateKey takes by its template."""
    for kind, value in items_of(template):
        if int(kind, 16) == 0x161:
            value = bytes_of(value)
            return min(int.from_bytes(value, "little"), 4096) if len(value) == 8 else 0
    return 0


def reason_to_skip(line, reply):
    """Why a line can't be played through C, or None."""
    if line.split(" ")[0] in ("cut", "journal", "audit"):
        return "lines on the journal itself"
    if reply.startswith("bad script"):
        return "bad lines"
    words = line.split(" ")
    if words[1] == "GenerateKey" and key_length(words[4]) != len(bytes_of(words[5])):
        return "generations of keys by more or fewer random bytes than CKA_VALUE_LEN says"
    return None


# ---- The lines that a journal has for a call

def plain_bytes(text, longest=None):
    return hexadecimal(bytes_of(text)[:longest])


def plain_mechanism(text):
    kind, _, parameter = text.partition(":")
    return f"{kind}:{plain_bytes(parameter)}" if parameter not in ["", "-"] else kind


def plain_template(text):
    return ",".join(f"{kind}={plain_bytes(value)}" for kind, value in items_of(text)) or "-"


def plain_words(words):
    """The call's words as the module writes them."""
    name, arguments = words[1], list(words[2:])
    if name in ["InitToken", "InitPIN", "SetPIN", "Login"]:
        first = {"InitToken": 0, "InitPIN": 1, "SetPIN": 1, "Login": 2}[name]
        arguments[first:] = [plain_bytes(pin, LONGEST_PIN + 1) for pin in arguments[first:]]
    if name in ["CreateObject", "GenerateKey", "CopyObject", "SetAttributeValue",
                "FindObjectsInit"]:
        place = 1 if name in ["CreateObject", "FindObjectsInit"] else 2
        arguments[place] = plain_template(arguments[place])
    if name in ["GenerateKey", "DigestInit", "SignInit", "VerifyInit"]:
        arguments[1] = plain_mechanism(arguments[1])
    if name in ["Digest", "DigestUpdate", "Sign", "SignUpdate", "Verify", "VerifyUpdate"]:
        arguments[1] = plain_bytes(arguments[1])
    if name in ["Verify", "VerifyFinal"]:
        arguments[-1] = plain_bytes(arguments[-1], LONGEST_SIGNATURE + 1)
    if name == "GenerateKey":
        arguments[3] = plain_bytes(arguments[3])
    return words[:2] + arguments


def found_pieces(words, reply):
    """C_FindObjects asks for handles in pieces, until one isn't full."""
    most = int(words[3])
    handles = [] if reply == "0 -" else reply[2:].split(",")
    total = 0
    while True:
        asked = min(PIECE, most - total)
        found = handles[total:total + asked]
        yield f"{' '.join(words[:3])} {asked} -> 0 {','.join(found) or '-'}"
        total += len(found)
        if len(found) < PIECE or total == most:
            return


def journal_lines(words, reply):
    words = plain_words(words)
    if words[1] == "FindObjects" and reply.startswith("0 ") and int(words[3]) > PIECE:
        return list(found_pieces(words, reply))
    return [f"{' '.join(words)} -> {reply}"]


def read_journal(path):
    with open(path, encoding="ascii") as file:
        lines = [line for line in file.read().split("\n") if line and not line.startswith("#")]
    return lines[1:] if lines[:1] == ["limits largest"] else ["the file has no line of limits"]


# ---- Playing


class Player:
    """Plays the lines of eight callers, each in a thread of its own."""

    def __init__(self, module):
        self.module = module
        self.threads = [ThreadPoolExecutor(1) for _ in range(8)]
        self.set_random_bytes = ctypes.CDLL(None).set_random_bytes
        self.set_random_faults = ctypes.CDLL(None).set_random_faults

    def number_threads(self):
        """The module numbers threads in the order of their first calls."""
        self.module.initialize()
        for thread in self.threads:
            thread.submit(self.module.say, "1 GetTokenInfo").result()
        self.module.finalize()

    def answer(self, words):
        if words[1] == "GenerateKey":
            value = bytes_of(words[5])
            self.set_random_bytes(value, ctypes.c_size_t(len(value)))
            words = words[:5]
        made = self.threads[int(words[0]) - 1].submit(self.module.answer, words).result()
        self.set_random_bytes(b"", ctypes.c_size_t(0))
        return made


def play_case(checks, player, case, skipped):
    """Plays a case's lines, and gives those that its journal must have."""
    lines = []
    for line, reply in case.lines:
        reason = reason_to_skip(line, reply)
        if reason is not None:
            skipped[reason] += 1
            continue
        words = line.split(" ")
        checks.equal(player.answer(words), reply, f"{case.place}: {line:.100}")
        lines += journal_lines(words, reply)
    return lines


# Attributes of data objects and keys: class, token, private, label, application, value, key type,
# id, sensitive, sign, length of the value, extractable, state.
READ_TYPES = ["0", "1", "2", "3", "10", "11", "100", "102", "103", "108", "161", "162", "80000001"]


def read_token(module):
    """What a new session sees of the token and of its objects."""
    module.say("1 CloseAllSessions")
    info = module.say("1 GetTokenInfo")
    opened = module.say("1 OpenSession 4")
    if not opened.startswith("0 "):
        return [info, opened]
    session = opened[2:]
    module.say(f"1 FindObjectsInit {session} -")
    found = module.say(f"1 FindObjects {session} {support.MOST_HANDLES}")
    queries = ",".join(f"{kind}:5000" for kind in READ_TYPES)
    handles = [] if found == "0 -" else found[2:].split(",")
    reads = [module.say(f"1 GetAttributeValue {session} {handle} {queries}") for handle in handles]
    module.say(f"1 CloseSession {session}")
    return [info, found] + reads


def play_typed(checks, player, case, skipped):
    checks.equal(player.module.initialize(), 0, f"{case.place}: C_Initialize")
    play_case(checks, player, case, skipped)
    checks.equal(player.module.finalize(), 0, f"{case.place}: C_Finalize")


def play_by_lines(checks, player, case, path):
    """Plays a case with a journal, and then lets a token go on from it."""
    module = player.module
    checks.equal(module.initialize(JOURNAL=path), 0, f"{case.place}: C_Initialize, with a journal")
    lines = play_case(checks, player, case, collections.Counter())
    checks.equal(read_journal(path), lines, f"{case.place}: the lines of the journal")
    before = read_token(module)
    checks.equal(module.finalize(), 0, f"{case.place}: C_Finalize")
    checks.equal(module.initialize(TOKEN=path), 0, f"{case.place}: C_Initialize, from the journal")
    checks.equal(read_token(module), before, f"{case.place}: what the token has that goes on")
    checks.equal(module.finalize(), 0, f"{case.place}: C_Finalize")


def play_file(checks, player, path, ck_cases, skipped):
    cases = read_cases(path)
    played = [case for case in cases if case.limits == "largest"]
    skipped["lines of tokens of other limits"] += sum(
        len(case.lines) for case in cases if case.limits != "largest")
    with tempfile.TemporaryDirectory() as folder:
        for count, case in enumerate(played):
            journal = os.path.join(folder, f"{count}.cases")
            play_typed(checks, player, case, skipped)
            play_by_lines(checks, player, case, journal)
            support.audit(checks, ck_cases, journal)
    name = os.path.basename(path)
    if played:
        checks.end(f"{name}, {len(played)} cases, typed and by lines, and on from the journal")
    return len(played)


# ---- A source of random bytes that has faults

ALL = 2**64 - 1

# A key in a session, whose value can be read, of 64 bytes.
KEY = "1=00,2=00,103=00,162=01,161=4000000000000000"
VALUE = bytes(range(1, 65))

# How many calls of getrandom are interrupted, and how many bytes one gives at most.
SLOW_SOURCES = [(0, ALL), (1, ALL), (3, ALL), (0, 63), (0, 1), (1, 5)]

# How many calls of getrandom give bytes, each how many at most, before one fails.
BROKEN_SOURCES = [(0, ALL), (1, 63), (5, 1)]


class Source:
    """The module with random bytes that are known, and faults of the function that gives them."""

    def __init__(self, player):
        self.player = player
        self.module = player.module

    def begin(self, interruptions, most, calls):
        self.player.set_random_bytes(VALUE, ctypes.c_size_t(len(VALUE)))
        self.player.set_random_faults(*map(ctypes.c_size_t, [interruptions, most, calls]))

    def end(self):
        self.player.set_random_faults(*map(ctypes.c_size_t, [0, ALL, ALL]))
        self.player.set_random_bytes(b"", ctypes.c_size_t(0))

    def generate_random(self, *faults):
        """The code of C_GenerateRandom, and what it writes."""
        out = (ctypes.c_ubyte * len(VALUE))()
        self.begin(*faults)
        code = self.module.call("GenerateRandom", ctypes.c_ulong(1), out,
                                ctypes.c_ulong(len(VALUE)))
        self.end()
        return code, bytes(out)

    def generate_key(self, *faults):
        """The reply of C_GenerateKey."""
        self.begin(*faults)
        reply = self.module.say(f"1 GenerateKey 1 350 {KEY}")
        self.end()
        return reply


def begin_session(checks, module, variables):
    checks.equal(module.initialize(**variables), 0, "C_Initialize")
    checks.equal(module.say("1 InitToken 31323334"), "0", "C_InitToken")
    checks.equal(module.say("1 OpenSession 6"), "0 1", "C_OpenSession")


def find_all(module):
    module.say("1 FindObjectsInit 1 -")
    found = module.say("1 FindObjects 1 10")
    module.say("1 FindObjectsFinal 1")
    return found


def check_slow_sources(checks, source, variables):
    """All bytes come, in as many calls as are needed."""
    for interruptions, most in SLOW_SOURCES:
        begin_session(checks, source.module, variables(f"slow-{interruptions}-{most}"))
        what = f"{interruptions} interruptions, {most} bytes at most"
        checks.equal(source.generate_random(interruptions, most, ALL), (0, VALUE),
                     f"C_GenerateRandom, {what}")
        checks.equal(source.generate_key(interruptions, most, ALL), "0 1",
                     f"C_GenerateKey, {what}")
        checks.equal(source.module.say("1 GetAttributeValue 1 1 11:64"), f"0 ={VALUE.hex()}",
                     f"the key's value, {what}")
        checks.equal(source.module.finalize(), 0, "C_Finalize")


def check_broken_sources(checks, source, variables):
    """Without random bytes no key is made."""
    for calls, most in BROKEN_SOURCES:
        begin_session(checks, source.module, variables(f"broken-{calls}-{most}"))
        what = f"{calls} calls give {most} bytes at most"
        code, _ = source.generate_random(0, most, calls)
        checks.equal(code, DEVICE_ERROR, f"C_GenerateRandom, {what}")
        checks.equal(source.generate_key(0, most, calls), f"{DEVICE_ERROR:x}",
                     f"C_GenerateKey, {what}")
        checks.equal(find_all(source.module), "0 -", f"no key is made, {what}")
        checks.equal(source.generate_key(0, ALL, ALL), "0 1", "C_GenerateKey with random bytes")
        checks.equal(source.module.finalize(), 0, "C_Finalize")


def test_random_source(checks, player):
    source = Source(player)
    with tempfile.TemporaryDirectory() as folder:
        for kind, variables in [
                ("typed", lambda name: {}),
                ("by lines", lambda name: {"JOURNAL": os.path.join(folder, name)})]:
            check_slow_sources(checks, source, variables)
            checks.end(f"random bytes that are interrupted, or come in parts, {kind}")
            check_broken_sources(checks, source, variables)
            checks.end(f"without random bytes no key is made, {kind}")


def main():
    module_path, ck_cases = sys.argv[1:]
    checks = support.Checks("cases")
    player = Player(support.Module(module_path))
    player.number_threads()
    skipped = collections.Counter()
    for path in sorted(glob.glob(os.path.join(support.DATA, "*.cases"))):
        play_file(checks, player, path, ck_cases, skipped)
    test_random_source(checks, player)
    counts = ", ".join(f"{count} {reason}" for reason, count in sorted(skipped.items()))
    checks.leave_out("what can't be played through C", counts)
    return checks.status()


if __name__ == "__main__":
    sys.exit(main())
