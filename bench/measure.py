#!/usr/bin/env python3
"""Plays scripts of 1,000, 10,000 and 100,000 lines with the built program, and prints what a line
takes. Then plays searches among 1,000, 10,000 and 50,000 objects, data objects and keys, and prints
what an object takes in one search. Last it prints what calls among many objects take, single calls,
and calls and asks of a shared token, beside what is wanted of them where something is.

The program is crates/ck_run/out/ck_run, or the path that is given; it is built by `rt run` in
crates/ck_run. Times are processor time, the best of several runs, and memory is the peak (by GNU
time); those of an empty script are taken off both. Off the time of searches is taken that of a
script that only makes their objects. The last figures are those of crates/ck_bench/out/ck_bench,
the best of several tries in each of several processes; what callers do in threads is by the clock,
and wants four processors without other work. Each try gives a longest wait and a longest pause: of
these the median is printed in place of the best, and the longest of all tries beside it. The median
of the waits is judged. With the argument `figures` only the last figures are printed.

A line, or an object in a search, may take at most 3 times as much time among the most as among the
fewest. Where one takes more, or one of the last figures isn't as wanted, the status is 1.
"""
import collections
import os
import re
import statistics
import subprocess
import sys
import tempfile

from make_script import ROUNDS, SEARCH, SEARCHES, SINGLE_CALLS
from make_script import crowd_sections, script, searched_numbers

SIZES = [1_000, 10_000, 100_000]
OBJECT_COUNTS = [1_000, 10_000, 50_000]
# How many runs are made of a script, by its lines or its objects. A run of a short script hardly
# differs from one of an empty script, so 301 of them are made.
RUNS = {0: 301, 1_000: 301, 10_000: 101, 50_000: 21, 100_000: 21}
MOST_GROWTH = 3
CRATES = os.path.join(os.path.dirname(__file__), "..", "crates")
PROGRAM = os.path.join(CRATES, "ck_run", "out", "ck_run")
FIGURES_PROGRAM = os.path.join(CRATES, "ck_bench", "out", "ck_bench")

# How many times the program of the last figures is run; each time it makes several tries.
FIGURE_RUNS = 5

# What is wanted of calls among 1,000 objects and among 100,000: the most nanoseconds, and the most
# times as many among the latter.
CALLS_AMONG = [
    ("create", 1_000, 2),
    ("get label", 1_000, 2),
    ("change", 1_000, 2),
    ("destroy", 1_000, 2),
    ("destroy all, each", 1_000, 2),
    ("open and close (both together)", 1_000, 1.5),
    ("login and logout (both together)", 1_000, 1.5),
]

# The most nanoseconds that a search by a label may take for each object, by how many there are.
SEARCH_AMONG = {1_000: 12, 50_000: 30}

# How many more nanoseconds a call may take by the lock than without one.
CALLS_BY_LOCK = {"session info": 150, "open and close, each": 400}

# The most microseconds that a caller may wait for the lock beside digests.
MOST_WAIT = 200

# How many times a caller of a shared token asks without the lock. It changes the token a hundredth
# of that number of times, each time by three calls.
ASKS = 4_000_000
CALLS_OF_CHANGE = 3


def play(words, text):
    """Seconds of one run of a command, and its output."""
    with tempfile.TemporaryFile() as source, tempfile.TemporaryFile() as output:
        source.write(text.encode())
        source.seek(0)
        ends = [(source, 0), (output, 1)]
        files = [(os.POSIX_SPAWN_DUP2, file.fileno(), to) for file, to in ends]
        child = os.posix_spawn(words[0], words, {}, file_actions=files)
        _, status, usage = os.wait4(child, 0)
        if status != 0:
            sys.exit(f"the program ended with wait status {status}")
        output.seek(0)
        return usage.ru_utime + usage.ru_stime, output.read()


def peak_memory(program, text):
    """Peak kilobytes, asked of `time`, since what this process holds would count as the child's."""
    with tempfile.NamedTemporaryFile() as peak:
        play(["/usr/bin/time", "-f", "%M", "-o", peak.name, program], text)
        return int(peak.read())


def best_time(program, text, size):
    return min(play([program], text)[0] for _ in range(RUNS[size]))


def is_within(what, times, sizes):
    """Prints how much more the most take than the fewest, each, and whether that is within the
    bound."""
    growth = times[-1] / times[0]
    print(f"{what}: {growth:.2f} times as much time each at {sizes[-1]} as at {sizes[0]}")
    if growth <= MOST_GROWTH:
        return True
    print(f"{what}: more than the bound of {MOST_GROWTH}")
    return False


def check_replies(program, text, kind, size):
    """Every line has its reply, and each is OK."""
    replies = play([program], text)[1].split(b"\n")
    if len(replies) != size + 1 or not all(reply.split(b" ")[0] == b"0" for reply in replies[:-1]):
        sys.exit(f"{kind}: not every line was answered OK")


def measure(program, kind, start_time, start_memory):
    times = []
    for size in SIZES:
        text = script(kind, size)
        check_replies(program, text, kind, size)
        times.append((best_time(program, text, size) - start_time) / size)
        bytes_a_line = (peak_memory(program, text) - start_memory) * 1024 / size
        print(f"{kind}, {size} lines: {times[-1] * 1e6:.3f} us a line, "
              f"{bytes_a_line:.0f} bytes a line at the peak")
    return is_within(f"{kind}, lines", times, SIZES)


def check_searches(program, text, count):
    """Each search has found its object, and the search is ended."""
    replies = play([program], text)[1].decode()
    expected = "".join(f"0\n0 {number}\n0\n" for number in searched_numbers(count))
    if not replies.endswith(f"\n0 {count}\n{expected}"):
        sys.exit("searches: not every search found its object")


def measure_searches(program, searches, creations, what):
    times = []
    for count in OBJECT_COUNTS:
        text = script(searches, count)
        check_searches(program, text, count)
        objects_time = best_time(program, script(creations, count), count)
        times.append((best_time(program, text, count) - objects_time) / (SEARCHES * count))
        print(f"{searches}, {count} {what}: {times[-1] * 1e9:.1f} ns each")
    return is_within(searches, times, OBJECT_COUNTS)


def times_of(text, *way):
    """The nanoseconds of each section of a script in every try of all runs, and those of an audit
    of an entry."""
    times = collections.defaultdict(list)
    for _ in range(FIGURE_RUNS):
        entries = 1
        for line in play([FIGURES_PROGRAM, *way], text)[1].decode().splitlines():
            audit = re.fullmatch(r"audit of (\d+) entries: true", line)
            time = re.fullmatch(r"(.*): (\d+) ns", line)
            if audit:
                entries = int(audit[1])
            elif time:
                times[time[1]].append(int(time[2]) / (entries if time[1] == "audit" else 1))
            elif not line.endswith(" calls, 0 refused"):
                sys.exit(f"not every call was answered OK: {line}")
    return times


def best_of(times):
    return {name: min(tries) for name, tries in times.items()}


def is_as_wanted(text, wanted, is_met):
    """Prints a figure beside what is wanted of it."""
    print(f"{text} (wanted: {wanted}{'' if is_met else ', which is not met'})")
    return is_met


def is_call_met(few, many, what, most, most_growth):
    growth = many / few
    text = (f"{what}: {few:.0f} ns among 1,000 objects, {many:.0f} among 100,000, "
            f"{growth:.2f} times as many")
    is_met = many <= most and growth <= most_growth
    return is_as_wanted(text, f"at most {most:,} and {most_growth} times", is_met)


def check_crowd(program, text):
    """Each search of a crowd finds one object."""
    lines = [line for line in text.splitlines() if not line.startswith("#")]
    replies = play([program], text)[1].decode().splitlines()
    found = [reply for line, reply in zip(lines, replies) if line.startswith("1 FindObjects ")]
    if not found or not all(re.fullmatch(r"0 \d+", reply) for reply in found):
        sys.exit("crowd: not every search found one object")


def times_among(program, objects):
    """The nanoseconds of one round of each section among these objects."""
    text = script("crowd", objects)
    check_crowd(program, text)
    best = best_of(times_of(text, "unshared"))
    return {name: best[name] / rounds for name, rounds, _ in crowd_sections(objects)}


def met_among_objects(program):
    times = {objects: times_among(program, objects) for objects in (1_000, 50_000, 100_000)}
    for what, most, most_growth in CALLS_AMONG:
        yield is_call_met(times[1_000][what], times[100_000][what], what, most, most_growth)
    for objects, most in SEARCH_AMONG.items():
        each = times[objects][SEARCH] / objects
        text = f"{SEARCH} among {objects:,} objects: {each:.1f} ns each"
        yield is_as_wanted(text, f"at most {most}", each <= most)


def met_by_lock():
    text = script("single-calls")
    unshared, locked = (best_of(times_of(text, way)) for way in ("unshared", "locked"))
    for what, calls, _ in SINGLE_CALLS:
        direct, shared = (times[what] / calls for times in (unshared, locked))
        text = f"{what}: {direct:.0f} ns, by the lock {shared:.0f} ns"
        if what in CALLS_BY_LOCK:
            more, most = shared - direct, CALLS_BY_LOCK[what]
            yield is_as_wanted(f"{text}, {more:.0f} more", f"at most {most}", more <= most)
        else:
            print(text)
    print(f"audit: {unshared['audit']:.0f} ns an entry")


def met_in_threads():
    times = times_of("", "threads", str(ASKS))
    yield from met_by_callers(best_of(times))
    yield is_wait_met(times)


def met_by_callers(best):
    alone, four = best["asks of one caller"], best["asks of four callers"]
    each = alone / ASKS
    yield is_as_wanted(f"status: {each:.0f} ns", "at most 25", each <= 25)
    share = int(400 * alone / four)
    text = f"status by four callers: {share} percent of the asks of one"
    yield is_as_wanted(text, "at least 300", share >= 300)
    beside = int(100 * alone / best["asks beside changes"])
    text = f"status beside changes: {beside} percent of the asks without changes"
    yield is_as_wanted(text, "at least 90", beside >= 90)
    alone, four = best["changes of one caller"], best["changes of four callers"]
    calls = int(4 * CALLS_OF_CHANGE * (ASKS // 100) * 1_000_000_000 / four)
    share = int(100 * alone / four)
    text = (f"create, get label and destroy by four callers: {calls:,} calls a second, "
            f"{share} percent of the calls of one")
    yield is_as_wanted(text, "at least 700,000 and 90", calls >= 700_000 and share >= 90)
    share = int(400 * best["digests of one caller"] / best["digests of four callers"])
    text = f"digests of 1 MiB by four callers: {share} percent of the bytes of one"
    yield is_as_wanted(text, "at least 300", share >= 300)


def median_and_longest(tries):
    """The median of several times and the longest, in whole microseconds."""
    return f"median {statistics.median(tries) / 1000:,.0f} us, longest {max(tries) / 1000:,.0f}"


def is_wait_met(times):
    """Prints the longest waits of all tries, and whether their median is within the bound."""
    waits, pauses = (times[f"{what} beside digests"] for what in ("wait", "pause"))
    text = (f"longest wait of session info by the lock beside digests of 1 MiB, {len(waits)} "
            f"tries: {median_and_longest(waits)}; of a thread that only reads the clock: "
            f"{median_and_longest(pauses)}")
    return is_as_wanted(text, f"a median of at most {MOST_WAIT}",
                        statistics.median(waits) <= 1000 * MOST_WAIT)


def measure_figures(program):
    return [*met_among_objects(program), *met_by_lock(), *met_in_threads()]


def main():
    if sys.argv[1:] == ["figures"]:
        return 0 if all(measure_figures(PROGRAM)) else 1
    program = sys.argv[1] if len(sys.argv) > 1 else PROGRAM
    start_time = best_time(program, "", 0)
    start_memory = peak_memory(program, "")
    print(f"empty script: {start_time * 1e6:.0f} us, {start_memory} KiB")
    met = [measure(program, kind, start_time, start_memory) for kind in ROUNDS]
    met.append(measure_searches(program, "searches", "labels", "data objects"))
    met.append(measure_searches(program, "key-searches", "keys", "keys"))
    met.extend(measure_figures(program))
    return 0 if all(met) else 1


if __name__ == "__main__":
    sys.exit(main())
