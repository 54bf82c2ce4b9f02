#!/usr/bin/env python3
"""Measures the C module beside SoftHSM and NSS's own module, each loaded as applications load it,
by one thread and by four, and prints a table of nanoseconds for each call. Then prints the module's
own share of a call: the call in C less the token's call, which `token.c` makes in the same way, as
a module that does nothing else. The machine's load is printed first and last.

It needs `module/build`, ck_bench built (`rt run` in crates/ck_bench), gcc, and SoftHSM and NSS
(apt-get install softhsm2 libnss3 libnss3-dev). It wants four processors without other work. Each
figure is the best of several runs, except that of the longest that a thread waits for a session's
info beside one that digests messages of 1 MiB: of these waits the median of the runs is judged, and
the longest of all is printed below it.

The module may take no longer than SoftHSM, by one thread and by four. It may take no longer than
NSS, by one thread and by four, in the rows in which the token's own call takes no longer than NSS's
by one thread. Its own share of a call without bytes may be at most 100 ns, and the wait at most 200
microseconds. Where one isn't so, or SoftHSM or NSS isn't there to be compared, that is printed at
the end, and the status is 1.
"""
import collections
import glob
import os
import re
import shutil
import statistics
import subprocess
import sys
import tempfile

from make_script import script

HERE = os.path.dirname(os.path.abspath(__file__))
MODULE = os.path.join(HERE, "..", "module", "out", "libospreyrack.so")
TOKEN_LIBRARY = os.path.join(HERE, "..", "crates", "ck_module", "out", "libck_module.a")
BENCH = os.path.join(HERE, "..", "crates", "ck_bench", "out", "ck_bench")
NSS_PARAMETERS = (
    "configdir='' certPrefix='' keyPrefix='' secmod='' "
    "flags=readOnly,noCertDB,noModDB,forceOpen,optimizeSpace"
)
PEERS = ["SoftHSM", "NSS"]
RUNS = 3
# In nanoseconds.
LARGEST_SHARE = 100
MOST_WAIT = 200_000

# The row of the client's waits, and the rows of the table in its place.
WAIT = "longest wait beside digests of 1 MiB"
MEDIAN_WAIT = f"{WAIT}, median of the runs"
LONGEST_WAIT = f"{WAIT}, longest of them"

# What ck_bench calls the calls of the token that a round here makes, and how many calls a round is.
TOKEN_CALLS = {
    "session info": ("session info", 1),
    "token info": ("token info", 1),
    "open and close": ("open and close, each", 2),
    "label": ("get label", 1),
    "create and destroy": ("create and destroy a data object (both together)", 2),
    "digest of 64 bytes": ("digest of 64 bytes (with its start)", 2),
    "signature of 64 bytes": ("HMAC of 64 bytes (with its start)", 2),
}
WITHOUT_BYTES = ["session info", "token info", "open and close"]


def compile_c(out, *words):
    flags = subprocess.check_output(["pkg-config", "--cflags", "nss"], text=True).split()
    subprocess.check_call(["gcc", "-O2", "-std=gnu11", *flags, "-o", out, *words])
    return out


def compile_client(folder):
    source = os.path.join(HERE, "module.c")
    return compile_c(os.path.join(folder, "module"), source, "-lpthread")


def compile_token(folder):
    """The token's calls as a module that does nothing else."""
    rt = shutil.which("rt") or sys.exit("rt isn't there: it comes with the toolchain")
    toolchain = os.path.dirname(os.path.realpath(rt))
    runtime = os.path.join(toolchain, "..", "c", "liblibc_c.a")
    words = ["-shared", "-fPIC", os.path.join(HERE, "token.c"), TOKEN_LIBRARY, runtime]
    return compile_c(os.path.join(folder, "token.so"), *words)


def own_environment():
    """The environment without the variables that the module reads."""
    return {name: value for name, value in os.environ.items() if not name.startswith("OSPREYRACK_")}


def soft_hsm_environment(folder):
    tokens = os.path.join(folder, "tokens")
    os.makedirs(tokens, exist_ok=True)
    configuration = os.path.join(folder, "softhsm2.conf")
    with open(configuration, "w") as file:
        file.write(f"directories.tokendir = {tokens}\nobjectstore.backend = file\n")
    return {**os.environ, "SOFTHSM2_CONF": configuration}


def peers(folder):
    """The modules to measure: a name, a path, what stands behind it, and the environment."""
    yield "module", MODULE, [], own_environment()
    for path in glob.glob("/usr/lib*/softhsm/libsofthsm2.so")[:1]:
        yield "SoftHSM", path, [], soft_hsm_environment(folder)
    for path in glob.glob("/usr/lib*/*/libsoftokn3.so")[:1]:
        yield "NSS", path, [NSS_PARAMETERS], dict(os.environ)


def measure(words, environment):
    """The best time of each round, of several runs of the client with these arguments. Where each
    run has a longest wait, the median of these and the longest of them."""
    times = collections.defaultdict(list)
    for _ in range(RUNS):
        for line in subprocess.check_output(words, text=True, env=environment).splitlines():
            name, time = line.rsplit(": ", 1)
            times[name].append(float(time))
    waits = times.pop(WAIT, [])
    best = {name: min(runs) for name, runs in times.items()}
    if waits:
        best.update({MEDIAN_WAIT: statistics.median(waits), LONGEST_WAIT: max(waits)})
    return best


def token_times():
    """The nanoseconds of a round's calls of the token without the module."""
    output = subprocess.check_output([BENCH, "unshared"], input=script("single-calls"), text=True)
    best, count = {}, {}
    for line in output.splitlines():
        name, value = line.rsplit(": ", 1)
        if calls := re.fullmatch(r"(\d+) calls, 0 refused", value):
            count[name] = int(calls[1])
        elif (time := re.fullmatch(r"(\d+) ns", value)) and name in count:
            each = int(time[1]) / count[name]
            best[name] = min(best.get(name, float("inf")), each)
    return {name: best[section] * calls for name, (section, calls) in TOKEN_CALLS.items()}


def rows_of_nss(times, token):
    """The rows that are judged beside NSS: those in which the token's own call takes no longer than
    NSS's, by one thread."""
    nss = times.get("NSS", {})
    return [name for name, time in token.items() if time <= nss.get(name, 0)]


def slower_than(times, peer, rows, threads):
    """The rows of these in which the module takes longer than a peer that is there."""
    for name in rows:
        if peer in times and times["module"][name] > times[peer][name]:
            yield f"{name}, {threads} threads: slower than {peer}"


def faults_of(times, token):
    """What isn't as wanted. `times` has the times of the module and of its peers by one thread and
    by four, and `token` those of the token's own calls by one thread."""
    for peer in PEERS:
        if peer not in times[1]:
            yield f"{peer} isn't there: not compared"
    beside_nss = rows_of_nss(times[1], token)
    for threads, measured in times.items():
        rounds = [name for name in measured["module"] if not name.startswith(WAIT)]
        yield from slower_than(measured, "SoftHSM", rounds, threads)
        yield from slower_than(measured, "NSS", beside_nss, threads)
        if measured["module"].get(MEDIAN_WAIT, 0) > MOST_WAIT:
            yield f"{MEDIAN_WAIT}: more than {MOST_WAIT} ns"


def print_table(times, threads):
    names = list(times)
    rows = list(times["module"])
    width = max(map(len, rows)) + 2
    print(f"{threads} threads, ns".ljust(width) + "".join(name.rjust(14) for name in names))
    for row in rows:
        print(row.ljust(width) + "".join(f"{times[name][row]:14,.0f}" for name in names))


def shares(client, folder):
    """The module's own share of each call, and how long the token's call takes."""
    module = measure([client, MODULE, "few"], own_environment())
    token = measure([client, compile_token(folder), "few"], own_environment())
    for name, time in token.items():
        calls = TOKEN_CALLS[name][1]
        yield name, (module[name] - time) / calls, time / calls


def print_load():
    print("load of the machine: " + ", ".join(f"{load:.1f}" for load in os.getloadavg()))


def measure_modules(client, folder):
    """The times of the module and its peers by one thread and by four, as they are printed."""
    times = {}
    for threads in (1, 4):
        times[threads] = {
            name: measure([client, path, str(threads), *parameters], environment)
            for name, path, parameters, environment in peers(folder)
        }
        print_table(times[threads], threads)
    return times


def share_faults(client, folder):
    """Prints the module's own share of each call, and gives what isn't as wanted of it."""
    for name, share, time in shares(client, folder):
        print(f"{name}, each call: the module's own share {share:,.0f} ns, "
              f"the token's call {time:,.0f}")
        if name in WITHOUT_BYTES and share > LARGEST_SHARE:
            yield f"{name}: the module's own share is more than {LARGEST_SHARE} ns"


def main():
    print_load()
    token = token_times()
    with tempfile.TemporaryDirectory() as folder:
        client = compile_client(folder)
        faults = list(faults_of(measure_modules(client, folder), token))
        faults += share_faults(client, folder)
    print_load()
    for fault in faults:
        print(fault)
    sys.exit(1 if faults else 0)


if __name__ == "__main__":
    main()
