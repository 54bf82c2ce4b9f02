"""Tests of the journal file and of the other environment variables: kills, cut files, changed
files, full devices, forks, programs that are executed or have rights of another user, seeds, and
memory over many calls.

Called with the module's file and the program ck_cases. With the name of one of `WORKERS` in front
of the module's file it is a worker, which this program starts itself.
"""
import _ctypes
import contextlib
import ctypes
import fcntl
import gc
import os
import random
import resource
import shutil
import signal
import stat
import subprocess
import sys
import tempfile
import threading
import time

import support

SLOT_ID_INVALID = 3
GENERAL_ERROR = 5
ARGUMENTS_BAD = 7
NO_EVENT = 8
NOT_PARALLEL = 0x51
NOT_SUPPORTED = 0x54
NOT_INITIALIZED = 0x190
SEED_NOT_SUPPORTED = 0x120
HOST_MEMORY = "2"
TEMPLATE_INCONSISTENT = "d1"
KEY_SIZE_RANGE = "62"
DEVICE_ERROR = "30"
LONGEST_LINE = 4194304
BYTES_AT_ONCE = 4096
LONGEST_PIECE = 1 << 20
LOG_IN = ["1 InitToken 31323334", "1 OpenSession 6", "1 Login 1 0 31323334",
              "1 InitPIN 1 75736572", "1 Logout 1", "1 Login 1 1 75736572"]
SOME_CALLS = LOG_IN + [
    "1 CreateObject 1 0=0000000000000000,1=01,2=00,3=6162",
    "1 CreateObject 1 0=0400000000000000,100=1000000000000000,1=01,11=4a656665",
    "1 SignInit 1 251 4294967298", "1 Sign 1 6162 32", "1 Login 1 1 31", "1 GetTokenInfo",
    "1 FindObjectsInit 1 -", "1 FindObjects 1 9", "1 OpenSession 4",
]

# How each journal begins that the module makes.
HEADER = """\
# The journal of an Ospreyrack token: its calls with their replies, in the order of answers.
# The PINs and the values of keys stand in it as they are.
limits largest
"""

# The first bytes of splitmix64 from the state 7, and from the largest one. Runs with a seed may be
# kept as cases, so a seed's bytes stay the same from version to version.
RANDOM_OF_SEVEN = ("d70d3259e4e1cb631c663cf4d73c4c04022ab1ba804098e6"
                   "cb293e6770eb3a95da211e6a663bd373")
RANDOM_OF_LARGEST = ("202c651b7771d9e4c982f6db67f89fe9e98172b24cf82f38"
                     "d282a9cb6cb31d6dae6980572e47a0b4")

# How many times the memory of a worker is measured at most, until it is as it must be.
TRIES_OF_MEMORY = 3

# The most seconds in which a process ends by itself while its C_Initialize waits in another thread,
# and in which the child of a fork begins anew.
SECONDS_OF_EXIT = 20
SECONDS_OF_CHILD = 60

# How many of the longest lines are read, and the most seconds of processor time that this takes:
# far more than it does on a slow machine.
LONG_LINES = 16
SECONDS_OF_LINES = 2

# Users that need not have a name.
OWNER, OTHER_USER = 1, 2

# ---- Workers


def answer_input(path):
    """Answers the calls that stand in standard input, one after the other. Signals end this process
    as they end a program in C: Python ignores these two."""
    signal.signal(signal.SIGXFSZ, signal.SIG_DFL)
    signal.signal(signal.SIGPIPE, signal.SIG_DFL)
    module = support.Module(path)
    print(f"{module.call('Initialize', None):x}", flush=True)
    for line in sys.stdin:
        print(module.say(line.rstrip("\n")), flush=True)
    print(f"{module.finalize():x}", flush=True)


def resident_memory():
    with open("/proc/self/statm", encoding="ascii") as file:
        return int(file.read().split()[1]) * resource.getpagesize()


class MemoryInfo(ctypes.Structure):
    """What mallinfo2(3) answers."""
    _fields_ = [(name, ctypes.c_size_t)
                for name in ["arena", "ordblks", "smblks", "hblks", "hblkhd", "usmblks", "fsmblks",
                             "uordblks", "fordblks", "keepcost"]]


def memory_in_use():
    """How many bytes of memory this process has taken by malloc and not given back."""
    gc.collect()
    read_info = ctypes.CDLL(None).mallinfo2
    read_info.restype = MemoryInfo
    info = read_info()
    return info.uordblks + info.hblkhd


def measure_memory(path):
    """Writes how much memory 180,000 calls took, after 20,000 before them."""
    module = support.Module(path)
    module.call("Initialize", None)
    module.say("1 InitToken 31323334")
    for count in range(1, 50001):
        module.answer(["1", "OpenSession", "6"])
        module.answer(["1", "DigestInit", str(count), "250"])
        module.answer(["1", "Digest", str(count), "616263", "32"])
        reply = module.answer(["1", "CloseSession", str(count)])
        if count == 5000:
            before = resident_memory()
    print(resident_memory() - before, reply, flush=True)


def measure_polling(path):
    """The same of calls without a session."""
    module = support.Module(path)
    module.call("Initialize", None)
    for count in range(200000):
        code, _ = module.token_info()
        if count == 20000:
            before = resident_memory()
    print(resident_memory() - before, code, flush=True)


def measure_staying(path):
    """Writes how much memory 150,000 calls took, after 50,000 before them, where a session stays
    open for each 50,000."""
    module = support.Module(path)
    module.call("Initialize", None)
    module.say("1 InitToken 31323334")
    for count in range(1, 5):
        module.say("1 OpenSession 6")
        for _ in range(50000):
            module.token_info()
        reply = module.say(f"1 CloseSession {count}")
        if count == 1:
            before = resident_memory()
    print(resident_memory() - before, reply, flush=True)


def measure_line(path, line):
    """The same of one call on a session that isn't open."""
    module = support.Module(path)
    module.call("Initialize", None)
    words = line.split(" ")
    for count in range(200000):
        reply = module.answer(words)
        if count == 20000:
            before = resident_memory()
    print(resident_memory() - before, reply, flush=True)


def unload_and_load(path):
    """Unloads the library in the middle of its work, and begins with it anew."""
    module = support.Module(path)
    print(module.call("Initialize", None), module.say("1 InitToken 31323334"),
          module.say("1 OpenSession 6"))
    _ctypes.dlclose(module.library._handle)
    module = support.Module(path)
    print(module.call("Finalize", None), module.call("Initialize", None),
          module.say("1 OpenSession 6"), module.finalize())


def exit_in_initialize(path):
    """Ends the process by exit(3) while another thread reads the script, which has no end."""
    module = support.Module(path)
    threading.Thread(target=module.call, args=["Initialize", None], daemon=True).start()
    # This waits until C_Initialize opens the script.
    os.open(os.environ["OSPREYRACK_SCRIPT"], os.O_WRONLY)
    ctypes.CDLL(None).exit(0)


MUTEX_FUNCTION = ctypes.CFUNCTYPE(ctypes.c_ulong, ctypes.c_void_p)


class Arguments(ctypes.Structure):
    """Those of C_Initialize, with the application's functions for a mutex."""
    _fields_ = [("functions", MUTEX_FUNCTION * 4), ("flags", ctypes.c_ulong),
                ("reserved", ctypes.c_void_p * 2)]


# There is one thread only, so the functions for the lock need not do anything.
NO_LOCKING = MUTEX_FUNCTION(lambda mutex: 0)
WITH_FUNCTIONS = Arguments((MUTEX_FUNCTION * 4)(*[NO_LOCKING] * 4))


def unload_with_functions(path):
    """Unloads the library in the middle of its work under the application's lock, and begins with
    it anew."""
    module = support.Module(path)
    print(module.call("Initialize", ctypes.byref(WITH_FUNCTIONS)),
          module.say("1 InitToken 31323334"), flush=True)
    _ctypes.dlclose(module.library._handle)
    print(open_files().count(os.environ["OSPREYRACK_TOKEN"]),
          support.Module(path).call("Initialize", None), flush=True)


def open_files():
    """The paths of this process's descriptors."""
    paths = []
    for number in os.listdir("/proc/self/fd"):
        # The descriptor by which the folder was read is closed by now.
        with contextlib.suppress(FileNotFoundError):
            paths.append(os.readlink(f"/proc/self/fd/{number}"))
    return paths


def terminal_of_process():
    """The number of the terminal that controls this process, or 0 where none does."""
    with open("/proc/self/stat", encoding="ascii") as file:
        _, _, fields = file.read().rpartition(") ")
    return int(fields.split(" ")[4])


def files_of_program():
    """The paths of the descriptors that a program has which this process executes. No code of the
    library runs before in a child, as it would after a fork."""
    out, written = os.pipe()
    program = os.posix_spawn(sys.executable, [sys.executable, os.path.abspath(__file__), "files"],
                             os.environ, file_actions=[(os.POSIX_SPAWN_DUP2, written, 1)])
    os.close(written)
    with open(out, encoding="utf-8") as file:
        paths = file.read().split("\n")[:-1]
    os.waitpid(program, 0)
    return paths


def give_away(path, other):
    """Gives the number of this process's descriptor of a file to another file."""
    for number in map(int, os.listdir("/proc/self/fd")):
        with contextlib.suppress(FileNotFoundError):
            if os.readlink(f"/proc/self/fd/{number}") == path:
                os.dup2(other.fileno(), number)
                return number
    return None


def live_as_child(act, written, end):
    """What a child of a fork does: it writes what comes of `act`, and lives until `end` is closed.
    It ends by exit(3), so that the library's own end is run."""
    try:
        with open(written, "w", encoding="utf-8") as file:
            file.write("\n".join(act()))
        os.read(end, 1)
    except BaseException:
        os._exit(1)
    ctypes.CDLL(None).exit(0)


class Worker:
    """A process that answers calls."""

    def __init__(self, path, limit=None, has_errors=True, **variables):
        unread, errors = os.pipe()
        os.close(unread)
        self.process = subprocess.Popen(
            [sys.executable, os.path.abspath(__file__), "answer", path],
            env=support.environment_of(variables), text=True, stdin=subprocess.PIPE,
            stdout=subprocess.PIPE, stderr=subprocess.PIPE if has_errors else errors,
            preexec_fn=lambda: limit_files(limit))
        os.close(errors)
        self.code = self.read()

    def read(self):
        return self.process.stdout.readline().rstrip("\n")

    def say(self, line):
        self.process.stdin.write(line + "\n")
        self.process.stdin.flush()
        return self.read()

    def end(self):
        """Lets it end by itself. Answers what it wrote to standard error."""
        out, errors = self.process.communicate(timeout=support.SECONDS)
        self.last = out.rstrip("\n")
        return errors

    def kill(self):
        """Answers the replies that were written before it was killed."""
        self.process.send_signal(signal.SIGKILL)
        # `communicate` would pass over what was read from the pipe before and isn't used yet.
        out = self.process.stdout.read()
        self.process.communicate(timeout=support.SECONDS)
        return out.split("\n")[:-1]


def limit_files(limit):
    if limit is not None:
        resource.setrlimit(resource.RLIMIT_FSIZE, (limit, resource.RLIM_INFINITY))


WORKERS = {
    "answer": answer_input,
    "files": lambda: print("\n".join(open_files())),
    "memory": measure_memory,
    "polling": measure_polling,
    "asking": lambda path: measure_line(path, "1 GetSessionInfo 7"),
    "exit": exit_in_initialize,
    "starting": lambda path: measure_line(path, "1 DigestInit 7 250"),
    "staying": measure_staying,
    "unload": unload_and_load,
    "unload_with_functions": unload_with_functions,
}

# ---- Helpers


class LeftOut(Exception):
    """Why a test can't be made here."""


@contextlib.contextmanager
def errors_in(path):
    """What this process writes to standard error goes to a file."""
    sys.stderr.flush()
    kept = os.dup(2)
    file = os.open(path, os.O_WRONLY | os.O_CREAT | os.O_TRUNC, 0o600)
    os.dup2(file, 2)
    os.close(file)
    try:
        yield
    finally:
        os.dup2(kept, 2)
        os.close(kept)


@contextlib.contextmanager
def limited_memory(more):
    """This process can take only this many bytes more."""
    with open("/proc/self/statm", encoding="ascii") as file:
        taken = int(file.read().split()[0]) * resource.getpagesize()
    before = resource.getrlimit(resource.RLIMIT_AS)
    resource.setrlimit(resource.RLIMIT_AS, (taken + more, before[1]))
    try:
        yield
    finally:
        resource.setrlimit(resource.RLIMIT_AS, before)


def read(path):
    with open(path, "rb") as file:
        return file.read()


def write(path, content):
    with open(path, "wb") as file:
        file.write(content)


class Tests:
    def __init__(self, checks, module_path, ck_cases, folder):
        self.checks = checks
        self.path = module_path
        self.module = support.Module(module_path)
        self.ck_cases = ck_cases
        self.folder = os.path.realpath(folder)

    def file(self, name):
        return os.path.join(self.folder, name)

    def initialize(self, **variables):
        """C_Initialize in this process: its code, and what it wrote to standard error."""
        with errors_in(self.file("errors")):
            code = self.module.initialize(**variables)
        return code, read(self.file("errors")).decode()

    def initialize_with_closed(self, closed, **variables):
        """The code of C_Initialize where these descriptors are closed, which a file gets first. No
        file may have one of them afterwards."""
        sys.stdout.flush()
        sys.stderr.flush()
        kept = [(number, os.dup(number)) for number in closed]
        for number in closed:
            os.close(number)
        code = self.module.initialize(**variables)
        left = [number for number in closed if os.path.lexists(f"/proc/self/fd/{number}")]
        for number, copy in kept:
            os.dup2(copy, number)
            os.close(copy)
        self.checks.equal(left, [], f"which of {closed} are open behind C_Initialize")
        return code

    @contextlib.contextmanager
    def child_of_fork(self, act, fork=os.fork):
        """A child that lives until the block has ended. Gives the lines of what comes of `act`."""
        out, written = os.pipe()
        end, kept = os.pipe()
        child = fork()
        if child == 0:
            os.close(kept)
            live_as_child(act, written, end)
        os.close(written)
        os.close(end)
        with open(out, encoding="utf-8") as file:
            lines = file.read().split("\n")
        try:
            yield lines
        finally:
            os.close(kept)
            self.checks.equal(os.waitpid(child, 0)[1], 0, "the status of the child")

    def begin(self, **variables):
        code, errors = self.initialize(**variables)
        self.checks.equal(code, 0, f"C_Initialize with {variables}: {errors}")

    def end(self):
        self.checks.equal(self.module.finalize(), 0, "C_Finalize")

    def say_all(self, lines):
        return [self.module.say(line) for line in lines]

    def journal_of_some_calls(self):
        """A file with some calls, in which nothing else stands."""
        path = self.file("some.cases")
        if not os.path.exists(path):
            self.begin(TOKEN=path)
            replies = self.say_all(SOME_CALLS)
            self.end()
            lines = read(path).decode().split("\n")
            for call, reply in zip(SOME_CALLS, replies):
                self.checks.check(f"{call} -> {reply}" in lines, f"{call} stands in the file")
        return path

    # ---- The tests

    def test_file(self):
        """The form of the file."""
        path = self.journal_of_some_calls()
        content = read(path).decode()
        self.checks.equal(content[:len(HEADER)], HEADER, "the first lines")
        self.checks.equal(content.count("limits largest\n"), 1, "lines of limits")
        label = f"# label {support.LABEL.hex()}\n"
        self.checks.equal(content.count(label), 1, "lines of the label")
        self.checks.equal(stat.S_IMODE(os.stat(path).st_mode), 0o600, "the file's mode")
        support.audit(self.checks, self.ck_cases, path)
        self.begin(JOURNAL=self.file("of-%p-and-%p.cases"))
        name = self.file(f"of-{os.getpid()}-and-{os.getpid()}.cases")
        self.checks.check(os.path.exists(name), "%p in the name is the process's number")
        self.end()
        self.begin(TOKEN=self.file("of-%p.cases"))
        self.end()
        self.checks.check(os.path.exists(self.file("of-%p.cases")), "%p in a token's name is %p")

    def test_counted_journals(self):
        """%n in the name of the journal counts those that the process has begun."""
        for _ in range(3):
            self.begin(JOURNAL=self.file("counted-%n.cases"))
            self.end()
        names = [name for name in os.listdir(self.folder) if name.startswith("counted-")]
        numbers = sorted(int(name[len("counted-"):-len(".cases")]) for name in names)
        self.checks.equal(numbers, [numbers[0], numbers[0] + 1, numbers[0] + 2], "the numbers")
        self.begin(JOURNAL=self.file("%-%%n-%x.cases"))
        self.end()
        name = self.file(f"%-%{numbers[0] + 3}-%x.cases")
        self.checks.check(os.path.exists(name), "a % before another letter stays")
        # one whose name has no number counts, too, and one that couldn't be begun, and a child of a
        # fork counts on
        self.begin(JOURNAL=self.file("without_number.cases"))
        self.end()
        code, _ = self.initialize(JOURNAL=self.file("none/%n"))
        self.checks.equal(code, GENERAL_ERROR, "C_Initialize with a file in no folder")
        path = self.file("child-%n.cases")
        with self.child_of_fork(lambda: [str(self.module.initialize(JOURNAL=path))]) as seen:
            self.checks.equal(seen, ["0"], "C_Initialize in a child of a fork")
        name = self.file(f"child-{numbers[0] + 6}.cases")
        self.checks.check(os.path.exists(name), "the number of a child's journal")
        Worker(self.path, JOURNAL=self.file("first-%n.cases")).end()
        self.checks.check(os.path.exists(self.file("first-1.cases")), "a process begins at 1")

    def test_mode(self):
        """Only its owner reads and writes the file, whatever the process leaves to others."""
        path = self.file("owned.cases")
        before = os.umask(0)
        self.begin(TOKEN=path)
        os.umask(before)
        self.end()
        self.checks.equal(stat.S_IMODE(os.stat(path).st_mode), 0o600, "the file's mode")
        # One that is there keeps its rights.
        shutil.copy(self.journal_of_some_calls(), path)
        os.chmod(path, 0o664)
        self.begin(TOKEN=path)
        self.end()
        self.checks.equal(stat.S_IMODE(os.stat(path).st_mode), 0o664, "the mode of one before")

    def test_going_on(self):
        """A token goes on from a file, with its label, its PINs and its objects."""
        path = self.file("going_on.cases")
        shutil.copy(self.journal_of_some_calls(), path)
        for count in range(3):
            self.begin(TOKEN=path)
            _, info = self.module.token_info()
            self.checks.equal(bytes(info.label), support.LABEL, "the label")
            self.checks.equal(info.sessions, 0, "open sessions")
            session = 3 + count
            self.checks.equal(self.module.say("1 OpenSession 6"), f"0 {session}", "a new session")
            self.checks.equal(self.module.say(f"1 Login {session} 1 75736572"), "0", "the login")
            self.checks.equal(self.module.say(f"1 GetAttributeValue {session} 1 3:9"), "0 =6162",
                              "the label of the object")
            key = 2 + ((2 + count) << 32)
            self.checks.equal(self.module.say(f"1 GetAttributeValue {session} {key} 11:9"),
                              "0 =4a656665", "the key's value")
            self.end()
        support.audit(self.checks, self.ck_cases, path)

    def test_new_label(self):
        """The label of a later C_InitToken comes back."""
        path = self.file("labels.cases")
        for label in [b"the first".ljust(32), bytes(range(32)), b"\xff" * 32]:
            self.module.label = label
            self.begin(TOKEN=path)
            self.checks.equal(self.module.say("1 InitToken 31323334"), "0", "InitToken")
            self.checks.check(read(path).endswith(f"# label {label.hex()}\n".encode()),
                              "the label stands in the file at once")
            self.module.label = b"of a call that is refused".ljust(32)
            self.checks.equal(self.module.say("1 InitToken 3132333435"), "a0", "a wrong PIN")
            self.end()
            self.begin(TOKEN=path)
            self.checks.equal(bytes(self.module.token_info()[1].label), label, "the label")
            self.end()
        self.module.label = support.LABEL
        support.audit(self.checks, self.ck_cases, path)

    def test_no_label(self):
        """A comment that is nearly a label's line is only a comment."""
        path, before, other = self.file("no_label.script"), "62" * 32, "61" * 32
        texts = ["61" * 31, "61" * 31 + "6", other + "6", "61" * 33, "6g" * 32, "g6" * 32,
                 "6A" * 32]
        comments = [f"# label {text}" for text in texts]
        comments += [start + other for start in ["# hash: ", "#-label ", "# label:"]]
        for comment in comments:
            write(path, f"# label {before}\n{comment}\n1 InitToken 31323334\n".encode())
            self.begin(SCRIPT=path)
            self.checks.equal(bytes(self.module.token_info()[1].label).hex(), before, comment)
            self.end()

    def test_script(self):
        """A script prepares PINs and a key, once for each token."""
        script, path = self.file("script"), self.file("scripted.cases")
        lines = ["# PINs and a key", "limits largest", "1 InitToken 31323334 -> 0", "",
                 *LOG_IN[1:5], "1 Login 1 1 75736572 -> 0",
                 "1 CreateObject 1 0=0400000000000000,100=1000000000000000,1=01,3=6b6579,"
                 "11=4a656665"]
        write(script, "\n".join(lines).encode())
        for count in range(2):
            self.begin(TOKEN=path, SCRIPT=script)
            self.checks.equal(self.module.say("1 GetTokenInfo"), "0 40c 64 0 0", "GetTokenInfo")
            self.checks.equal(self.module.say("1 OpenSession 6"), f"0 {2 + count}", "OpenSession")
            self.checks.equal(self.module.say(f"1 Login {2 + count} 1 75736572"), "0", "Login")
            self.checks.equal(self.module.say(f"1 FindObjectsInit {2 + count} 3=6b6579"), "0",
                              "FindObjectsInit")
            self.checks.equal(self.module.say(f"1 FindObjects {2 + count} 9"),
                              f"0 {1 + ((2 + count) << 32)}", "the key")
            self.end()
        self.checks.equal(read(path).count(b"CreateObject"), 1, "the script's calls in the file")
        os.symlink(script, self.file("link"))
        self.begin(SCRIPT=self.file("link"))
        self.checks.equal(self.module.say("1 GetTokenInfo"), "0 40c 64 0 0", "without a file")
        self.end()
        self.checks.equal(self.initialize_with_closed((0,), SCRIPT=script), 0,
                          "C_Initialize where standard input is closed")
        self.checks.equal(self.module.say("1 GetTokenInfo"), "0 40c 64 0 0", "the script's token")
        self.end()
        support.audit(self.checks, self.ck_cases, path)

    def test_script_and_journal(self):
        """The calls of a script, with its label, stand in the file of the run."""
        script, label = self.file("labelled.script"), b"of a script".ljust(32)
        lines = ["1 InitToken 31323334 -> 0", f"# label {label.hex()}", "1 OpenSession 6 -> 0 1",
                 "1 Login 1 1 75736572 -> 102", "1 Login 1 7 31323334 -> 103"]
        write(script, "\n".join(lines).encode())
        for variable in ["JOURNAL", "TOKEN"]:
            path = self.file(f"of_script-{variable}.cases")
            self.begin(SCRIPT=script, **{variable: path})
            self.checks.equal(bytes(self.module.token_info()[1].label), label, "the label")
            self.end()
            expected = "\n".join([*lines, "1 CloseAllSessions -> 0",
                                  "1 GetTokenInfo -> 0 404 64 0 0", ""])
            self.checks.equal(read(path).decode(), HEADER + expected, "the file")
            support.audit(self.checks, self.ck_cases, path)
        self.begin(TOKEN=path)
        self.checks.equal(bytes(self.module.token_info()[1].label), label, "the label, later")
        self.end()

    def test_only_reply(self):
        """One reply is enough to show that a file is a journal."""
        path = self.file("only_reply.cases")
        write(path, b"1 InitToken 31323334 -> 0\n")
        self.begin(TOKEN=path)
        self.checks.equal(self.module.say("1 GetTokenInfo"), "0 404 64 0 0", "GetTokenInfo")
        self.end()
        self.checks.equal(read(path), b"1 InitToken 31323334 -> 0\n1 CloseAllSessions -> 0\n"
                          b"1 GetTokenInfo -> 0 404 64 0 0\n", "the file")

    def test_callers(self):
        """Threads are numbered from 1 to 8 in the order of their first calls, and then from 1."""
        path = self.file("callers.cases")
        # The last message is long, and its line is written while the lock is free.
        calls = ["1 GetTokenInfo", "1 DigestInit 1 250", f"1 Digest 1 {'61' * 5000} 32"]
        self.begin(JOURNAL=path)
        self.say_all(LOG_IN[:2])
        for _ in range(10):
            thread = threading.Thread(target=self.say_all, args=[calls])
            thread.start()
            thread.join()
        self.end()
        lines = [line.split(" ") for line in read(path).decode().split("\n")]
        numbers, *others = ([int(words[0]) for words in lines if words[1:2] == [name]]
                            for name in ["GetTokenInfo", "DigestInit", "Digest"])
        self.checks.equal(len(numbers), 10, "the calls in the file")
        self.checks.equal(numbers[1:], [it % 8 + 1 for it in numbers[:-1]], "the callers' numbers")
        self.checks.equal(others, [numbers] * 2, "the numbers of each thread's other calls")
        support.audit(self.checks, self.ck_cases, path)

    def callers_of_child(self, path):
        """A child of a fork, in which two threads call: the callers' numbers in its file."""
        self.module.initialize(JOURNAL=path)
        self.module.say("1 GetTokenInfo")
        thread = threading.Thread(target=self.module.say, args=["1 GetTokenInfo"])
        thread.start()
        thread.join()
        self.module.finalize()
        return [line.split(" ")[0] for line in read(path).decode().split("\n") if " -> " in line]

    def test_callers_of_child(self):
        """A child of a fork numbers its threads from 1 anew, whichever thread forks."""
        seen = []

        def fork_child(name):
            self.module.say("1 GetTokenInfo")
            path = self.file(name)
            with self.child_of_fork(lambda: self.callers_of_child(path)) as numbers:
                seen.append(numbers)

        self.begin()
        # Two threads that call one after the other have different numbers.
        for name in ["one.cases", "other.cases"]:
            thread = threading.Thread(target=fork_child, args=[name])
            thread.start()
            thread.join()
        self.end()
        self.checks.equal(seen, [["1", "2"]] * 2, "the callers' numbers in the children's files")

    def check_longest_comment(self, variable):
        """Of a script, or of the token's file: the longest comment, and one that is too long."""
        for length, expected in [(LONGEST_LINE, 0), (LONGEST_LINE + 1, GENERAL_ERROR)]:
            path = self.file(f"{variable}-{length}")
            write(path, b"#" * length + b"\n1 InitToken 31323334 -> 0\n")
            code, errors = self.initialize(**{variable: path})
            self.checks.equal(code, expected, f"C_Initialize with {variable} of {length} bytes")
            line = (f"ospreyrack: OSPREYRACK_{variable}: {path}, line 1: a line has at most "
                    "4194304 bytes\n")
            self.checks.equal(errors, "" if expected == 0 else line, "the errors")
            if code == 0:
                self.end()

    def test_calls_beside(self):
        """What stands in the journal for functions that the token doesn't have."""
        path, one, four = self.file("beside_token.cases"), support.c_ulong(1), support.c_ulong(4)
        out, size = (support.c_ubyte * 4)(), support.c_ulong(0)
        self.begin(JOURNAL=path)
        self.say_all(LOG_IN[:2] + ["1 CreateObject 1 0=0000000000000000,2=00"])
        for name, rest, code in [("GenerateRandom", [out, four], 0),
                                 ("SeedRandom", [out, four], SEED_NOT_SUPPORTED),
                                 ("GetObjectSize", [one, support.byref(size)], 0)]:
            self.checks.equal(self.module.call(name, one, *rest), code, f"C_{name}")
        self.end()
        lines = ["1 GetSessionInfo 1 -> 0 2 6", "1 GetSessionInfo 1 -> 0 2 6",
                 "1 GetAttributeValue 1 1 - -> 0 -", ""]
        self.checks.equal(read(path).decode().split("\n")[-4:], lines, "the last lines")
        support.audit(self.checks, self.ck_cases, path)

    def test_bad_pointers(self):
        """A call without a place for its answer doesn't stand in the journal."""
        path, one = self.file("bad_pointers.cases"), support.c_ulong(1)
        data, no_bytes = (support.c_ubyte * 4)(), support.c_ulong(0)
        flags = support.c_ulong(6)
        self.begin(JOURNAL=path)
        self.say_all(LOG_IN + ["1 CreateObject 1 0=0000000000000000,2=00", "1 DigestInit 1 250",
                               "1 FindObjectsInit 1 -"])
        before = read(path)
        for name, arguments in [
                ("GetSessionInfo", [one, None]), ("GetTokenInfo", [no_bytes, None]),
                ("GetMechanismList", [no_bytes, None, None]), ("GetObjectSize", [one, one, None]),
                ("OpenSession", [no_bytes, flags, None, None, None]),
                ("CopyObject", [one, one, None, no_bytes, None]),
                ("FindObjects", [one, data, no_bytes, None]),
                ("Digest", [one, data, one, data, None]), ("DigestFinal", [one, data, None]),
                ("GenerateRandom", [one, None, one]), ("SeedRandom", [one, None, one]),
                ("InitToken", [no_bytes, data, support.c_ulong(4), None])]:
            self.checks.equal(self.module.call(name, *arguments), ARGUMENTS_BAD, f"C_{name}")
            self.checks.equal(read(path), before, f"the file behind C_{name}")
        self.end()

    def test_without_token(self):
        """What is answered without the token, or refused for its slot, doesn't stand in the
        journal. A list of mechanisms stands in it whole, whatever the room for it is."""
        path, zero, one = self.file("without_token.cases"), support.c_ulong(0), support.c_ulong(1)
        out, count = (support.c_ubyte * 256)(), support.c_ulong(1)
        flags, four, sha256 = (support.c_ulong(it) for it in [6, 4, 0x250])
        self.begin(JOURNAL=path)
        self.say_all(LOG_IN[:2])
        before = read(path)
        for name, arguments, code in [
                ("GetInfo", [out], 0),
                ("GetSlotList", [support.c_ubyte(1), out, support.byref(count)], 0),
                ("GetSlotInfo", [zero, out], 0), ("GetMechanismInfo", [zero, sha256, out], 0),
                ("WaitForSlotEvent", [one, out, None], NO_EVENT),
                ("GetFunctionStatus", [one], NOT_PARALLEL),
                ("DigestKey", [one, one], NOT_SUPPORTED),
                ("GetTokenInfo", [one, out], SLOT_ID_INVALID),
                ("GetMechanismList", [one, None, support.byref(count)], SLOT_ID_INVALID),
                ("OpenSession", [one, flags, None, None, out], SLOT_ID_INVALID),
                ("CloseAllSessions", [one], SLOT_ID_INVALID),
                ("InitToken", [one, b"1234", four, out], SLOT_ID_INVALID)]:
            self.checks.equal(self.module.call(name, *arguments), code, f"C_{name}")
            self.checks.equal(read(path), before, f"the file behind C_{name}")
        whole = self.module.say("1 GetMechanismList")
        for place, room, code in [(None, 0, 0), (out, 0, support.BUFFER_TOO_SMALL),
                                  (out, 12, support.BUFFER_TOO_SMALL)]:
            count = support.c_ulong(room)
            made = self.module.call("GetMechanismList", zero, place, support.byref(count))
            self.checks.equal((made, count.value), (code, 13), f"a list with room for {room}")
        self.end()
        self.checks.equal(read(path).decode().split("\n")[-5:],
                          [f"1 GetMechanismList -> {whole}"] * 4 + [""], "the last lines")
        support.audit(self.checks, self.ck_cases, path)

    def test_quiet(self):
        """Calls write nothing to standard error, be they answered or refused."""
        refused = ["1 SetPIN 1 626164 31323334", "1 InitPIN 1 31323334", "1 InitToken 31323334",
                   "1 CreateObject 1 3=6162", "1 GenerateKey 1 350 161=0000000000000000",
                   "1 GetAttributeValue 1 9 11:64", "1 DestroyObject 1 9", "1 Verify 1 61 62",
                   "1 SetKeyState 1 9 1", "1 GetSessionInfo 9", "1 CloseSession 9"]
        ends = ["1 SetPIN 1 75736572 31323334", "1 Logout 1", "1 CloseSession 2",
                "1 Login 1 1 75736572", "1 Login 1 0 75736572", "1 Login 1 1 31323334",
                "1 CloseAllSessions", "1 InitToken 31323335", "1 InitToken 31323334"]
        for variables in [{}, {"TOKEN": self.file("quiet.cases")}]:
            worker = Worker(self.path, **variables)
            codes = [worker.say(line) for line in SOME_CALLS + refused][-len(refused):]
            self.checks.check("0" not in codes, f"codes of calls that are refused: {codes}")
            replies = [worker.say(line) for line in ends]
            self.checks.equal(replies, ["0", "0", "0", "a0", "a0", "0", "0", "a0", "0"],
                              "the last replies")
            self.checks.equal(worker.end(), "", f"the errors with {variables}")

    def test_cut_short(self):
        """Of what is too long in any case the token gets one byte more than may be."""
        path = self.file("cut_short.cases")
        pin, parameter, signature, message = ("61" * count for count in [65, 9, 65, (1 << 20) + 1])
        more = "61" * 4
        self.begin(JOURNAL=path)
        for start, end in [
                (f"1 Login 1 1 {pin}", ""), (f"1 SetPIN 1 {pin}", " 6162"),
                (f"1 SetPIN 1 6162 {pin}", ""), (f"1 DigestInit 1 250:{parameter}", ""),
                (f"1 SignInit 1 251:{parameter}", " 1"), (f"1 VerifyInit 1 251:{parameter}", " 1"),
                (f"1 Verify 1 6162 {signature}", ""), (f"1 VerifyFinal 1 {signature}", ""),
                (f"1 Digest 1 {message}", " 64"), (f"1 Sign 1 {message}", " 64"),
                (f"1 Verify 1 {message}", " 6162")]:
            reply = self.module.say(start + more + end)
            last = read(path).decode().split("\n")[-2]
            self.checks.equal(last, f"{start}{end} -> {reply}", "the line of what is longer")
        self.end()
        support.audit(self.checks, self.ck_cases, path)

    def test_longest_line(self):
        """A line has at most 4,194,304 bytes, be it a call that is written or a comment."""
        path = self.file("longest.cases")
        self.begin(JOURNAL=path)
        for start, end, length, reply in [
                ("1 FindObjectsInit 1 3=", "", LONGEST_LINE, "b3"),
                ("1 FindObjectsInit 1 11=", ",10=-", LONGEST_LINE, "b3"),
                ("1 FindObjectsInit 1 11=", "", LONGEST_LINE + 1, HOST_MEMORY),
                ("1 FindObjectsInit 1 3=", ",10=-", LONGEST_LINE + 1, HOST_MEMORY)]:
            line = start + "00" * ((length - len(start + end)) // 2) + end
            self.checks.equal(len(line), length, "the length of the line")
            self.checks.equal(self.module.say(line), reply, f"a line of {length} bytes")
        self.end()
        self.checks.equal(read(path).count(b"FindObjectsInit"), 2, "the calls in the file")
        support.audit(self.checks, self.ck_cases, path)
        self.begin(TOKEN=path)
        self.end()
        for variable in ["SCRIPT", "TOKEN"]:
            self.check_longest_comment(variable)

    def test_parted_arrow(self):
        """The longest call, where one read of the file ends in its arrow and the next one goes on
        there."""
        script, start = self.file("parted.script"), "1 FindObjectsInit 1 3="
        call = start + "00" * ((LONGEST_LINE - len(start)) // 2)
        self.checks.equal(len(call), LONGEST_LINE, "the length of the call")
        for count in range(1, len(" -> ") + 1):
            comment = "#" * (BYTES_AT_ONCE - count - 1)
            write(script, f"{comment}\n{call} -> b3\n".encode())
            self.checks.equal(self.initialize(SCRIPT=script), (0, ""),
                              f"C_Initialize, with {count} bytes of the arrow in the first read")
            self.module.finalize()

    def test_line_without_end(self):
        """A line that is too long isn't read to its end, and a reply may be longer."""
        zeros = self.file("zeros")
        with open(zeros, "wb") as file:
            file.truncate(1 << 40)
        for variable, path in [("SCRIPT", "/dev/zero"), ("SCRIPT", zeros), ("TOKEN", zeros)]:
            with limited_memory(64 << 20):
                code, errors = self.initialize(**{variable: path})
            self.checks.equal(code, GENERAL_ERROR, f"C_Initialize with {variable}={path}")
            self.checks.equal(errors, f"ospreyrack: OSPREYRACK_{variable}: {path}, line 1: a line "
                              "has at most 4194304 bytes\n", "the errors")
        self.checks.equal(os.path.getsize(zeros), 1 << 40, "the file's length")
        path = self.file("long_reply.cases")
        self.begin(TOKEN=path)
        self.say_all(LOG_IN[:2] + [f"1 CreateObject 1 0=0000000000000000,2=00,11={'61' * 100000}"])
        reply = self.module.say("1 GetAttributeValue 1 1 " + ",".join(["11:100000"] * 25))
        self.checks.check(len(reply) > LONGEST_LINE, f"a reply of {len(reply)} bytes")
        whole = "0 " + ",".join(["=" + "61" * 100000] * 25)
        self.checks.check(reply == whole, "each value of the reply is whole")
        self.end()
        self.begin(TOKEN=path)
        self.end()

    def test_absent_script(self):
        """A script that isn't there is told of, and no journal is made, not even of its name."""
        script = self.file("absent")
        for path in [script, self.file("beside_absent.cases")]:
            for variable in ["JOURNAL", "TOKEN"]:
                code, errors = self.initialize(SCRIPT=script, **{variable: path})
                self.checks.equal(code, GENERAL_ERROR, f"C_Initialize with {variable}={path}")
                self.checks.equal(errors, f"ospreyrack: OSPREYRACK_SCRIPT: {script}: the file "
                                  "can't be opened: No such file or directory\n", "the errors")
                self.checks.check(not os.path.exists(path), f"{path} isn't made")
        # Nor is a token's file changed for which the script wouldn't be answered.
        path, content = self.file("with_absent.cases"), read(self.journal_of_some_calls())
        write(path, content)
        code, errors = self.initialize(SCRIPT=script, TOKEN=path)
        self.checks.equal(code, GENERAL_ERROR, "C_Initialize with a token's file that is there")
        self.checks.equal(errors, f"ospreyrack: OSPREYRACK_SCRIPT: {script}: the file can't be "
                          "opened: No such file or directory\n", "the errors")
        self.checks.equal(read(path), content, "the token's file")
        if code == 0:
            self.end()
        script += "/long" * ((4000 - len(script)) // 5)
        self.checks.equal(self.initialize(SCRIPT=script), (
            GENERAL_ERROR, f"ospreyrack: OSPREYRACK_SCRIPT: {script}: the file can't be opened: No "
            "such file or directory\n"), "C_Initialize with a path of some 4,000 bytes")

    def test_failed_start(self):
        """A C_Initialize that fails leaves neither its seed nor its journal to the next one."""
        path, script = self.file("failed.cases"), self.file("failed.script")
        write(script, b"1 OpenSession six\n")
        made = []
        for _ in range(2):
            code, errors = self.initialize(SEED=1, JOURNAL=path, SCRIPT=script)
            self.checks.equal(code, GENERAL_ERROR, "C_Initialize with a bad script")
            self.checks.equal(errors, f"ospreyrack: OSPREYRACK_SCRIPT: {script}, line 1: this is "
                              "no call (ck_cases says why)\n", "the errors")
            made.append(self.random_of_start())
        self.checks.check(made[0] != made[1], "random bytes that follow from no seed")
        self.checks.equal(read(path), b"", "the journal")

    def test_bad_variable_and_file(self):
        """A bad variable beside a good file leaves the file as it is."""
        content = read(self.journal_of_some_calls())
        path = self.file("beside.cases")
        for variables in [{"SEED": "x"}, {"CUT": "maybe"}, {"OTHER": "1"}]:
            write(path, content)
            code, errors = self.initialize(TOKEN=path, **variables)
            os.environ.pop("OSPREYRACK_OTHER", None)
            self.checks.equal(code, GENERAL_ERROR, f"C_Initialize with {variables}")
            start = f"ospreyrack: OSPREYRACK_{[*variables][0]}: "
            self.checks.check(errors.startswith(start), errors)
            self.checks.equal(read(path), content, "the file")

    def test_cut_off(self):
        """A file that is cut off at each of its bytes: what has its end is kept."""
        whole = read(self.journal_of_some_calls())
        header = whole[:whole.index(b"limits largest\n") + len(b"limits largest\n")]
        path = self.file("cut_off.cases")
        for length in range(len(whole) + 1):
            write(path, whole[:length])
            code, errors = self.initialize(TOKEN=path)
            self.checks.equal(code, 0, f"C_Initialize with {length} bytes: {errors}")
            if code == 0:
                self.end()
            kept = whole[:whole.rfind(b"\n", 0, length) + 1] if length >= len(header) else header
            self.checks.check(read(path).startswith(kept), f"the lines of {length} bytes are kept")
            rest = read(path)[len(kept):]
            expected = b"1 CloseAllSessions -> 0\n" if length >= len(header) else b""
            self.checks.equal(rest, expected, f"what follows the lines of {length} bytes")
            number = len(kept.split(b"\n"))
            dropped = (f"ospreyrack: OSPREYRACK_TOKEN: {path}, line {number}: the last line has no "
                       "end, as a process that was killed leaves it: it is dropped\n")
            is_told = length > len(header) and len(kept) < length
            self.checks.equal(errors, dropped if is_told else "",
                              f"whether a dropped line is told of, at {length} bytes")
        support.audit(self.checks, self.ck_cases, path)

    def test_beginning(self):
        """A file that is a beginning of the header is a new one, and no other comment is."""
        path, header = self.file("beginning.cases"), HEADER.encode()
        script, call = self.file("beginning.script"), b"1 InitToken 31323334"
        write(script, call)
        for content in [b"#", b"# The", header[:-1]]:
            write(path, content)
            self.begin(TOKEN=path)
            self.end()
            self.checks.equal(read(path), header, f"the file that was {content}")
            write(path, content)
            self.begin(TOKEN=path, SCRIPT=script)
            self.end()
            self.checks.equal(read(path), header + call + b" -> 0\n1 CloseAllSessions -> 0\n",
                              f"the file that was {content}, with a script")
        for content in [b"##", b"#\n", b"# The\n", b"# Their", header[:-2] + b"x",
                        header[:-1].upper()]:
            write(path, content)
            code, errors = self.initialize(TOKEN=path)
            self.checks.equal(code, GENERAL_ERROR, f"C_Initialize with {content}")
            self.checks.equal(errors, f"ospreyrack: OSPREYRACK_TOKEN: {path}: this is no journal: "
                              "it has neither limits nor a reply\n", "the errors")
            self.checks.equal(read(path), content, "the file")
            if code == 0:
                self.end()

    def test_changed(self):
        """Each reply, changed: refused with its line, and the file stays."""
        lines = read(self.journal_of_some_calls()).split(b"\n")
        path = self.file("changed.cases")
        for place, line in enumerate(lines):
            if b" -> " not in line:
                continue
            other_digit = b"1" if line.endswith(b"0") else b"0"
            for other in [line[:-1], line[:-1] + other_digit, line + b"0",
                          line.replace(b" -> ", b" -> 9", 1), line.replace(b"1 ", b"9 ", 1),
                          line.replace(b" -> ", b" ->", 1)]:
                content = b"\n".join(lines[:place] + [other] + lines[place + 1:])
                write(path, content)
                code, errors = self.initialize(TOKEN=path)
                self.checks.equal(code, GENERAL_ERROR, f"C_Initialize with {other}")
                if code == 0:
                    self.end()
                start = f"ospreyrack: OSPREYRACK_TOKEN: {path}, line {place + 1}: "
                self.checks.check(errors.startswith(start) and errors.count("\n") == 1, errors)
                self.checks.equal(read(path), content, "the file")
        for closed in [(0, 2), (2,), (1, 2), (0, 1, 2)]:
            self.checks.equal(self.initialize_with_closed(closed, TOKEN=path), GENERAL_ERROR,
                              f"C_Initialize where {closed} are closed")
            self.checks.equal(read(path), content, f"the file, where {closed} are closed")
        self.begin(TOKEN=self.journal_of_some_calls())
        self.end()

    def test_lacking_reply(self):
        """Lines of which there was no memory for the reply, be it CKR_OK or another code."""
        content = read(self.journal_of_some_calls())
        path = self.file("lacking.cases")
        for line in [b"1 OpenSession 6 -> 0 1\n", b"1 Login 1 1 31 -> 100\n"]:
            self.checks.equal(content.count(line), 1, f"lines {line}")
            content = content.replace(line, line[:line.index(b" -> ")] + b"\n")
        write(path, content)
        self.begin(TOKEN=path)
        self.checks.equal(self.module.say("1 GetTokenInfo"), "0 40c 64 0 0", "GetTokenInfo")
        self.end()

    def test_two_processes(self):
        """One process at a time has the file."""
        path = self.file("two.cases")
        first = Worker(self.path, TOKEN=path)
        self.checks.equal(first.say("1 InitToken 31323334"), "0", "the first process")
        second = Worker(self.path, TOKEN=path)
        self.checks.equal(second.code, f"{GENERAL_ERROR:x}", "C_Initialize of the second process")
        self.checks.check(second.end().startswith(f"ospreyrack: OSPREYRACK_TOKEN: {path}: "),
                          "the second process says why")
        self.checks.equal(first.say("1 OpenSession 6"), "0 1", "the first process goes on")
        self.checks.equal(first.end(), "", "the errors of the first process")
        third = Worker(self.path, TOKEN=path)
        self.checks.equal(third.say("1 OpenSession 6"), "0 2", "a process after it")
        third.end()
        support.audit(self.checks, self.ck_cases, path)

    def check_not_empty(self, pattern, path):
        """A file that isn't empty is no new journal."""
        content = read(path)
        code, errors = self.initialize(JOURNAL=pattern)
        self.checks.equal(code, GENERAL_ERROR, f"C_Initialize with {content[:40]}")
        self.checks.equal(errors, f"ospreyrack: OSPREYRACK_JOURNAL: {path}: the file is there and "
                          "isn't empty\n", "the errors")
        self.checks.equal(self.module.say("1 GetTokenInfo"), f"{NOT_INITIALIZED:x}",
                          "a call after it")
        self.checks.equal(read(path), content, "the file")
        if code == 0:
            self.end()

    def test_second_run(self):
        """A second C_Initialize leaves the journal of the first run as it is, and says so."""
        for name in ["run.cases", "run-%p.cases"]:
            pattern = self.file(name)
            path = pattern.replace("%p", str(os.getpid()))
            for calls in [[], SOME_CALLS]:
                write(path, b"")
                self.begin(JOURNAL=pattern)
                self.say_all(calls)
                self.end()
                content = read(path)
                self.check_not_empty(pattern, path)
                self.begin(JOURNAL=self.file(f"other-{len(calls)}-{name}"))
                self.checks.equal(self.module.say("1 GetTokenInfo"), "0 4 64 0 0", "a new token")
                self.end()
                self.checks.equal(read(path), content, "the file, beside another one")
            support.audit(self.checks, self.ck_cases, path)
        # One byte is enough, even that with which a journal begins.
        path = self.file("one_byte.cases")
        write(path, b"#")
        self.check_not_empty(path, path)

    def check_locked(self, path):
        worker = Worker(self.path, TOKEN=path)
        self.checks.equal(worker.code, f"{GENERAL_ERROR:x}", "C_Initialize of another process")
        self.checks.equal(worker.end(), f"ospreyrack: OSPREYRACK_TOKEN: {path}: another process "
                          "has locked the file\n", "its errors")

    def check_calls(self, path, calls, replies):
        """A file has these calls and no others, and can be played."""
        content = read(path).decode() if os.path.exists(path) else "no file"
        lines = [line for line in content.split("\n") if " -> " in line]
        expected = [f"{call} -> {reply}" for call, reply in zip(calls, replies)]
        self.checks.equal(lines, expected, path)
        support.audit(self.checks, self.ck_cases, path)

    def see_as_child(self, variable, path):
        """A child of a fork: what it sees without initialization, with its parent's file, and with
        one of its own."""
        seen = [self.module.say("1 GetTokenInfo"), self.module.say("1 CloseSession 1"),
                str(path in open_files())]
        code, errors = self.initialize(**{variable: path})
        seen += [f"{code:x}", errors.rstrip("\n")]
        code, errors = self.initialize(JOURNAL=self.file("child-%p.cases"))
        seen += [f"{code:x}{errors}", *self.say_all(LOG_IN), f"{self.module.finalize():x}"]
        return [*seen, str(path in open_files()), str(os.getpid())]

    def test_fork(self):
        """A child of a fork leaves its parent's file as it is, and its lock, too."""
        for variable in ["JOURNAL", "TOKEN"]:
            path = self.file(f"parent-{variable}.cases")
            self.begin(**{variable: path})
            replies = self.say_all(SOME_CALLS)
            before = read(path)
            self.checks.equal(open_files().count(path), 1, "the parent's descriptors of the file")
            with self.child_of_fork(lambda: self.see_as_child(variable, path)) as seen:
                self.checks.equal(
                    seen[:-1],
                    [f"{NOT_INITIALIZED:x}", f"{NOT_INITIALIZED:x}", "False", f"{GENERAL_ERROR:x}",
                     f"ospreyrack: OSPREYRACK_{variable}: {path}: another process has locked the "
                     "file",
                     "0", "0", "0 1", "0", "0", "0", "0", "0", "False"], "what the child saw")
                self.checks.equal(read(path), before, "the parent's file")
                self.check_locked(path)
                replies += self.say_all(["1 GetTokenInfo", "1 OpenSession 6"])
            self.check_locked(path)
            replies.append(self.module.say("1 GetSessionInfo 3"))
            self.end()
            calls = [*SOME_CALLS, "1 GetTokenInfo", "1 OpenSession 6", "1 GetSessionInfo 3"]
            own = self.file(f"child-{seen[-1]}.cases")
            self.check_calls(path, calls, replies)
            self.check_calls(own, LOG_IN, seen[6:12])

    def test_fork_that_stays(self):
        """A child of a fork that lives on doesn't keep its parent's file."""
        path = self.file("left.cases")
        for act in [lambda: ["0"], lambda: [str(self.module.initialize())]]:
            self.begin(TOKEN=path)
            with self.child_of_fork(act) as seen:
                self.checks.equal(seen, ["0"], "the child")
                self.end()
                worker = Worker(self.path, TOKEN=path)
                self.checks.equal(worker.code, "0", "C_Initialize of another process")
                self.checks.equal(worker.say("1 InitToken 31323334"), "0", "its call")
                self.checks.equal(worker.end(), "", "its errors")
        # The same where the application has a lock of its own.
        os.environ["OSPREYRACK_TOKEN"] = path
        self.checks.equal(self.module.call("Initialize", ctypes.byref(WITH_FUNCTIONS)), 0,
                          "C_Initialize with functions for a lock")
        self.checks.equal(open_files().count(path), 1, "the parent's descriptors of the file")
        with self.child_of_fork(lambda: [str(open_files().count(path))]) as seen:
            self.checks.equal(seen, ["0"], "the child's descriptors of the file")
            self.end()
            worker = Worker(self.path, TOKEN=path)
            self.checks.equal(worker.code, "0", "C_Initialize of another process")
            self.checks.equal(worker.end(), "", "its errors")

    def test_unseen_child(self):
        """A child that the module doesn't see, as fork(2) didn't make it, leaves its parent's file
        as it is, and doesn't keep it locked."""
        fork = getattr(ctypes.CDLL(None), "_Fork", None)
        if fork is None:
            raise LeftOut("the C library has no _Fork")
        path = self.file("unseen.cases")
        self.begin(TOKEN=path)
        self.checks.equal(self.module.say("1 InitToken 31323334"), "0", "a call")
        with errors_in(self.file("errors")):
            with self.child_of_fork(lambda: [self.module.say("1 OpenSession 6")], fork) as seen:
                self.checks.equal(seen, [DEVICE_ERROR], "the child's call")
                self.checks.equal(self.module.say("1 OpenSession 4"), "0 1", "a call of the parent")
                self.end()
                worker = Worker(self.path, TOKEN=path)
                self.checks.equal(worker.code, "0", "C_Initialize of another process")
                self.checks.equal(worker.end(), "", "its errors")
        self.checks.equal(read(self.file("errors")).decode(),
                          "ospreyrack: OSPREYRACK_TOKEN: a call can't be written: the file is "
                          "another process's\n", "the errors")
        self.check_calls(path, ["1 InitToken 31323334", "1 OpenSession 4", "1 CloseAllSessions"],
                         ["0", "0 1", "0"])

    def test_closed_file(self):
        """A file that has got the number of the journal's descriptor isn't written or closed."""
        path, before = self.file("closed.cases"), b"another file\n"
        write(self.file("another"), before)
        self.begin(TOKEN=path)
        self.checks.equal(self.module.say("1 InitToken 31323334"), "0", "a call")
        content = read(path)
        with open(self.file("another"), "r+b") as other:
            number = give_away(path, other)
            with errors_in(self.file("errors")):
                self.checks.equal(self.module.say("1 GetTokenInfo"), DEVICE_ERROR, "the next call")
                self.checks.equal(self.module.say("1 OpenSession 6"), DEVICE_ERROR, "a later call")
            self.checks.equal(read(self.file("errors")).decode(), "ospreyrack: OSPREYRACK_TOKEN: a "
                              "call can't be written: the file was closed\n", "the errors")
            with self.child_of_fork(lambda: [str(os.fstat(number).st_size)]) as seen:
                self.checks.equal(seen, [str(len(before))], "the other file, in a child of a fork")
            self.end()
            self.checks.check(os.path.sameopenfile(number, other.fileno()), "it isn't closed")
            os.close(number)
        self.checks.equal((read(self.file("another")), read(path)), (before, content), "the files")
        self.begin(TOKEN=path)
        # where no other file has got the number, closing it is no second error
        with open(self.file("another"), "r+b") as other, errors_in(self.file("errors")):
            os.close(give_away(path, other))
            self.checks.equal(self.module.say("1 GetTokenInfo"), DEVICE_ERROR, "a call after that")
            self.end()
        self.checks.equal(read(self.file("errors")).decode(), "ospreyrack: OSPREYRACK_TOKEN: a "
                          "call can't be written: the file was closed\n", "the errors of both")

    def delete_one_by_one(self, path, other):
        """A file of two names loses one, takes a call, and loses the other one."""
        os.unlink(path)
        self.checks.equal(self.module.say("1 OpenSession 6"), "0 1", "a call with one name left")
        os.unlink(other)

    def test_lost_file(self):
        """A file that is deleted or cut short while its token is in use takes no more calls."""
        path, other = self.file("linked.cases"), self.file("other_name.cases")
        write(path, b"")
        os.link(path, other)
        for name, change, what in [
                ("deleted.cases", os.unlink, "deleted"),
                ("linked.cases", lambda path: self.delete_one_by_one(path, other), "deleted"),
                ("shortened.cases", lambda path: os.truncate(path, len(HEADER)), "cut short"),
                ("one_byte_less.cases", lambda path: os.truncate(path, os.path.getsize(path) - 1),
                 "cut short")]:
            path = self.file(name)
            self.begin(TOKEN=path)
            self.checks.equal(self.module.say("1 InitToken 31323334"), "0", "a call")
            change(path)
            with errors_in(self.file("errors")):
                self.checks.equal(self.module.say("1 GetTokenInfo"), DEVICE_ERROR, "the next call")
            self.checks.equal(read(self.file("errors")).decode(), "ospreyrack: OSPREYRACK_TOKEN: a "
                              f"call can't be written: the file was {what}\n", "the errors")
            self.end()

    def test_nameless_file(self):
        """A file that has no name is kept as others are, and a token goes on from it."""
        with tempfile.TemporaryFile(buffering=0, dir=self.folder) as file:
            for call, reply in [("1 InitToken 31323334", "0"), ("1 OpenSession 6", "0 1")]:
                self.begin(TOKEN=f"/proc/self/fd/{file.fileno()}")
                self.checks.equal(self.module.say(call), reply, call)
                self.end()
                file.seek(0)
                lines = file.read().decode().split("\n")
                self.checks.check(f"{call} -> {reply}" in lines, f"{call} stands in the file")

    def test_named_pipe(self):
        """A pipe that has a name is no journal, and nothing is written to it."""
        path = self.file("journal_fifo")
        os.mkfifo(path)
        reader = os.open(path, os.O_RDONLY | os.O_NONBLOCK)
        code, errors = self.initialize(JOURNAL=path)
        if code == 0:
            self.end()
        self.checks.equal(code, GENERAL_ERROR, "C_Initialize")
        self.checks.equal(errors, f"ospreyrack: OSPREYRACK_JOURNAL: {path}: this is no regular "
                          "file\n", "the errors")
        self.checks.equal(os.read(reader, len(HEADER)), b"", "what is in the pipe")
        os.close(reader)

    def test_standard_input(self):
        """Where no journal is kept, standard input stays as it is, and may be closed."""
        path, content = self.file("input"), b"what the application reads\n"
        write(path, content)
        kept = os.dup(0)
        with open(path, "r+b") as file:
            os.dup2(file.fileno(), 0)
        self.begin()
        self.end()
        os.dup2(kept, 0)
        os.close(kept)
        self.checks.equal(read(path), content, "the file that is standard input")
        self.checks.equal(self.initialize_with_closed((0,)), 0, "C_Initialize where it is closed")
        self.end()

    def begin_with_terminal(self, variable, path):
        """C_Initialize in a new session of processes, which no terminal controls: the terminal
        before, the code, and the terminal then."""
        os.setsid()
        before = terminal_of_process()
        code, _ = self.initialize(**{variable: path})
        return [str(before), str(code), str(terminal_of_process())]

    def test_terminal(self):
        """A terminal that a variable names doesn't control the process from then on."""
        try:
            keyboard, terminal = os.openpty()
        except OSError as reason:
            raise LeftOut(f"no terminal can be made here: {reason}") from reason
        path = os.ttyname(terminal)
        # A script, and the end of what is typed.
        os.write(keyboard, b"1 InitToken 31323334\n\4")
        for variable, code in [("SCRIPT", 0), ("JOURNAL", GENERAL_ERROR), ("TOKEN", GENERAL_ERROR)]:
            with self.child_of_fork(lambda: self.begin_with_terminal(variable, path)) as seen:
                self.checks.equal(seen, ["0", str(code), "0"], f"the child with {variable}")
        os.close(keyboard)
        os.close(terminal)

    def test_exec(self):
        """A program that is executed has no descriptor of the file."""
        path = self.file("executed.cases")
        for initialize in [lambda: self.initialize(TOKEN=path)[0],
                           lambda: self.initialize_with_closed((0, 2), TOKEN=path),
                           lambda: self.initialize_with_closed((1,), TOKEN=path)]:
            self.checks.equal(initialize(), 0, "C_Initialize")
            self.checks.equal(open_files().count(path), 1, "this process's descriptors of the file")
            self.checks.equal(files_of_program().count(path), 0, "the program's")
            file = os.open(path, os.O_RDONLY)
            os.set_inheritable(file, True)
            self.checks.equal(files_of_program().count(path), 1, "the program's, of one left to it")
            os.close(file)
            self.end()

    def test_exec_in_script(self):
        """A program that is executed while a script is read has no descriptor of it."""
        path, codes = self.file("fifo"), []
        os.mkfifo(path)
        thread = threading.Thread(target=lambda: codes.append(self.module.initialize(SCRIPT=path)))
        thread.start()
        # This waits until C_Initialize opens the script.
        with open(path, "wb"):
            self.wait_for(lambda: open_files().count(path) == 2, "descriptors of the script")
            self.checks.equal(files_of_program().count(path), 0, "the program's descriptors of it")
        thread.join()
        self.checks.equal(codes, [0], "C_Initialize")
        self.end()

    def test_signals_in_script(self):
        """Signals that come while a script is opened and read, here by a pipe, don't end it."""
        path, caught, reader = self.file("slow_fifo"), [], threading.get_ident()
        os.mkfifo(path)

        def send_signals():
            for _ in range(20):
                time.sleep(0.01)
                signal.pthread_kill(reader, signal.SIGUSR1)

        def write_script():
            send_signals()
            # Where nobody opens it for reading, this doesn't wait either.
            with open(os.open(path, os.O_RDWR), "wb", buffering=0) as script:
                self.wait_for(lambda: open_files().count(path) == 2, "descriptors of the script")
                send_signals()
                script.write(b"1 InitToken 31323334\n1 Open")
                send_signals()
                script.write(b"Session 6\n")

        before = signal.signal(signal.SIGUSR1, lambda *_: caught.append(True))
        writer = threading.Thread(target=write_script)
        writer.start()
        self.begin(SCRIPT=path)
        writer.join()
        signal.signal(signal.SIGUSR1, before)
        self.checks.check(len(caught) > 0, "there were signals")
        self.checks.equal(self.module.say("1 OpenSession 6"), "0 2", "a call after the script's")
        self.end()

    def wait_for(self, condition, what):
        for _ in range(6000):
            if condition():
                break
            time.sleep(0.01)
        self.checks.check(condition(), what)

    def test_exit(self):
        """A process ends although one of its threads is in C_Initialize."""
        path = self.file("unread_fifo")
        os.mkfifo(path)
        run = subprocess.run([sys.executable, os.path.abspath(__file__), "exit", self.path],
                             env=support.environment_of({"SCRIPT": path}), capture_output=True,
                             text=True, timeout=SECONDS_OF_EXIT)
        self.checks.equal((run.returncode, run.stderr), (0, ""), "the status and the errors")

    def test_waiting(self):
        """A thread that waits for another one's C_Initialize sleeps."""
        path, said = self.file("waited_fifo"), []
        os.mkfifo(path)
        first = threading.Thread(target=self.module.initialize, kwargs={"SCRIPT": path})
        other = threading.Thread(target=lambda: said.append(self.module.say("1 GetTokenInfo")))
        first.start()
        with open(path, "wb"):
            self.wait_for(lambda: open_files().count(path) == 2, "descriptors of the script")
            other.start()
            before = time.process_time()
            time.sleep(0.5)
            taken = time.process_time() - before
        first.join()
        other.join()
        self.checks.equal(said, ["0 4 64 0 0"], "its call")
        self.checks.check(taken < 0.1, f"what it takes meanwhile: {taken}")
        self.end()

    def begin_as_child(self):
        """A child of a fork: what it sees without initialization, and with it. The alarm ends it
        where it waits."""
        signal.alarm(SECONDS_OF_CHILD)
        seen = [self.module.say("1 GetTokenInfo"), str(self.module.initialize()),
                self.module.say("1 GetTokenInfo"), str(self.module.finalize())]
        signal.alarm(0)
        return seen

    def test_fork_in_initialize(self):
        """A child of a fork in the middle of another thread's C_Initialize begins anew."""
        path = self.file("forked_fifo")
        os.mkfifo(path)
        thread = threading.Thread(target=self.module.initialize, kwargs={"SCRIPT": path})
        thread.start()
        with open(path, "wb"):
            self.wait_for(lambda: open_files().count(path) == 2, "descriptors of the script")
            with self.child_of_fork(self.begin_as_child) as seen:
                self.checks.equal(seen, [f"{NOT_INITIALIZED:x}", "0", "0 4 64 0 0", "0"],
                                  "what the child saw")
        thread.join()
        self.checks.equal(self.module.say("1 GetTokenInfo"), "0 4 64 0 0", "a call of the parent")
        self.end()

    def test_unload(self):
        """A library that is unloaded without C_Finalize leaves no lock on its file."""
        path = self.file("unloaded.cases")
        run = subprocess.run([sys.executable, os.path.abspath(__file__), "unload", self.path],
                             env=support.environment_of({"TOKEN": path}), capture_output=True,
                             text=True, timeout=support.SECONDS)
        self.checks.equal(run.stdout, f"0 0 0 1\n{NOT_INITIALIZED} 0 0 2 0\n", "the replies")
        self.checks.equal(run.stderr, "", "the errors")
        support.audit(self.checks, self.ck_cases, path)

    def test_unload_with_functions(self):
        """Under the application's lock an unloaded library leaves no lock on its file, either."""
        path = self.file("unloaded_with_functions.cases")
        run = subprocess.run(
            [sys.executable, os.path.abspath(__file__), "unload_with_functions", self.path],
            env=support.environment_of({"TOKEN": path}), capture_output=True, text=True,
            timeout=support.SECONDS)
        self.checks.equal(run.stdout, "0 0\n0 0\n", "the replies")
        self.checks.equal(run.stderr, "", "the errors")
        support.audit(self.checks, self.ck_cases, path)

    def program_for_all(self):
        """The program of rights.c, in a folder with the module that all users can read."""
        os.chmod(self.folder, 0o755)
        program, module = self.file("rights"), self.file("module.so")
        subprocess.run([os.environ.get("CC", "gcc"), "-std=c11", "-D_GNU_SOURCE", "-Wall",
                        "-Wextra", "-Werror", "-o", program,
                        os.path.join(support.TESTS, "rights.c")], check=True,
                       timeout=support.SECONDS)
        shutil.copy(self.path, module)
        for file in [program, module]:
            os.chmod(file, 0o755)
        return program

    def give_rights(self, program):
        """Whoever runs the program has its owner's rights from now on."""
        try:
            os.chown(program, OWNER, OWNER)
            os.chmod(program, 0o4755)
            made = self.run_as_other_user(program)
        except OSError as reason:
            raise LeftOut(f"only root can try this, and can't everywhere: {reason}") from reason
        if made.startswith("0 "):
            raise LeftOut("no program gets rights of another user here")

    def run_as_other_user(self, program, **variables):
        """Whether the program has rights that its user doesn't have, and what C_Initialize
        answers."""
        run = subprocess.run([program, self.file("module.so")],
                             env=support.environment_of(variables), user=OTHER_USER,
                             group=OTHER_USER, extra_groups=[], capture_output=True, text=True,
                             timeout=support.SECONDS)
        return run.stdout.rstrip("\n") or run.stderr

    def test_rights(self):
        """A program with rights that its user doesn't have passes over the variables. A file for it
        would be made with these rights, wherever the user wants."""
        program, place = self.program_for_all(), self.file("place")
        os.mkdir(place)
        os.chmod(place, 0o777)
        self.give_rights(program)
        all_variables = [{"JOURNAL": os.path.join(place, "%p.cases")},
                         {"TOKEN": os.path.join(place, "token.cases")}, {"SEED": "none"},
                         {"SCRIPT": os.path.join(place, "none")}, {"CUT": "none"}, {"OTHER": 1}]
        for variables in all_variables:
            self.checks.equal(self.run_as_other_user(program, **variables), "1 0",
                              f"with {variables}")
        self.checks.equal(os.listdir(place), [], "the files that were made")
        os.chmod(program, 0o755)
        codes = [self.run_as_other_user(program, **variables) for variables in all_variables]
        self.checks.equal(codes, ["0 0"] * 2 + [f"0 {GENERAL_ERROR}"] * 4,
                          "the same without these rights")
        self.checks.equal(len(os.listdir(place)), 2, "the files that were made without them")

    def kill_once(self, path, draw):
        """A process that is killed in the middle of calls. Answers how many were answered."""
        before = read(path) if os.path.exists(path) else b""
        # The module drops a last line without an end, as a process that is killed may leave it.
        before = before[:before.rfind(b"\n") + 1]
        worker = Worker(self.path, TOKEN=path)
        if not before:
            worker.say("1 InitToken 31323334")
        session = worker.say("1 OpenSession 6")[2:]
        calls = [f"1 CreateObject {session} 0=0000000000000000,1=01,2=00,3={count:08x}"
                 for count in range(400)]
        worker.process.stdin.write("\n".join(calls) + "\n")
        worker.process.stdin.flush()
        replies = [worker.read() for _ in range(draw.randrange(1, 200))]
        replies += worker.kill()
        content = read(path).decode()
        answered = [f"{call} -> {reply}" for call, reply in zip(calls, replies)]
        lines = [line for line in content[len(before):].split("\n")[:-1] if "CreateObject" in line]
        self.checks.check(content.startswith(before.decode()), "the calls before stand in the file")
        self.checks.equal(lines[:len(answered)], answered, "the answered calls")
        return len(lines)

    def test_kills(self):
        """What was answered before a process is killed stands in the file."""
        path = self.file("killed.cases")
        draw = random.Random(1)
        total = sum(self.kill_once(path, draw) for _ in range(6))
        worker = Worker(self.path, TOKEN=path)
        session = worker.say("1 OpenSession 4")[2:]
        worker.say(f"1 FindObjectsInit {session} -")
        found = worker.say(f"1 FindObjects {session} 4000")
        self.checks.equal(found.count(",") + 1, total, "the objects of the killed processes")
        worker.end()
        support.audit(self.checks, self.ck_cases, path)

    def test_full(self):
        """A device that is full from the beginning: a clear line."""
        for variable in ["JOURNAL", "TOKEN"]:
            code, errors = self.initialize(**{variable: "/dev/full"})
            self.checks.equal(code, GENERAL_ERROR, f"C_Initialize with {variable}=/dev/full")
            self.checks.equal(errors, f"ospreyrack: OSPREYRACK_{variable}: /dev/full: this is no "
                              "regular file\n", "the errors")
        worker = Worker(self.path, limit=100, JOURNAL=self.file("small.cases"))
        self.checks.equal(worker.code, f"{GENERAL_ERROR:x}", "C_Initialize with room for 100 bytes")
        self.checks.check("OSPREYRACK_JOURNAL" in worker.end(), "no room for the file's header")
        self.checks.equal(read(self.file("small.cases")), b"", "the file is left empty")

    def fill(self, limit, comment=""):
        """Fills a file that can't be longer with calls, to which somebody else adds a comment.
        Gives what it then has."""
        path = self.file(f"filled-{limit}.cases")
        worker = Worker(self.path, limit=limit, TOKEN=path)
        replies = []
        while DEVICE_ERROR not in replies and len(replies) < 300:
            replies.append(worker.say("1 GetTokenInfo"))
            if len(replies) == 5:
                with open(path, "a", encoding="ascii") as file:
                    file.write(comment)
        self.checks.check(10 < len(replies) < 300, "the file becomes full")
        for line in ["1 InitToken 31323334", "1 OpenSession 6", "1 GetSessionInfo 1",
                     "1 CloseAllSessions", "1 DigestInit 1 250", "1 SessionCancel 1 400",
                     "1 GetAttributeValue 1 1 3:9", "1 SetKeyState 1 1 1"]:
            self.checks.equal(worker.say(line), DEVICE_ERROR, f"a later call: {line}")
        errors = worker.end()
        self.checks.equal(worker.last, "0", "C_Finalize")
        content = read(path).decode()
        self.checks.equal(errors, "ospreyrack: OSPREYRACK_TOKEN: a call can't be written: File too "
                          "large\n", "the errors")
        self.checks.equal(content.count("1 GetTokenInfo -> 0 4 64 0 0\n"), len(replies) - 1,
                          "the answered calls in the file")
        self.checks.check(content.endswith("0\n") and len(content) <= limit, "whole lines")
        self.begin(TOKEN=path)
        self.end()
        return content

    def test_filling(self):
        """A device that becomes full: CKR_DEVICE_ERROR, and the file has whole lines. Where they
        fill it to the last byte, the next write raises a signal."""
        for limit in range(2000, 2040, 3):
            content = self.fill(limit)
        self.checks.equal(len(self.fill(len(content))), len(content), "a file that is quite full")
        for limit in range(2100, 2140, 3):
            content = self.fill(limit, "# a comment of somebody else\n")
            self.checks.check("\n# a comment of somebody else\n1 " in content, "the comment stays")

    def test_filling_in_update(self):
        """A device that becomes full in an update: the file ends with the piece before. The end of
        the operation doesn't stand in it, since nothing is answered any more."""
        path = self.file("pieces.cases")
        piece = "61" * LONGEST_PIECE
        worker = Worker(self.path, limit=len(piece) + 1500, TOKEN=path)
        calls = ["1 InitToken 31323334", "1 OpenSession 6", "1 DigestInit 1 250"]
        replies = [worker.say(line) for line in calls]
        self.checks.equal(replies, ["0", "0 1", "0"], "the start of the digest")
        for line in [f"1 DigestUpdate 1 {piece}" + "62" * 2000, "1 DigestUpdate 1 63",
                     "1 DigestFinal 1 32", "1 GetTokenInfo"]:
            self.checks.equal(worker.say(line), DEVICE_ERROR, line[:40])
        errors = worker.end()
        self.checks.equal(worker.last, "0", "C_Finalize")
        self.checks.check(errors.startswith("ospreyrack: OSPREYRACK_TOKEN: ")
                          and errors.count("\n") == 1, errors)
        self.check_calls(path, [*calls, f"1 DigestUpdate 1 {piece}"], [*replies, "0"])

    def find_with_limit(self, name, limit=None):
        """A search of 1,500 objects in a process whose file can't be longer: the number of handles
        that C_FindObjects gives, the reply to the next one, and the file."""
        path = self.file(name)
        worker = Worker(self.path, limit=limit, TOKEN=path)
        for line in LOG_IN + ["1 CreateObject 1 0=0000000000000000,2=00"] * 1500:
            worker.say(line)
        worker.say("1 FindObjectsInit 1 -")
        found = worker.say("1 FindObjects 1 1500")
        later = worker.say("1 FindObjects 1 9")
        worker.end()
        return found.count(",") + 1, later, read(path).decode()

    def test_filling_in_search(self):
        """A device that becomes full in a search: the handles that were found before are given."""
        found, later, whole = self.find_with_limit("searched.cases")
        self.checks.equal((found, later), (1500, "0 -"), "a search with room for all")
        second = whole.index("1 FindObjects 1 500 -> ")
        for limit in [second, second + 30]:
            found, later, content = self.find_with_limit(f"searched-{limit}.cases", limit)
            self.checks.equal((found, later), (1000, DEVICE_ERROR), "the first handles")
            self.checks.equal(content, whole[:second], "the file ends with the first piece")

    def test_pieces_of_search(self):
        """A search for as many handles as are in whole pieces makes no call more."""
        path = self.file("pieces_of_search.cases")
        self.begin(JOURNAL=path)
        self.say_all(LOG_IN[:2] + ["1 CreateObject 1 0=0000000000000000,2=00"] * 3500)
        self.checks.equal(self.module.say("1 FindObjectsInit 1 -"), "0", "the start of the search")
        for count in (2000, 1000):
            found = self.module.say(f"1 FindObjects 1 {count}")
            self.checks.equal(found.count(",") + 1, count, "the handles that are found")
        self.end()
        calls = [line.partition(" -> ")[0] for line in read(path).decode().split("\n")]
        self.checks.equal([call for call in calls if call.startswith("1 FindObjects ")],
                          ["1 FindObjects 1 1000"] * 3, "the calls in the file")
        support.audit(self.checks, self.ck_cases, path)

    def test_time_of_lines(self):
        """The longest lines of a file are read in little time."""
        path = self.file("long_lines.cases")
        comment = b"#" * LONGEST_LINE + b"\n"
        write(path, b"limits largest\n" + comment * LONG_LINES)
        before = time.process_time()
        self.begin(TOKEN=path)
        taken = time.process_time() - before
        self.end()
        self.checks.check(taken < SECONDS_OF_LINES, f"{LONG_LINES} long lines took {taken} s")

    def draw(self, count):
        """Random bytes in session 1."""
        out = (support.c_ubyte * count)()
        code = self.module.call("GenerateRandom", support.c_ulong(1), out, support.c_ulong(count))
        self.checks.equal(code, 0, "C_GenerateRandom")
        return bytes(out)

    def random_of_start(self, count=40, **variables):
        """The first random bytes behind a C_Initialize with these variables."""
        self.begin(**variables)
        self.say_all(LOG_IN[:2])
        made = self.draw(count)
        self.end()
        return made

    def seeded_run(self, seed):
        code, errors = self.initialize(SEED=seed)
        self.checks.equal(code, 0, "C_Initialize with a seed")
        self.checks.equal(errors, "ospreyrack: OSPREYRACK_SEED: keys and random bytes follow from "
                          "this number: for tests only\n", "a seed is warned of")
        self.say_all(LOG_IN)
        values = []
        for count in range(3):
            made = self.module.say("1 GenerateKey 1 350 161=2000000000000000,2=00")
            values.append(self.module.say(f"1 GetAttributeValue 1 {made[2:]} 11:64"))
        out = (support.c_ubyte * 16)()
        self.module.call("GenerateRandom", support.c_ulong(1), out, support.c_ulong(16))
        self.end()
        self.checks.equal(len(set(values)), 3, "different keys in one run")
        self.checks.check(all(len(value) == 3 + 64 for value in values), f"keys: {values}")
        return values + [bytes(out)]

    def test_seed(self):
        """Equal seeds make equal keys and random bytes, and others make others."""
        first, second, other = (self.seeded_run(seed) for seed in [7, 7, 8])
        largest, zero = self.seeded_run(2**64 - 1), self.seeded_run(0)
        self.checks.equal(first, second, "two runs of one seed")
        self.checks.check(not set(first) & set(other), "another seed makes others")
        self.checks.check(not set(first) & set(largest), "the largest seed makes others")
        self.checks.check(not set(first) & set(zero), "the seed 0 makes others")

    def test_nobody_reads_errors(self):
        """A line on standard error that nobody reads ends no process."""
        worker = Worker(self.path, has_errors=False, SEED=7)
        self.checks.equal(worker.code, "0", "C_Initialize with a seed")
        self.checks.equal(worker.say("1 InitToken 31323334"), "0", "a call")
        worker.end()
        self.checks.equal((worker.last, worker.process.returncode), ("0", 0), "C_Finalize")

    def test_signals_in_errors(self):
        """A signal that comes while a line of standard error waits for its reader loses nothing."""
        out, written = os.pipe()
        size, caught, writer = fcntl.fcntl(written, fcntl.F_GETPIPE_SZ), [], threading.get_ident()
        os.write(written, bytes(size))

        def read_later():
            for _ in range(20):
                time.sleep(0.01)
                signal.pthread_kill(writer, signal.SIGUSR1)
            with open(out, "rb") as file:
                caught.append(file.read())

        before = signal.signal(signal.SIGUSR1, lambda *_: None)
        reader = threading.Thread(target=read_later)
        kept = os.dup(2)
        os.dup2(written, 2)
        os.close(written)
        reader.start()
        code = self.module.initialize(SEED="x")
        os.dup2(kept, 2)
        os.close(kept)
        reader.join()
        signal.signal(signal.SIGUSR1, before)
        self.checks.equal(code, GENERAL_ERROR, "C_Initialize with a bad seed")
        self.checks.equal(caught[0][size:], b"ospreyrack: OSPREYRACK_SEED: the value is a decimal "
                          b"number below 2^64, and not x\n", "the errors")

    def seeded_key(self, count):
        """The reply that has the value of a generated key of this many bytes, of seed 7."""
        length = count.to_bytes(8, "little").hex()
        self.begin(SEED=7)
        self.say_all(LOG_IN)
        key = self.module.say(f"1 GenerateKey 1 350 161={length},162=01,103=00")
        value = self.module.say(f"1 GetAttributeValue 1 {key[2:]} 11:4096")
        self.end()
        return value

    def test_seeded_bytes(self):
        """The bytes of a seed never change, and its number is decimal."""
        seven, ten, eleven = (self.random_of_start(SEED=seed) for seed in ["7", "010", "0000011"])
        self.checks.equal(seven.hex(), RANDOM_OF_SEVEN, "the random bytes of seed 7")
        self.checks.equal(self.random_of_start(13, SEED=7), seven[:13], "the first 13 of them")
        self.checks.equal(self.random_of_start(SEED=2**64 - 1).hex(), RANDOM_OF_LARGEST,
                          "the random bytes of the largest seed")
        self.checks.check(self.random_of_start(SEED=2**32 + 7) != seven,
                          "a seed whose lower 32 bits are 7 makes others")
        self.checks.equal(ten, self.random_of_start(SEED=10), "the random bytes of seed 010")
        self.checks.equal(eleven, self.random_of_start(SEED=11), "the random bytes of seed 0000011")
        self.checks.equal(self.random_of_start(SEED=0), self.random_of_start(SEED=0), "those of 0")
        self.checks.equal(len({seven, ten, eleven}), 3, "different random bytes")
        self.begin(SEED=7)
        self.say_all(LOG_IN)
        key = self.module.say("1 GenerateKey 1 350 161=0b00000000000000,162=01,103=00")
        value = self.module.say(f"1 GetAttributeValue 1 {key[2:]} 11:64")
        self.checks.equal(value, f"0 ={seven[:11].hex()}", "the key's value")
        drawn = [self.draw(3)]
        # One that is refused takes its bytes, too: its class is that of data.
        refused = self.module.say("1 GenerateKey 1 350 161=0500000000000000,0=0000000000000000")
        self.checks.equal(refused, TEMPLATE_INCONSISTENT, "C_GenerateKey of another class")
        drawn.append(self.draw(8))
        # One of a length that is too large takes those of the longest key.
        refused = self.module.say("1 GenerateKey 1 350 161=8813000000000000")
        self.checks.equal(refused, KEY_SIZE_RANGE, "C_GenerateKey of 5,000 bytes")
        drawn.append(self.draw(8))
        self.end()
        # Each draw begins with a new number of eight bytes.
        later = self.random_of_start(40 + 4096 + 8, SEED=7)[-8:]
        self.checks.equal(drawn, [seven[16:19], seven[32:40], later], "what is drawn later")
        longest = self.random_of_start(4096, SEED=7).hex()
        for count in (4095, 4096):
            self.checks.equal(self.seeded_key(count), f"0 ={longest[:2 * count]}",
                              f"a key of {count} bytes")

    def run_memory(self, kind, cut):
        """By how many bytes the memory of a worker grows, and its last reply."""
        run = subprocess.run([sys.executable, os.path.abspath(__file__), kind, self.path],
                             env=support.environment_of({"CUT": cut}), capture_output=True,
                             text=True, timeout=support.SECONDS)
        grown, reply = run.stdout.split()
        return int(grown), reply

    def check_memory(self, kind, cut, last, is_right):
        """Memory grows as it must. The system takes pages from a process, and gives them back, when
        it likes, so this is tried a few times."""
        replies = set()
        for _ in range(TRIES_OF_MEMORY):
            grown, reply = self.run_memory(kind, cut)
            replies.add(reply)
            if is_right(grown):
                break
        self.checks.equal(replies, {last}, "the last replies")
        self.checks.check(is_right(grown), f"with {cut}, {kind} grows by {grown} bytes")

    def test_memory(self):
        """OSPREYRACK_CUT=yes keeps memory flat over 200,000 calls, and =no doesn't."""
        for kind, last in [("memory", "0"), ("polling", "0"), ("asking", "b3"),
                           ("starting", "b3"), ("staying", "0")]:
            self.check_memory(kind, "yes", last, lambda grown: grown < 1 << 20)
            self.check_memory(kind, "no", last, lambda grown: grown > 4 << 20)

    def test_long_template(self):
        """What a long template took is given back with the journal that has it."""
        self.begin()
        value = "00" * (4 << 20)
        before = memory_in_use()
        self.checks.equal(self.module.say(f"1 FindObjectsInit 1 3={value}"), "b3", "the call")
        held = memory_in_use() - before
        self.checks.check(held > 4 << 20, f"the journal has the template: {held} bytes")
        self.say_all(["1 GetTokenInfo"] * 2000)
        held = memory_in_use() - before
        self.checks.check(held < 1 << 20, f"{held} bytes are held")
        self.end()

    def test_long_message(self):
        """A message takes as much memory as it has bytes, and not twice as much."""
        self.begin()
        self.say_all(["1 InitToken 31323334", "1 OpenSession 6", "1 DigestInit 1 250"])
        update = "1 DigestUpdate 1 " + "00" * (1 << 20)
        before = memory_in_use()
        self.checks.equal(self.say_all([update] * 4), ["0"] * 4, "the calls")
        held = memory_in_use() - before
        self.checks.check(4 << 20 <= held < 5 << 20, f"the journal has four messages: {held} bytes")
        self.end()

    def test_cut(self):
        """No reply differs by OSPREYRACK_CUT."""
        lines = list(LOG_IN)
        for count in range(1, 800):
            lines += [f"1 CloseSession {count}", f"1 OpenSession {4 + 2 * (count % 2)}",
                      f"1 GetSessionInfo {count}", "1 GetTokenInfo",
                      f"1 CreateObject {count + 1} 0=0000000000000000,1=01,2=00",
                      f"1 Login {count + 1} 1 7573657{count % 3}"]
        replies, held = [], []
        for variables in [{}, {"CUT": "yes"}, {"CUT": "no"},
                      {"CUT": "yes", "JOURNAL": self.file("cut_yes.cases")},
                      {"CUT": "no", "JOURNAL": self.file("cut_no.cases")}]:
            self.begin(**variables)
            replies.append(self.say_all(lines))
            before = memory_in_use()
            self.end()
            held.append(before - memory_in_use())
        for made in replies[1:]:
            self.checks.equal(made, replies[0], "the replies")
        self.checks.check(max(held[0], held[1]) < held[2] / 2, f"the journal is cut: {held}")
        self.checks.equal(read(self.file("cut_yes.cases")), read(self.file("cut_no.cases")),
                          "the files")
        support.audit(self.checks, self.ck_cases, self.file("cut_yes.cases"))
        self.begin(TOKEN=self.file("cut_yes.cases"))
        before = memory_in_use()
        self.end()
        held.append(before - memory_in_use())
        self.checks.check(held[-1] < held[2] / 2, f"it is cut while a file is answered: {held}")


TESTS = [Tests.test_file, Tests.test_counted_journals, Tests.test_mode, Tests.test_going_on,
         Tests.test_new_label, Tests.test_no_label, Tests.test_script,
         Tests.test_script_and_journal, Tests.test_only_reply, Tests.test_calls_beside,
         Tests.test_callers, Tests.test_callers_of_child, Tests.test_bad_pointers,
         Tests.test_without_token, Tests.test_quiet,
         Tests.test_cut_short, Tests.test_longest_line, Tests.test_parted_arrow,
         Tests.test_line_without_end, Tests.test_absent_script, Tests.test_failed_start,
         Tests.test_bad_variable_and_file,
         Tests.test_cut_off, Tests.test_beginning, Tests.test_changed, Tests.test_lacking_reply,
         Tests.test_two_processes, Tests.test_second_run, Tests.test_fork,
         Tests.test_fork_that_stays, Tests.test_unseen_child, Tests.test_closed_file,
         Tests.test_lost_file, Tests.test_nameless_file, Tests.test_named_pipe,
         Tests.test_standard_input, Tests.test_terminal, Tests.test_exec,
         Tests.test_exec_in_script, Tests.test_signals_in_script, Tests.test_exit,
         Tests.test_waiting, Tests.test_fork_in_initialize, Tests.test_unload,
         Tests.test_unload_with_functions, Tests.test_rights, Tests.test_kills, Tests.test_full,
         Tests.test_filling, Tests.test_filling_in_update, Tests.test_filling_in_search,
         Tests.test_pieces_of_search, Tests.test_time_of_lines, Tests.test_seed,
         Tests.test_nobody_reads_errors, Tests.test_signals_in_errors, Tests.test_seeded_bytes,
         Tests.test_long_template, Tests.test_long_message, Tests.test_cut, Tests.test_memory]


def run_test(checks, test):
    # A test's first sentence is its name.
    name = " ".join(test.__doc__.split()).split(". ")[0].rstrip(".")
    try:
        with tempfile.TemporaryDirectory() as folder:
            test(Tests(checks, sys.argv[1], sys.argv[2], folder))
    except LeftOut as reason:
        return checks.leave_out(name, reason)
    except (OSError, ValueError, subprocess.SubprocessError) as fault:
        checks.check(False, repr(fault))
    checks.end(name)


def main():
    if sys.argv[1] in WORKERS:
        return WORKERS[sys.argv[1]](*sys.argv[2:])
    checks = support.Checks("journal")
    for test in TESTS:
        run_test(checks, test)
    return checks.status()


if __name__ == "__main__":
    sys.exit(main())
