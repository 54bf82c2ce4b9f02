"""What the tests in Python share: the module by ctypes, calls as lines of the script language, and
checks that are counted.

A call is a list of words, as in docs/script.md: ["1", "OpenSession", "6"]. `Module.answer` makes it
through the C interface, and gives the text of the reply.
"""
import ctypes
import os
import re
import subprocess
import sys
from ctypes import POINTER, byref, c_char_p, c_ubyte, c_ulong, c_void_p

TESTS = os.path.dirname(os.path.abspath(__file__))
ROOT = os.path.dirname(os.path.dirname(TESTS))
DATA = os.path.join(ROOT, "crates", "ck_cases", "data")

# The most seconds that a program may take: far more than it does on a slow machine that does much
# else. They tell only of one that hangs.
SECONDS = 300

# ---- Checks


class Checks:
    """The checks of one test program. Each line of its output is one test."""

    def __init__(self, name):
        self.name = name
        self.good = self.bad = self.failed_tests = 0

    def check(self, is_good, what):
        if is_good:
            self.good += 1
            return
        self.bad += 1
        print(f"  failed: {what}", file=sys.stderr)

    def equal(self, made, expected, what):
        self.check(made == expected, f"{what}: {made!r:.300}, and not {expected!r:.300}")

    def end(self, what):
        """Ends a test, and writes its line. A test without a check fails."""
        is_good = self.bad == 0 and self.good > 0
        self.failed_tests += not is_good
        word = "passed" if is_good else "FAILED"
        print(f"{word} {self.name}: {what} ({self.good} of {self.good + self.bad} checks)",
              flush=True)
        self.good = self.bad = 0

    def leave_out(self, what, why):
        print(f"left out {self.name}: {what}: {why}", flush=True)

    def status(self):
        return self.failed_tests > 0


def audit(checks, program, path):
    """Plays a journal by ck_cases, which also audits it."""
    played = subprocess.run([program, path], capture_output=True, text=True, timeout=SECONDS)
    checks.check(played.returncode == 0,
                 f"{path} by ck_cases: {played.stdout[-300:]}{played.stderr[-300:]}")


def environment_of(variables):
    """The environment with these variables for the module, and with no others for it:
    environment_of({"SEED": 1})."""
    environment = {variable: value for variable, value in os.environ.items()
                   if not variable.startswith("OSPREYRACK_")}
    environment.update({f"OSPREYRACK_{variable}": str(value)
                        for variable, value in variables.items()})
    return environment


# ---- The types of the standard

UNAVAILABLE = 2**64 - 1
BUFFER_TOO_SMALL = 0x150
RNG = 1
LABEL = b"a token for tests".ljust(32)

# No function gives more bytes in one answer than this, and none as many handles.
MOST_BYTES = 1 << 17
MOST_HANDLES = 5000


class Attribute(ctypes.Structure):
    _fields_ = [("type", c_ulong), ("value", c_void_p), ("length", c_ulong)]


class Mechanism(ctypes.Structure):
    _fields_ = [("type", c_ulong), ("parameter", c_void_p), ("length", c_ulong)]


class Version(ctypes.Structure):
    _fields_ = [("major", c_ubyte), ("minor", c_ubyte)]


class SessionInfo(ctypes.Structure):
    _fields_ = [("slot", c_ulong), ("state", c_ulong), ("flags", c_ulong), ("error", c_ulong)]


class TokenInfo(ctypes.Structure):
    _fields_ = [("label", c_ubyte * 32), ("manufacturer", c_ubyte * 32), ("model", c_ubyte * 16),
                ("serial", c_ubyte * 16), ("flags", c_ulong), ("most_sessions", c_ulong),
                ("sessions", c_ulong), ("most_rw_sessions", c_ulong), ("rw_sessions", c_ulong),
                ("longest_pin", c_ulong), ("shortest_pin", c_ulong), ("memory", c_ulong * 4),
                ("hardware", Version), ("firmware", Version), ("time", c_ubyte * 16)]


class Interface(ctypes.Structure):
    _fields_ = [("name", c_char_p), ("functions", c_void_p), ("flags", c_ulong)]


class VendorFunctions(ctypes.Structure):
    _fields_ = [("version", Version),
                ("set_key_state", ctypes.CFUNCTYPE(c_ulong, c_ulong, c_ulong, c_ulong))]


# ---- Arguments of lines

def number(text):
    return c_ulong(int(text))


def code_number(text):
    return c_ulong(int(text, 16))


def bytes_of(text):
    return b"" if text == "-" else bytes.fromhex(text)


def hexadecimal(value):
    return value.hex() or "-"


def in_buffer(value):
    """Bytes as a pointer; no bytes are NULL."""
    return (c_ubyte * len(value)).from_buffer_copy(value) if value else None


def bytes_arguments(text):
    value = bytes_of(text)
    return in_buffer(value), c_ulong(len(value))


def pin_arguments(text):
    """The same, but an empty PIN isn't a NULL one, which the module refuses."""
    value = bytes_of(text)
    return in_buffer(value or bytes(1)), c_ulong(len(value))


def items_of(text):
    """The items of a template, or queries: pairs of texts."""
    return [] if text == "-" else [re.split("[=:]", item) for item in text.split(",")]


def address(buffer):
    return None if buffer is None else ctypes.cast(buffer, c_void_p)


def template_arguments(text):
    attributes = []
    for kind, value in items_of(text):
        value = bytes_of(value)
        attributes.append(Attribute(int(kind, 16), address(in_buffer(value)), len(value)))
    return array_of(Attribute, attributes), c_ulong(len(attributes))


def array_of(kind, elements):
    array = (kind * len(elements))(*elements)
    array.kept = elements
    return array if elements else None


def mechanism_argument(text):
    kind, _, parameter = text.partition(":")
    value = bytes_of(parameter or "-")
    return byref(Mechanism(int(kind, 16), address(in_buffer(value)), len(value)))


def room_of(text):
    """The output buffer for a room, and the length that the application gives."""
    if text == "?":
        return None, c_ulong(0)
    return (c_ubyte * min(max(int(text), 1), MOST_BYTES))(), c_ulong(int(text))


# How the arguments of a call are given to its function. A room and what is answered aren't here.
ARGUMENTS = {
    "InitPIN": [number, pin_arguments],
    "SetPIN": [number, pin_arguments, pin_arguments],
    "CloseSession": [number],
    "Login": [number, number, pin_arguments],
    "Logout": [number],
    "GetSessionInfo": [number],
    "SessionCancel": [number, code_number],
    "CreateObject": [number, template_arguments],
    "GenerateKey": [number, mechanism_argument, template_arguments],
    "CopyObject": [number, number, template_arguments],
    "SetAttributeValue": [number, number, template_arguments],
    "SetKeyState": [number, number, number],
    "DestroyObject": [number, number],
    "FindObjectsInit": [number, template_arguments],
    "FindObjectsFinal": [number],
    "DigestInit": [number, mechanism_argument],
    "DigestUpdate": [number, bytes_arguments],
    "SignInit": [number, mechanism_argument, number],
    "SignUpdate": [number, bytes_arguments],
    "VerifyInit": [number, mechanism_argument, number],
    "Verify": [number, bytes_arguments, bytes_arguments],
    "VerifyUpdate": [number, bytes_arguments],
    "VerifyFinal": [number, bytes_arguments],
    "Digest": [number, bytes_arguments],
    "DigestFinal": [number],
    "Sign": [number, bytes_arguments],
    "SignFinal": [number],
}

GIVE_HANDLES = ["CreateObject", "GenerateKey", "CopyObject"]
GIVE_BYTES = ["Digest", "DigestFinal", "Sign", "SignFinal"]


def arguments_of(name, words):
    arguments = []
    for form, word in zip(ARGUMENTS[name], words):
        argument = form(word)
        arguments += argument if isinstance(argument, tuple) else [argument]
    return arguments


# ---- The module


class Module:
    def __init__(self, path):
        self.library = ctypes.CDLL(path)
        self.vendor = self.vendor_functions()
        self.methods = {"InitToken": self.init_token, "OpenSession": self.open_session,
                        "CloseAllSessions": self.close_all_sessions,
                        "GetSessionInfo": self.get_session_info,
                        "GetTokenInfo": self.get_token_info,
                        "GetMechanismList": self.get_mechanism_list,
                        "GetAttributeValue": self.get_attribute_value,
                        "FindObjects": self.find_objects, "SetKeyState": self.set_key_state}
        self.label = LABEL

    def vendor_functions(self):
        interface = POINTER(Interface)()
        if self.call("GetInterface", b"Vendor Ospreyrack", None, byref(interface), c_ulong(0)):
            sys.exit("there is no vendor interface")
        return ctypes.cast(interface.contents.functions, POINTER(VendorFunctions)).contents

    def call(self, name, *arguments):
        function = getattr(self.library, "C_" + name)
        function.restype = c_ulong
        return function(*arguments)

    def initialize(self, **variables):
        """C_Initialize with environment variables: initialize(SEED=1)."""
        for variable in ["SCRIPT", "JOURNAL", "TOKEN", "SEED", "CUT"]:
            os.environ.pop("OSPREYRACK_" + variable, None)
        for variable, value in variables.items():
            os.environ["OSPREYRACK_" + variable] = str(value)
        return self.call("Initialize", None)

    def finalize(self):
        return self.call("Finalize", None)

    def answer(self, words):
        """Makes the call of a line, and gives the reply's text."""
        name, words = words[1], words[2:]
        if name in self.methods:
            return self.methods[name](*words)
        if name in GIVE_BYTES:
            return self.give_bytes(name, words)
        arguments = arguments_of(name, words)
        if name not in GIVE_HANDLES:
            return f"{self.call(name, *arguments):x}"
        handle = c_ulong(0)
        code = self.call(name, *arguments, byref(handle))
        return f"0 {handle.value}" if code == 0 else f"{code:x}"

    def say(self, line):
        return self.answer(line.split(" "))

    def init_token(self, pin):
        label = in_buffer(self.label)
        return f"{self.call('InitToken', c_ulong(0), *pin_arguments(pin), label):x}"

    def open_session(self, flags):
        handle = c_ulong(0)
        code = self.call("OpenSession", c_ulong(0), code_number(flags), None, None, byref(handle))
        return f"0 {handle.value}" if code == 0 else f"{code:x}"

    def close_all_sessions(self):
        return f"{self.call('CloseAllSessions', c_ulong(0)):x}"

    def get_session_info(self, session):
        info = SessionInfo()
        code = self.call("GetSessionInfo", number(session), byref(info))
        return f"0 {info.state} {info.flags:x}" if code == 0 else f"{code:x}"

    def token_info(self):
        info = TokenInfo()
        return self.call("GetTokenInfo", c_ulong(0), byref(info)), info

    def get_token_info(self):
        code, info = self.token_info()
        if code != 0:
            return f"{code:x}"
        if not info.flags & RNG:
            return "the flag CKF_RNG isn't set"
        return f"0 {info.flags & ~RNG:x} {info.most_sessions} {info.sessions} {info.rw_sessions}"

    def get_mechanism_list(self):
        types, count = (c_ulong * 64)(), c_ulong(64)
        code = self.call("GetMechanismList", c_ulong(0), types, byref(count))
        return f"{code:x} " + ",".join(f"{kind:x}" for kind in types[:count.value])

    def get_attribute_value(self, session, handle, text):
        attributes = []
        for kind, room in items_of(text):
            buffer, length = room_of(room)
            attributes.append(Attribute(int(kind, 16), address(buffer), length))
        array = array_of(Attribute, attributes)
        code = self.call("GetAttributeValue", number(session), number(handle), array,
                         c_ulong(len(attributes)))
        if code not in [0, 0x11, 0x12, BUFFER_TOO_SMALL]:
            return f"{code:x}"
        return f"{code:x} " + (",".join(map(answer_text, array or [])) or "-")

    def find_objects(self, session, most):
        handles, count = (c_ulong * MOST_HANDLES)(), c_ulong(0)
        code = self.call("FindObjects", number(session), handles, number(most), byref(count))
        if code != 0:
            return f"{code:x}"
        return "0 " + (",".join(map(str, handles[:count.value])) or "-")

    def set_key_state(self, session, key, state):
        return f"{self.vendor.set_key_state(int(session), int(key), int(state)):x}"

    def give_bytes(self, name, words):
        buffer, length = room_of(words[-1])
        code = self.call(name, *arguments_of(name, words[:-1]), buffer, byref(length))
        if code not in [0, BUFFER_TOO_SMALL]:
            return f"{code:x}"
        if buffer is None or code != 0:
            return f"{code:x} :{length.value}"
        return f"0 {hexadecimal(bytes(buffer[:length.value]))}"


def answer_text(attribute):
    """The text of an answer to a query."""
    if attribute.length == UNAVAILABLE:
        return "!"
    if not attribute.value:
        return f":{attribute.length}"
    return "=" + hexadecimal(ctypes.string_at(attribute.value, attribute.length))
