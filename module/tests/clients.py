"""Real clients of PKCS #11 use the module. Each keeps its calls in a file by OSPREYRACK_TOKEN,
which is played by ck_cases afterwards.

    clients.py MODULE CK_CASES                 all clients
    clients.py MODULE CK_CASES record FOLDER   writes the files of three of them to FOLDER
"""
import os
import shutil
import subprocess
import sys
import tempfile
import time

import support

SO_PIN = "12345678"
USER_PIN = "userpin"
MESSAGE = b"what do ya want for nothing?"
SHA256_OF_ABC = "ba7816bf8f01cfea414140de5dae2223b00361a396177a9cb410ff61f20015ad"
NOBODY = 65534


class LeftOut(Exception):
    """A client that isn't there, and why."""


class Failed(Exception):
    """A client that failed, and how."""


class Client:
    """What one client has: a temporary folder, the module, and its file of calls."""

    def __init__(self, checks, module, folder, name):
        self.checks = checks
        self.folder = folder
        self.module = module
        self.journal = self.file(f"{name}.cases")
        self.environment = support.environment_of({"TOKEN": self.journal, "SEED": 1})
        self.environment.update({"HOME": folder, "LC_ALL": "C"})
        self.prepared = 0

    def file(self, name, content=None):
        path = os.path.join(self.folder, name)
        if content is not None:
            with open(path, "wb") as file:
                file.write(content if isinstance(content, bytes) else content.encode())
        return path

    def read(self, name):
        with open(self.file(name), "rb") as file:
            return file.read()

    def needs(self, program, package):
        if shutil.which(program) is None:
            raise LeftOut(f"{program} isn't installed: apt-get install {package}")

    def run(self, *command, contains="", status=0, **options):
        """Runs a command, which must end with this status and write this text. Answers all that it
        wrote."""
        run = subprocess.run(command, env=self.environment, cwd=self.folder, text=True,
                             timeout=support.SECONDS, errors="replace", stdin=subprocess.DEVNULL,
                             stdout=subprocess.PIPE, stderr=subprocess.STDOUT, check=False,
                             **options)
        text = " ".join(command[:1] + command[3:])
        if run.returncode != status:
            raise Failed(f"{text}: status {run.returncode}: {run.stdout[-600:]}")
        self.checks.check(contains in run.stdout, f"{text}: {contains!r} isn't in {run.stdout!r}")
        return run.stdout

    def prepare(self):
        """Initializes the token and the user's PIN, by the client that does both in one command."""
        self.needs("softhsm2-util", "softhsm2")
        self.run("softhsm2-util", "--module", self.module, "--init-token", "--slot", "0",
                 "--label", "tok", "--so-pin", SO_PIN, "--pin", USER_PIN, contains="initialized")
        self.prepared = os.path.getsize(self.journal)

    def calls(self):
        """The names of the calls in the file, without those of `prepare`. What C_Initialize adds by
        itself is no call of the client's."""
        with open(self.journal, "rb") as file:
            lines = file.read()[self.prepared:].decode().split("\n")
        names = [line.split(" ")[1] for line in lines if " -> " in line]
        return [name for name in names if name != "CloseAllSessions"]


# ---- The clients


def use_pkcs11_tool(client):
    """pkcs11-tool (PINs, keys, data, HMACs, digests, random bytes)"""
    client.needs("pkcs11-tool", "opensc")
    tool = ["pkcs11-tool", "--module", client.module]
    user = tool + ["--login", "--pin", USER_PIN]
    client.file("message", MESSAGE)
    client.run(*tool, "--init-token", "--slot", "0", "--label", "tok", "--so-pin", SO_PIN,
               contains="successfully initialized")
    client.run(*tool, "--login", "--login-type", "so", "--so-pin", SO_PIN, "--init-pin",
               "--new-pin", USER_PIN, contains="successfully initialized")
    client.run(*tool, "--list-slots", contains="token label        : tok")
    client.run(*tool, "--list-mechanisms", contains="SHA256-HMAC, keySize={1,4096}, sign, verify")
    client.run(*user, "--keygen", "--key-type", "GENERIC:32", "--label", "key", "--id", "01",
               "--extractable", contains="Key generated")
    client.run(*user, "--keygen", "--key-type", "GENERIC:48", "--label", "other", "--id", "02",
               "--sensitive", contains="Key generated")
    client.run(*user, "--write-object", "message", "--type", "data", "--label", "text",
               "--application-label", "tests", contains="Created Data Object")
    listed = client.run(*user, "--list-objects", contains="label:      other")
    client.checks.check("'text'" in listed and "Generic secret length 32" in listed, listed)
    sign_by_tool(client, user)
    client.run(*tool, "--hash", "--mechanism", "SHA256", "--input-file",
               client.file("abc", "abc"), "--output-file", "digest")
    client.checks.equal(client.read("digest").hex(), SHA256_OF_ABC, "the digest")
    client.run(*tool, "--generate-random", "16", "--output-file", "random")
    client.checks.equal(len(client.read("random")), 16, "random bytes")
    client.run(*user, "--delete-object", "--type", "secrkey", "--id", "02")
    client.run(*user, "--delete-object", "--type", "data", "--label", "text")
    client.run(*user, "--change-pin", "--new-pin", "another pin", contains="successfully changed")
    listed = client.run(*tool, "--login", "--pin", "another pin", "--list-objects",
                        contains="label:      key")
    client.checks.check("other" not in listed and "'text'" not in listed, listed)


def sign_by_tool(client, user):
    for mechanism, length in [("SHA256-HMAC", 32), ("SHA512-HMAC", 64)]:
        hmac = ["--mechanism", mechanism, "--id", "01", "--input-file", "message"]
        client.run(*user, "--sign", *hmac, "--output-file", "signature")
        client.checks.equal(len(client.read("signature")), length, "the signature's length")
        client.run(*user, "--verify", *hmac, "--signature-file", "signature",
                   contains="Signature is valid")


def use_p11tool(client):
    """p11tool (PINs, keys, random bytes)"""
    client.needs("p11tool", "gnutls-bin")
    tool = ["p11tool", "--provider", client.module]
    user = tool + ["--login", "--set-pin", USER_PIN]
    client.prepare()
    client.run(*tool, "--initialize", "--label=tok2", f"--set-so-pin={SO_PIN}", "pkcs11:token=tok",
               contains="successfully initialized")
    client.run(*tool, "--initialize-pin", f"--set-so-pin={SO_PIN}", f"--set-pin={USER_PIN}",
               "pkcs11:token=tok2")
    client.run(*tool, "--list-tokens", contains="Label: tok2")
    client.run(*tool, "--list-mechanisms", "pkcs11:token=tok2", contains="CKM_SHA512_HMAC")
    client.run(*user, "--write", "--secret-key=4a656665", "--label=key", "pkcs11:token=tok2")
    client.run(*user, "--list-all", "pkcs11:token=tok2", contains="Label: key")
    client.run(*tool, "--generate-random=16", "pkcs11:token=tok2")
    client.run(*user, "--delete", "--batch", "pkcs11:token=tok2;object=key",
               contains="1 objects deleted")


def use_pykcs11(client):
    """PyKCS11 (keys, HMACs, digests, searches)"""
    for python in filter(None, [sys.executable, shutil.which("/usr/bin/python3")]):
        if subprocess.run([python, "-c", "import PyKCS11"], capture_output=True,
                          check=False).returncode == 0:
            break
    else:
        raise LeftOut("PyKCS11 isn't installed: apt-get install python3-pykcs11")
    program = os.path.join(support.TESTS, "pykcs11_client.py")
    client.prepare()
    client.run(python, "-B", program, client.module, USER_PIN, contains="passed")


def use_java(client):
    """Java's SunPKCS11 (login, digests, HMACs, random bytes)"""
    client.needs("javac", "default-jdk-headless")
    client.prepare()
    # By default Java creates private keys in sessions of no login.
    configuration = client.file("java.cfg", f"name = Ospreyrack\nlibrary = {client.module}\n"
                                "slotListIndex = 0\n"
                                "attributes(*, CKO_SECRET_KEY, *) = { CKA_PRIVATE = false }\n")
    client.run("javac", "-d", client.folder, os.path.join(support.TESTS, "JavaClient.java"))
    client.run("java", "-XX:TieredStopAtLevel=1", "-cp", client.folder, "JavaClient", configuration,
               USER_PIN, contains="the token SunPKCS11-Ospreyrack has 0 entries")


def use_p11_kit(client):
    """p11-kit list-modules with a module file"""
    options = configure_p11_kit(client)
    client.run("p11-kit", "list-modules", contains="token: tok", **options)


def use_p11_kit_proxy(client):
    """p11-kit's proxy with a module file, and pkcs11-tool as its client"""
    client.needs("pkcs11-tool", "opensc")
    client.file("message", MESSAGE)
    options = configure_p11_kit(client)
    sign_through(client, "libp11-kit.so.0", **options)


def configure_p11_kit(client):
    """Prepares the token, and makes it known to p11-kit by a module file. Answers the options with
    which programs are to be run."""
    client.needs("p11-kit", "p11-kit")
    client.prepare()
    os.makedirs(client.file("pkcs11/modules"))
    module = shutil.copy(client.module, client.file("ospreyrack.so"))
    client.file("pkcs11/pkcs11.conf", "user-config: only\n")
    client.file("pkcs11/modules/ospreyrack.module", f"module: {module}\n")
    client.environment["XDG_CONFIG_HOME"] = client.folder
    if os.getuid() != 0:
        return {}
    # p11-kit doesn't look at a user's configuration where the user is root.
    subprocess.run(["chown", "-R", str(NOBODY), client.folder], check=True)
    return {"user": NOBODY, "group": NOBODY, "extra_groups": []}


def use_p11_kit_server(client):
    """p11-kit server, and pkcs11-tool as its client"""
    client.needs("p11-kit", "p11-kit")
    client.needs("pkcs11-tool", "opensc")
    remote = "/usr/lib/x86_64-linux-gnu/pkcs11/p11-kit-client.so"
    if not os.path.exists(remote):
        raise LeftOut("p11-kit-client.so isn't installed: apt-get install p11-kit-modules")
    client.prepare()
    client.file("message", MESSAGE)
    socket = client.file("socket")
    with subprocess.Popen(["p11-kit", "server", "--foreground", "--provider", client.module,
                           "--name", socket, "pkcs11:token=tok"], env=client.environment,
                          stdout=subprocess.DEVNULL, stderr=subprocess.DEVNULL) as server:
        try:
            wait_for(socket)
            client.environment["P11_KIT_SERVER_ADDRESS"] = f"unix:path={socket}"
            sign_through(client, remote)
        finally:
            server.terminate()


def wait_for(path):
    for _ in range(600):
        if os.path.exists(path):
            return
        time.sleep(0.1)
    raise Failed(f"{path} doesn't come")


def sign_through(client, module, **options):
    """pkcs11-tool makes a key and signs the file `message`, by a module that hands calls on."""
    tool = ["pkcs11-tool", "--module", module, "--token-label", "tok", "--login", "--pin", USER_PIN]
    client.run(*tool, "--keygen", "--key-type", "GENERIC:32", "--label", "key", "--id", "01",
               contains="Key generated", **options)
    hmac = ["--mechanism", "SHA256-HMAC", "--id", "01", "--input-file", "message"]
    client.run(*tool, "--sign", *hmac, "--output-file", "signature", **options)
    client.run(*tool, "--verify", *hmac, "--signature-file", "signature",
               contains="Signature is valid", **options)


def use_nss(client):
    """NSS's modutil and certutil"""
    client.needs("modutil", "libnss3-tools")
    client.needs("certutil", "libnss3-tools")
    client.prepare()
    os.mkdir(client.file("db"))
    database = f"sql:{client.file('db')}"
    pin = client.file("pin", USER_PIN + "\n")
    client.run("modutil", "-dbdir", database, "-create", "-force")
    client.run("modutil", "-dbdir", database, "-add", "ospreyrack", "-libfile", client.module,
               "-force", contains="added to database")
    client.run("modutil", "-dbdir", database, "-list", "ospreyrack", contains="Token Name: tok")
    client.run("certutil", "-L", "-d", database, "-h", "tok", "-f", pin,
               contains="Certificate Nickname")
    client.run("certutil", "-U", "-d", database, contains="tok")


def use_pkcs11_dump(client):
    """pkcs11-dump (slots, the token's objects)"""
    client.needs("pkcs11-dump", "pkcs11-dump")
    client.prepare()
    client.run("pkcs11-dump", "slotlist", client.module, contains="Ospreyrack slot")
    client.run("pkcs11-dump", "dump", client.module, "0", USER_PIN, contains="Token Information")


def use_softhsm2_util(client):
    """softhsm2-util --module (the token, slots)"""
    client.prepare()
    client.run("softhsm2-util", "--module", client.module, "--show-slots",
               contains="Manufacturer ID:  Ospreyrack")


def use_openssl(client):
    """OpenSSL's engine pkcs11 (a login, a search for a private key)"""
    client.needs("openssl", "openssl")
    # Without the engine this ends with status 1, and names the engine in its error.
    engine = subprocess.run(["openssl", "engine", "-t", "pkcs11"], env=client.environment,
                            capture_output=True, timeout=support.SECONDS, check=False)
    if engine.returncode != 0:
        raise LeftOut("the engine isn't installed: apt-get install libengine-pkcs11-openssl")
    client.prepare()
    client.environment["OPENSSL_CONF"] = client.file(
        "openssl.cnf", "openssl_conf = start\n[start]\nengines = engines\n[engines]\n"
        f"pkcs11 = pkcs11\n[pkcs11]\nengine_id = pkcs11\nMODULE_PATH = {client.module}\ninit = 0\n")
    client.run("openssl", "engine", "-t", "pkcs11", contains="available")
    # The engine loads the module where a key is asked for. The token has no private keys.
    client.run("openssl", "pkey", "-engine", "pkcs11", "-inform", "engine", "-in",
               "pkcs11:token=tok;type=private;object=x", "-passin", f"pass:{USER_PIN}", "-noout",
               status=1, contains='Engine "pkcs11" set.')
    client.checks.check("OpenSession" in client.calls(), f"its calls: {client.calls()}")


CLIENTS = {"pkcs11_tool": use_pkcs11_tool, "p11tool": use_p11tool, "pykcs11": use_pykcs11,
           "java": use_java, "p11_kit": use_p11_kit, "p11_kit_proxy": use_p11_kit_proxy,
           "p11_kit_server": use_p11_kit_server, "nss": use_nss, "pkcs11_dump": use_pkcs11_dump,
           "softhsm2_util": use_softhsm2_util, "openssl": use_openssl}
RECORDED = ["pkcs11_tool", "pykcs11", "java"]

# ---- All of them


def run_client(checks, name, module, ck_cases, keep=None):
    """Runs a client, and plays its file. `keep` is where a copy of the file is put."""
    use = CLIENTS[name]
    with tempfile.TemporaryDirectory() as folder:
        client = Client(checks, module, folder, name)
        try:
            use(client)
            checks.check(len(client.calls()) > 0, "the client has made calls")
            support.audit(checks, ck_cases, client.journal)
        except LeftOut as reason:
            checks.leave_out(use.__doc__, reason)
            return
        except (Failed, OSError, subprocess.SubprocessError) as fault:
            checks.check(False, fault)
        if keep is not None and checks.bad == 0:
            keep_recording(client.journal, keep, use.__doc__)
    checks.end(use.__doc__)


def keep_recording(journal, path, what):
    with open(journal, encoding="ascii") as file, open(path, "w", encoding="ascii") as kept:
        kept.write(f"# Recorded from {what}.\n# The PINs and keys are those of the tests.\n#\n")
        kept.write(file.read())


def main():
    module, ck_cases = sys.argv[1:3]
    checks = support.Checks("clients")
    if sys.argv[3:4] == ["record"]:
        for name in RECORDED:
            path = os.path.join(sys.argv[4], f"recorded_{name}.cases")
            run_client(checks, name, module, ck_cases, path)
        return checks.status()
    for name in CLIENTS:
        run_client(checks, name, module, ck_cases)
    return checks.status()


if __name__ == "__main__":
    sys.exit(main())
