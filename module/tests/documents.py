#!/usr/bin/env python3
"""Plays the examples of README.md and docs/: documents.py MODULE CK_CASES.

Commands are run as they stand, with the module's path in place of the one that a reader has; the
lines of a journal that a page shows must stand in the journal that came, in their order. What pages
quote of the sources must stand there. Scripts are played by crates/ck_run/out/ck_run, and left out
where it isn't built."""
import glob
import os
import re
import shutil
import subprocess
import sys
import tempfile

import support

CK_RUN = os.path.join(support.ROOT, "crates", "ck_run", "out", "ck_run")
SCRIPT_PAGE = "docs/script.md"
REPLY_ROW = re.compile(r"\| `([^`|]*)` \| `([^`|]*)` \|")

# What pages quote of the sources: a page, a text of the block, and the file. Each line stands there
# in order, where spaces, comments and the ends of lines count for nothing.
QUOTES = [
    ("docs/architecture.md", "check_flag(source", "crates/ck_token/src/tokens/object_calls.rt"),
    ("docs/architecture.md", "(limits : Ranges) (h : History)", "crates/ck_parts/src/parts.rt"),
    ("docs/architecture.md", "is_open (start b) s", "crates/ck_journal/specs/Sessions.antt"),
    ("docs/architecture.md", "answer limits h c =", "crates/ck_journal/specs/Answers.antt"),
    ("docs/module.md", "OSPREYRACK_INTERFACE", "module/tests/installed.c"),
    ("docs/module.md", "name = Ospreyrack", "module/tests/clients.py"),
]


def text_of(path):
    with open(os.path.join(support.ROOT, path), encoding="utf-8") as file:
        return file.read()


def blocks_of(path):
    """The indented blocks of a page, without their indentation."""
    block = []
    for line in [*text_of(path).split("\n"), ""]:
        if line.startswith("    "):
            block.append(line[4:])
        elif block:
            yield block
            block = []


def block_with(path, text):
    """The first block of a page with this text, or no lines."""
    return next((it for it in blocks_of(path) if text in "\n".join(it)), [])


def stand_in_order(lines, text):
    rest = iter(text.split("\n"))
    return all(line in rest for line in lines)


def without_spaces(text):
    return re.sub(r"\s+", "", re.sub(r"(//|--) [^\n]*", "", text)).replace(",)", ")")


def is_quoted(lines, text):
    """Whether the lines stand in the text, in order."""
    rest = without_spaces(text)
    for line in lines:
        _, found, rest = rest.partition(without_spaces(line))
        if not found:
            return False
    return True


def run(command, folder, **environment):
    return subprocess.run(command, shell=True, cwd=folder, capture_output=True, text=True,
                          timeout=support.SECONDS, env={**os.environ, **environment})


def check_commands(checks, path, text, module, folder, first=""):
    """Commands of pkcs11-tool, in the first block with this text."""
    commands = [it for it in block_with(path, text) if not it.startswith("module/build")]
    script = "\n".join(["set -e", first, *commands])
    script = script.replace("$PWD/module/out/libospreyrack.so", module)
    ran = run(script, folder)
    checks.check(len(commands) > 1, f"{path}: commands are there")
    checks.equal(ran.returncode, 0, f"{path}: the commands: {ran.stderr[-300:]}")


def check_journal(checks, path, text, journal):
    """The lines of the first block with this text stand in the journal."""
    shown = block_with(path, text)
    checks.check(len(shown) > 3, f"{path}: a journal is shown")
    with open(journal, encoding="ascii") as file:
        checks.check(stand_in_order(shown, file.read()), f"{path}: the journal is as shown")


def check_first_runs(checks, module, folder):
    """The first commands of pkcs11-tool, the journal that they leave, and the commands after
    them."""
    check_commands(checks, "README.md", "--init-token", module, folder)
    check_journal(checks, "README.md", "InitToken 3132333435363738 -> 0",
                  os.path.join(folder, "token.cases"))
    first = "export OSPREYRACK_TOKEN=$PWD/token.cases module=$PWD/module/out/libospreyrack.so"
    check_commands(checks, "docs/module.md", "--list-objects", module, folder, first)


def write_prepare_script(folder):
    """The script of docs/module.md that prepares a token."""
    lines = block_with("docs/module.md", "1 InitToken 3132333435363738\n")
    with open(os.path.join(folder, "prepare.script"), "w") as script:
        script.write("\n".join(lines) + "\n")


def check_prepared_token(checks, module, folder):
    """The script that prepares a token, and that its label, PIN and key are there."""
    write_prepare_script(folder)
    ran = run(f"pkcs11-tool --module {module} --token-label demo --login --pin 123456 "
              "--list-objects", folder, OSPREYRACK_SCRIPT="prepare.script")
    checks.equal(ran.returncode, 0, "the application on a prepared token")
    checks.check("a key" in ran.stdout, "the prepared key is there")


def check_recording(checks, module, ck_cases, folder):
    """The run that the page on recorded runs begins with, its journal, and that it is a case."""
    page = "docs/recorded_runs.md"
    write_prepare_script(folder)
    check_commands(checks, page, "OSPREYRACK_JOURNAL=run.cases", module, folder)
    check_journal(checks, page, "1 SignInit ", os.path.join(folder, "run.cases"))
    support.audit(checks, ck_cases, os.path.join(folder, "run.cases"))


def check_last_line(checks, folder):
    """The command that takes out a last line without its end, and no other line."""
    page = "docs/recorded_runs.md"
    command = re.search(r"before the file is played: `([^`]*)`", " ".join(text_of(page).split()))
    path = os.path.join(folder, "some.cases")
    for text, left in (("a\n", "a\n"), ("a\nb", "a\n"), ("a\nb\n", "a\nb\n")):
        with open(path, "w") as file:
            file.write(text)
        run(command[1] if command else "false", folder)
        with open(path) as file:
            checks.equal(file.read(), left, f"{page}: the last line of {text!r}")


def check_recorded_run(checks, ck_cases, folder):
    """The file of the page on recorded runs, and what ck_cases writes of it."""
    page = "docs/recorded_runs.md"
    with open(os.path.join(folder, "some.cases"), "w") as file:
        file.write("\n".join(block_with(page, "limits largest")) + "\n")
    played = [it for it in blocks_of(page) if any(line.startswith("$ ck_cases") for line in it)]
    checks.equal(len(played), text_of(page).count("$ ck_cases --") + 1, f"{page}: its blocks")
    for block in played:
        said = "".join(run(line[2:].replace("ck_cases", ck_cases, 1), folder).stdout
                       for line in block if line.startswith("$ "))
        shown = "".join(line + "\n" for line in block if not line.startswith("$ "))
        checks.equal(said, shown, f"{page}: what ck_cases writes")


def check_program_page(checks):
    """The function of docs/rust.md is that of the test, and so are the names that it brings in."""
    source = text_of("crates/ck_run/src/tests/signing.rt")
    function = "\n".join(block_with("docs/rust.md", "fn sign("))
    checks.check(function and f"\n{function}\n" in source, "docs/rust.md: the function sign")
    brought = names_brought_in("\n".join(block_with("docs/rust.md", "use ck_token::")))
    used = {name for name in names_brought_in(source) if re.search(rf"\b{name}\b", function)}
    checks.equal(sorted(brought), sorted(used), "docs/rust.md: the names of ck_token")
    uses = re.findall(r"pub use [^;]*;", text_of("crates/ck_token/src/lib.rt"))
    given = set(re.findall(r"\w+", " ".join(uses)))
    checks.check(used and used <= given, "docs/rust.md: ck_token gives these names")


def names_brought_in(code):
    """The names that `use ck_token::{..};` brings in."""
    found = re.search(r"use ck_token::\{([^}]*)\};", code)
    return set(re.findall(r"\w+", found[1])) if found else set()


def check_contract(checks):
    """The clauses of Token::call that README.md shows are in its contract, and in the table."""
    shown = block_with("README.md", "pub fn call(") or ["no contract"]
    _, _, rest = text_of("crates/ck_token/src/tokens.rt").partition("\n    " + shown[0])
    contract, _, _ = rest.partition("\n    {\n")
    checks.check(len(shown) > 1 and stand_in_order(shown[1:], contract.replace("\n    ", "\n")),
                 "README.md: the contract of Token::call")
    clauses = [line.split()[1] for line in shown[1:] if line.split()[0] == "ensures"]
    said = re.findall(r"^\| `(\w+)` \|", text_of("README.md").partition(shown[-1])[2], re.MULTILINE)
    checks.equal(said, clauses, "README.md: the clauses that the table explains")


def check_quotes(checks):
    for page, text, path in QUOTES:
        # The path of the library is the reader's.
        shown = [line for line in block_with(page, text) if " library = " not in line]
        checks.check(shown and is_quoted(shown, text_of(path)), f"{page}: {text} .. is in {path}")


def check_names_of_module(checks):
    """The variables and the codes that docs/module.md lists are those of the module's sources."""
    page = "docs/module.md"
    known = re.findall(r'= "(OSPREYRACK_\w+)";', text_of("module/configuration.c"))
    said = re.findall(r"^\| `(OSPREYRACK_\w+)` \|", text_of(page), re.MULTILINE)
    checks.check(len(known) > 1, "module/configuration.c: variables are there")
    checks.equal(sorted(said), sorted(known), f"{page}: the variables")
    sources = glob.glob(os.path.join(glob.escape(support.ROOT), "module", "*.c"))
    of_module = codes_in("".join(map(text_of, sources)))
    of_token = codes_in(table_with(SCRIPT_PAGE, "| code | name |"))
    own = codes_in(table_with(page, "| code | when |"))
    checks.equal(sorted(own), sorted(of_module - of_token), f"{page}: the module's own codes")
    shared = re.search(r"^(CKR_[^.]*) come from both\.", text_of(page), re.MULTILINE)
    checks.check(shared and codes_in(shared[1]) <= of_module & of_token,
                 f"{page}: the codes that come from both")


def codes_in(text):
    return set(re.findall(r"\bCKR_\w+", text))


def table_with(path, head):
    """The rows of the table that begins with this line."""
    return text_of(path).partition(head + "\n")[2].partition("\n\n")[0]


def check_shared_token(checks):
    """The output of the example of docs/threads.md is what `rt ci` compares."""
    shown = block_with("docs/threads.md", "sessions were opened")
    checks.equal("\n".join(shown) + "\n", text_of("crates/ck_threads/stdout"),
                 "docs/threads.md: the output of ck_threads")


def rows_of_scripts():
    """The rows of the tables of lines and replies: each script begins with a new token."""
    for table in text_of(SCRIPT_PAGE).split("| line | reply |")[1:]:
        for line, reply in REPLY_ROW.findall(table.partition("\n\n")[0]):
            yield line, reply


def check_tables(checks, ck_cases, folder):
    """The tables of docs/script.md are played, and stand in readme.cases."""
    lines = [f"{line} -> {reply}" for line, reply in rows_of_scripts()]
    text = "".join("limits largest\n" * (" InitToken " in line) + line + "\n" for line in lines)
    with open(os.path.join(folder, "script.cases"), "w") as file:
        file.write(text)
    checks.check(len(lines) > 30, f"{SCRIPT_PAGE}: the tables are there")
    checks.equal(run(f"{ck_cases} script.cases", folder).stdout,
                 f"script.cases: {len(lines)} passed\n", f"{SCRIPT_PAGE}: the tables")
    checks.check(stand_in_order(lines, text_of("crates/ck_cases/data/readme.cases")),
                 f"{SCRIPT_PAGE}: the tables in readme.cases")


def check_first_script(checks, folder):
    """The replies to the script of README.md are those that it names."""
    command = "\n".join(block_with("README.md", "| rt try"))
    said = re.search(r"The replies are ([^.]*)\.", text_of("README.md"))
    replies = re.findall(r"`([^`]*)`", said[1]) if said else []
    ran = run(command.replace("rt try", CK_RUN), folder)
    checks.check(len(replies) > 1, "README.md: replies are named")
    checks.equal((ran.stdout.split("\n"), ran.returncode), ([*replies, ""], 0),
                 "README.md: the replies to the script")


def check_text_as_bytes(checks, folder):
    """The command that writes a text as bytes."""
    ran = run("\n".join(block_with(SCRIPT_PAGE, "od -An")), folder)
    shown = re.search(r"which prints `([^`]*)`", text_of(SCRIPT_PAGE))
    checks.equal(ran.stdout, shown and shown[1], f"{SCRIPT_PAGE}: a text as bytes")


def check_longer_example(checks):
    """The command that plays a file of cases as a script, at the top of the repository."""
    ran = run("\n".join(block_with(SCRIPT_PAGE, "sed ")), support.ROOT)
    wanted = re.findall("^(?!audit).* -> (.*)", text_of("crates/ck_cases/data/search.cases"),
                        re.MULTILINE)
    checks.check(len(wanted) > 4, "search.cases: replies are there")
    checks.equal((ran.stdout.splitlines(), ran.returncode), (wanted, 0),
                 f"{SCRIPT_PAGE}: the replies to the longer example")


def check_sources(checks):
    """What pages quote of the sources and of their outputs."""
    check_program_page(checks)
    checks.end("the program of docs/rust.md")
    check_contract(checks)
    checks.end("the contract in README.md")
    check_shared_token(checks)
    checks.end("the output in docs/threads.md")
    check_quotes(checks)
    checks.end("what pages quote of the sources")
    check_names_of_module(checks)
    checks.end("the variables and the codes in docs/module.md")


def check_scripts(checks, ck_cases):
    """What pages show of scripts and their replies."""
    with tempfile.TemporaryDirectory() as folder:
        check_tables(checks, ck_cases, folder)
        check_text_as_bytes(checks, folder)
    checks.end("the tables of docs/script.md, and the command before them")
    if not os.path.exists(CK_RUN):
        checks.leave_out("scripts of README.md and docs/script.md",
                         "there is no crates/ck_run/out/ck_run")
        return
    with tempfile.TemporaryDirectory() as folder:
        check_first_script(checks, folder)
    checks.end("the script of README.md")
    check_longer_example(checks)
    checks.end("the longer example of docs/script.md")


def main():
    module, ck_cases = (os.path.abspath(path) for path in sys.argv[1:3])
    checks = support.Checks("documents")
    with tempfile.TemporaryDirectory() as folder:
        check_last_line(checks, folder)
        check_recorded_run(checks, ck_cases, folder)
    checks.end("the file of docs/recorded_runs.md, and the command before it is played")
    check_sources(checks)
    check_scripts(checks, ck_cases)
    if shutil.which("pkcs11-tool") is None:
        checks.leave_out("examples of pkcs11-tool", "it isn't installed (apt-get install opensc)")
        return checks.status()
    with tempfile.TemporaryDirectory() as folder:
        check_first_runs(checks, module, folder)
    checks.end("the commands of README.md and docs/module.md")
    with tempfile.TemporaryDirectory() as folder:
        check_prepared_token(checks, module, folder)
    checks.end("the script of docs/module.md")
    with tempfile.TemporaryDirectory() as folder:
        check_recording(checks, module, ck_cases, folder)
    checks.end("the run of docs/recorded_runs.md")
    return checks.status()


if __name__ == "__main__":
    sys.exit(main())
