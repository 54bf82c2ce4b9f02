#!/usr/bin/env python3
"""Writes contracts.md, the contracts of all public functions as they stand in crates/*/src, from
the sources; or with the word `check` says whether the page is what it would write, and whether the
examples are the same wherever they stand."""
import collections
import itertools
import os
import re
import sys

HERE = os.path.dirname(os.path.abspath(__file__))
PAGE = os.path.join(HERE, "contracts.md")
CRATES = os.path.join(HERE, "..", "crates")

HEAD = """# Contracts

The public functions that have a contract, with their signatures and clauses as they stand in the
sources: what a caller must show first (`requires`) and what is proved of every call (`ensures`). A
function without a clause, a conversion by `From` and a method whose contract is its trait's aren't
named here. [proofs.md](proofs.md) says how a clause is read and what the definitions mean that
clauses name; they stand in the `specs` folders.

`python3 docs/contracts.py` writes this page, and `./check` looks whether it is as the sources are.
"""

# Examples, each by how its first line begins and by the file in which it is run: the example of
# ck_token by a test, that of threads as a program. Then come the files that show it, with what
# stands before its lines there.
EXAMPLES = [
    ("fn sign(", "crates/ck_run/src/tests/signing.rt",
     [("crates/ck_token/src/lib.rt", "//! "), ("docs/rust.md", "    ")]),
    ("impl<R: Wait + AllocGlobal> CallerWork<R> for ThreeSessions ",
     "crates/ck_threads/src/main.rt", [("docs/threads.md", "    ")]),
]

FUNCTION = re.compile(
    r'^( *)(pub(?:\([a-z]+\))? )?(?:const )?(?:unsafe )?(?:extern "C" )?fn (\w+)')
BLOCK = re.compile(r"^(?:pub(?:\([a-z]+\))? )?(?:unsafe )?(?:impl|trait)\b(.*?)\s*\{?$")
# Where the clauses of a function begin.
CLAUSE = re.compile(r"(requires|ensures|ghost)\b")
# A line at the left side in which nothing begins.
GOES_ON = re.compile(r"[ )}/#{]|where$")

# A function: its name, with that of its type or trait; where its block begins, and the function
# itself, by the numbers of the lines from 0; the spaces before it; and whether it is public.
Function = collections.namedtuple("Function", "name block start indent is_public")


def crates():
    """The crates in the order of crates.txt, which has those below first."""
    with open(os.path.join(CRATES, "..", "crates.txt")) as file:
        return [line.split(":")[0].split()[0] for line in file if ":" in line]


def names_of_block(line):
    """The trait that a block implements which begins in this line, or None, and the type or the
    trait whose functions stand in it; both are None where no such block begins."""
    found = BLOCK.match(line)
    if not found:
        return None, None
    name = found[1].strip()
    if name.startswith("<"):
        ends = [at for at in range(len(name)) if name[:at].count("<") == name[:at].count(">") > 0]
        name = name[ends[0]:].strip() if ends else name
    names = [re.split("<|: ", it)[0].strip()
             for it in name.split(" where ")[0].split(" for ")]
    return (names[0] if len(names) > 1 else None), names[-1]


def clauses_after(lines, start, indent):
    """The clauses of the function whose name stands in this line."""
    clauses = []
    for line in lines[start + 1:]:
        if line.startswith((indent + "{", indent + "}")):
            break
        text = line[len(indent) + 4:].rstrip()
        begins = CLAUSE.match(text)
        if (clauses or begins) and not text.startswith("//"):
            clauses.append(text)
        joined = "\n".join(clauses)
        # A method of a trait ends with a semicolon, and so does a line of a record in a clause.
        if text.endswith(";") and joined.count("{") == joined.count("}"):
            clauses = joined.rstrip(";").split("\n") if clauses else []
            break
    return [clause for clause in clauses if clause]


def signature(lines, start, indent):
    """The lines of the function whose name stands in this line, up to its clauses."""
    rest = itertools.takewhile(
        lambda line: not CLAUSE.match(line.strip()) and not line.startswith(indent + "{"),
        lines[start + 1:])
    return [line[len(indent):].rstrip() for line in [lines[start], *rest]]


def first_sentence(lines, start):
    """What the doc comment above this line says first."""
    comment = []
    for line in reversed(lines[:start]):
        text = line.strip()
        if text.startswith("///"):
            comment.insert(0, text[3:].strip())
        elif not text.startswith(("#[", "// ")):
            break
    return re.split(r"(?<=\.)\s", " ".join(comment) + " ")[0]


def lines_of(path):
    with open(path, encoding="utf-8") as file:
        return file.read().split("\n")


def blocks_of(lines):
    """For each line of a file the number of the one in which its block begins."""
    blocks = [0]
    for number, line in enumerate(lines):
        blocks.append(number if line and not GOES_ON.match(line) else blocks[-1])
    return blocks[1:]


def functions_in(lines):
    """The functions of a file's lines."""
    for number, block in enumerate(blocks_of(lines)):
        found = FUNCTION.match(lines[number])
        if found:
            _, owner = names_of_block(lines[block])
            name = f"{owner}::{found[3]}" if found[1] and owner else found[3]
            is_public = found[2] == "pub " or lines[block].startswith("pub trait ")
            yield Function(name, block, number, found[1], is_public)


def contracts_in(path):
    """The public functions of a file with contracts: their names, what they do, and their
    signatures with their clauses."""
    lines = lines_of(path)
    for function in functions_in(lines):
        clauses = clauses_after(lines, function.start, function.indent)
        if function.is_public and clauses:
            head = signature(lines, function.start, function.indent)
            yield (function.name, first_sentence(lines, function.start),
                   head + ["    " + clause for clause in clauses])


def files_of(crate):
    top = os.path.join(CRATES, crate, "src")
    found = [os.path.join(at, name) for at, _, names in os.walk(top) for name in names]
    return sorted(path for path in found if path.endswith(".rt"))


def page():
    text = [HEAD]
    for crate in crates():
        functions = [it for path in files_of(crate) for it in contracts_in(path)]
        if not functions:
            continue
        text.append(f"## {crate}\n")
        for name, what, contract in functions:
            text.append(f"`{name}`" + (f": {what}" if what else "") + "\n")
            text.append("\n".join("    " + line for line in contract) + "\n")
    return "\n".join(text)


def example_in(first, path, before=""):
    """The lines of an example in a file; none where it isn't there whole. An empty line may stand
    there without what is before the others."""
    with open(os.path.join(CRATES, "..", path)) as file:
        lines = [line[len(before):] for line in file.read().split("\n")
                 if line.startswith(before) or not line]
    example = list(itertools.dropwhile(lambda line: not line.startswith(first), lines))
    return example[:example.index("}") + 1] if "}" in example else []


def difference(shown, run):
    """Where the example that is shown isn't the one that is run, or None."""
    if not shown or not run:
        return "it isn't there, or not where it is run"
    for number, (here, there) in enumerate(itertools.zip_longest(shown, run, fillvalue=""), 1):
        if here != there:
            return f"line {number} of it is `{here.strip()}`, and where it is run `{there.strip()}`"
    return None


def check_examples():
    """Whether each example is the same wherever it stands. Says where it isn't."""
    found = [(path, source, difference(example_in(first, path, before), example_in(first, source)))
             for first, source, shown in EXAMPLES for path, before in shown]
    for path, source, what in found:
        print(f"{path}: the example is " + (
            f"not that of {source}: {what}" if what else "as it is run"))
    return not any(what for _, _, what in found)


def check_page():
    with open(PAGE) as file:
        is_same = file.read() == page()
    print("docs/contracts.md is " + ("as the sources are" if is_same else
                                     "not as the sources are: run python3 docs/contracts.py"))
    return is_same


def main():
    if sys.argv[1:] == ["check"]:
        results = [check_page(), check_examples()]
        return 0 if all(results) else 1
    with open(PAGE, "w") as file:
        file.write(page())
    return 0


if __name__ == "__main__":
    sys.exit(main())
