#!/usr/bin/env python3
"""Says where a check of the repository is gone, or is another one than before.

No check can go or change without a line of inventory.txt, beside this file, that shows it. For the
text of each file that checks the list has a digest: definitions that the contracts cite, edits that
the prover must refuse, files of recorded calls and of races, files of programs, crates.txt and
HANDLES, the module's headers, whose conditions the compiler checks, and the tests themselves. And
it names the checks by their kinds, so that a reader sees which are gone: tests of the crates, of
the scripts and of the module, crates, comparisons of secrets, types that can be shown, fields that
others see, unsafe lines, and the lines by which `check` and module/tests/run start them, with their
loops and the packages that `check` installs. Of each file of a crate it has how many clauses its
functions have, private ones too, and a digest of them, so that none is dropped or changed unseen.

With the word `check`, or none, this compares the list with what is there, and looks whether the
edits fit the sources and the files are as they are named elsewhere; the status is 1 where something
is gone or changed, isn't listed or is wrong. With the word `write` it writes the list.
"""
import ast
import collections
import functools
import glob
import hashlib
import os
import re
import sys

HERE = os.path.dirname(os.path.abspath(__file__))
ROOT = os.path.dirname(HERE)
LIST = os.path.join(HERE, "inventory.txt")
HEAD = "# The checks of this repository, by kind. `python3 tests/inventory.py write` writes this.\n"

sys.path.insert(0, os.path.join(ROOT, "docs"))
import contracts

# How many hexadecimal digits are listed of a digest by SHA-256.
DIGITS = 16

# How many columns a line of a crate may have.
WIDTH = 100

# A type that is shown as it is, by a derived implementation; and one that is shown by an
# implementation of its own.
SHOWN = re.compile(r"#\[derive\([^)]*\bDebug\b[^)]*\)\]\s*(?:#\[[^\]]*\]\s*)*"
                   r"(?:pub(?:\([a-z]+\))? )?(?:struct|enum) (\w+)")
SHOWN_BY_HAND = re.compile(r"\bimpl\b[^{;]*?\b(Debug|Display|LowerHex|UpperHex)\s+for\s+"
                           r"([^{]*?)\s*(?:\bwhere\b[^{]*)?\{")
# The fields of a type, and those that others see.
STRUCT = re.compile(r"^(?:pub(?:\([a-z]+\))? )?struct (\w+)\b(?P<fields>[^;{]*;|.*?^\})",
                    re.MULTILINE | re.DOTALL)
SEEN_FIELD = re.compile(r"\b(pub(?:\([a-z]+\))?) (?:ghost )?(\w+)")
# A line of Rust for whose safety its author answers. An export isn't one: C sees only its name.
UNSAFE = re.compile(r"\bunsafe\b(?!\(no_mangle\))")
# What compares secrets: it mustn't stop at the first byte that differs.
COMPARISON = re.compile(r"constant_time_eq\(|\.matches\(&?given\)|\.check\(signature\)")
COMPARING = ("crates/ck_types/src/comparisons.rt", "crates/ck_types/src/pins.rt",
             "crates/ck_mac/src/tags.rt", "crates/ck_mac/src/macs.rt",
             "crates/ck_token/src/tokens/pin_calls.rt",
             "crates/ck_token/src/tokens/operation_calls.rt")
LAW_EDIT = re.compile(r"^\|[^|]*\| `(\w+)` \|", re.MULTILINE)
# Comments of C and Rust; and strings and characters, in which none begin.
COMMENT = re.compile(r"""//[^\n]*|/\*.*?\*/|"(?:[^"\\]|\\.)*"|'(?:[^'\\\n]|\\.)'""", re.DOTALL)
RUST_TEST = re.compile(r"#\[test\]\s*(?:#\[[^\]]*\]\s*)*(?:pub(?:\([a-z]+\))? )?fn (\w+)")
TEST_MODULE = re.compile(r"#\[cfg\(test\)\]\s*(?:pub(?:\([a-z]+\))? )?mod (\w+)")
MODULE = re.compile(r"^(?:pub(?:\([a-z]+\))? )?mod (\w+);", re.MULTILINE)
# Attributes by which a test may not be run, or may pass where it fails: all except that of a module
# of tests.
HINDRANCE = re.compile(r"#!?\[(?!cfg\(test\)\])\s*(?:cfg\w*|ignore|should_panic)\b[^\n]*")
C_CONDITION = re.compile(r"^\s*#\s*(?:if|ifdef|ifndef)\b.*", re.MULTILINE)
# A line of a table in C, by the text at its beginning.
C_ENTRY = re.compile(r'^    \{"((?:[^"\\]|\\.)*)",', re.MULTILINE)
C_TEST = re.compile(r'"(?:[^"\\]|\\.)*",\s*(test_\w+)\}')
PART = re.compile(r"^(part|begin) ")
STEP = re.compile(r"^(?:if |! )?(?:\w+=\S+ )*"
                  r"(?:try|play|tells|is_failure|run_\w+|check_\w+|compile\w*) ?(?!\S*\(\))")
LOOP = re.compile(r"^for .*; do$")
# A list of words in a shell script, or what is added to one, by its name.
WORDS = re.compile(r"(\w+)\+?=\(([a-z][^)]*)\)")
# The name of a clause, and that of a ghost item of a block.
LABEL = re.compile(r"(?:requires|ensures) (\w+) \{")
GHOST = re.compile(r"    ghost (\w+)(?: =|:)")
# How a clause begins, or a ghost item, wherever it stands.
CLAUSE = re.compile(
    r"^\s*(?:pub )?(requires|ensures|ghost)\b\*?(?: \w+)?(?: \{| =|:)", re.MULTILINE)
# The names of definitions that clauses cite.
CITED = re.compile(r"^\s*(?:pub )?ghost use [^;]*;", re.MULTILINE)

# The crates whose checks are listed: programs that test or measure the others, and ck_run, which
# has the tests of the libraries.
CRATES_OF_TESTS = ("ck_bench", "ck_cases", "ck_races", "ck_run", "ck_threads")

# The other files that check, and those that say to `rt` what it checks.
OTHER_TESTS = (
    "module/tests/*", "bench/*", "tests/*.py", "check", ".ci/run", "docs/contracts.py",
    "crates.txt", "HANDLES")

# The pages with tables of what is promised: laws, clauses, and what users of the module meet.
PAGES_OF_PROMISES = ("docs/laws.md", "docs/proofs.md", "docs/module.md")

# The lines by which a script finds and counts what has failed; with the last one it ends.
VERDICTS = {
    "check": ['if [ "$status" -eq 0 ] && ! grep -q "^FAILED " "$output"; then',
              "failed=$((failed + 1))",
              'count "$name" "${PIPESTATUS[0]}" "$outputs/last"', "status=$?",
              'count "${begun[at]}" "$status" "$outputs/$at"',
              '[ "${PIPESTATUS[0]}" -eq 0 ] && ! grep -q ": BAD EDIT: " "$outputs/rt ci"',
              "finish", '[ "$failed" -eq 0 ]'],
    "module/tests/run": ['failed=$(grep -c "^FAILED" "$log" || true)',
                         '[ "$passed" -gt 0 ] && [ "$failed" -eq 0 ]'],
}


def text_of(path):
    with open(os.path.join(ROOT, path), encoding="utf-8", newline="\n") as file:
        return file.read()


@functools.lru_cache(maxsize=None)
def code_of(path):
    """A file of C or Rust without its comments."""
    return COMMENT.sub(lambda it: "" if it[0].startswith("/") else it[0], text_of(path))


def matching(pattern, is_kind):
    """What there is of this pattern and kind, by its path from the repository's top."""
    paths = glob.glob(os.path.join(glob.escape(ROOT), pattern), recursive=True)
    return sorted(os.path.relpath(path, ROOT) for path in paths if is_kind(path))


def files(pattern):
    return matching(pattern, os.path.isfile)


def folders(pattern):
    return matching(pattern, os.path.isdir)


def digest_of(content):
    """The beginning of a digest."""
    return hashlib.sha256(content).hexdigest()[:DIGITS]


def with_digests(paths):
    """Files, each with the beginning of the digest of its text."""
    listed = []
    for path in paths:
        with open(os.path.join(ROOT, path), "rb") as file:
            listed.append(f"{path} {digest_of(file.read())}")
    return listed


# ---- What is there


def edits():
    return files("crates/*/must-fail/*")


def sources():
    return files("crates/*/src/**/*.rt")


def crate_tests():
    """The functions that are tests, each with its file."""
    return [f"{path} {name}" for path in sources() for name in RUST_TEST.findall(code_of(path))]


def test_modules():
    """The modules that are there for tests only, and those inside them, each with the file that
    names it."""
    outer = [(path, name) for path in sources() for name in TEST_MODULE.findall(code_of(path))]
    below = [os.path.join(os.path.dirname(path), f"{name}.rt") for path, name in outer]
    inner = [(path, name) for path in set(below) & set(sources())
             for name in MODULE.findall(code_of(path))]
    return [f"{path} {name}" for path, name in outer + inner]


def comparisons():
    """The lines that compare secrets without a stop at the first byte that differs, which no
    contract can say, and the files of these comparisons and of the calls that make them."""
    lines = [f"{path} {line.strip()}" for path in sources()
             for line in code_of(path).split("\n") if COMPARISON.search(line)]
    return lines + with_digests(COMPARING)


def shown_types():
    """The types of which a text can be made, as by `{:?}`. None of them may hold a secret."""
    derived = [f"{path} {name}" for path in sources() for name in SHOWN.findall(code_of(path))]
    by_hand = [f"{path} {trait} for {' '.join(name.split())}" for path in sources()
               for trait, name in SHOWN_BY_HAND.findall(code_of(path))]
    return derived + by_hand


def seen_fields():
    """The fields of the libraries' types that others see, in the crate or everywhere. What rests on
    private fields, such as that there is one published history, is in no clause."""
    return [f"{path} {struct} {who} {field}" for path in sources()
            if path.split("/")[1] not in CRATES_OF_TESTS
            for struct, fields in STRUCT.findall(code_of(path))
            for who, field in SEEN_FIELD.findall(fields)]


def unsafe_lines():
    """The lines for whose safety their authors answer."""
    return [f"{path} {line.strip()}" for path in sources()
            for line in code_of(path).split("\n") if UNSAFE.search(line)]


def braced(text):
    """The beginning of a text up to the end of its first braces."""
    depth = 0
    for at, letter in enumerate(text):
        depth += (letter == "{") - (letter == "}")
        if letter == "}" and depth == 0:
            return text[:at + 1]
    return text


def clauses_in_files():
    """How many clauses, and ghost items of types, each file has, and the beginning of a digest of
    them and of the names of definitions that they cite."""
    listed = []
    for path in sources():
        code = code_of(path)
        found = collections.Counter(CLAUSE.findall(code))
        if found:
            texts = [braced(code[it.start():]) for it in CLAUSE.finditer(code)]
            texts = "".join(" ".join(it.split()) + "\n" for it in texts + CITED.findall(code))
            listed.append(f"{path} requires {found['requires']}, ensures {found['ensures']}, "
                          f"ghost items {found['ghost']} {digest_of(texts.encode())}")
    return listed


def texts_of_tests():
    """The files that check and are of no other kind."""
    paths = {it.split()[0] for it in crate_tests()}
    paths |= {path for path in sources() if path.split("/")[1] in CRATES_OF_TESTS}
    return sorted(paths.union(*map(files, OTHER_TESTS)))


def libraries_of():
    """What crates.txt names of each crate, in its order: the crates and libraries that it uses."""
    lines = [line.split(":") for line in text_of("crates.txt").split("\n") if ":" in line]
    return {crate.split()[0]: used.split() for crate, used in lines}


def crates():
    """The crates that crates.txt names, in its order."""
    return [*libraries_of()]


def program_files():
    """What programs are given, what they must write, and how they must end."""
    names = ("args", "stdin", "stdout", "status")
    return [path for name in names for path in files(f"crates/*/{name}")]


def c_files():
    return files("module/tests/*.c") + files("bench/*.c")


def rows_of_pages():
    """The rows of tables on pages that say what is promised, each by its first cell and with the
    beginning of the digest of its text."""
    rows = [(page, line) for page in PAGES_OF_PROMISES for line in text_of(page).split("\n")
            if line.startswith("| ")]
    return [f"{page} {line.split(' | ')[0][2:]} {digest_of(line.encode())}" for page, line in rows]


def sources_in_c():
    return files("module/*.c")


def headers_in_c():
    return files("module/*.h")


def c_tests():
    return [f"{path} {name}" for path in c_files() for name in C_TEST.findall(code_of(path))]


def c_entries():
    """What tables of tests, of calls and of cases have, by the texts that name it."""
    return [f"{path} {name}" for path in c_files() for name in C_ENTRY.findall(code_of(path))]


def python_files():
    return files("tests/*.py") + files("module/tests/*.py") + files("bench/growths.py")


def names_in(node):
    """The names that code uses, with those of methods."""
    return {it.id if isinstance(it, ast.Name) else it.attr for it in ast.walk(node)
            if isinstance(it, (ast.Name, ast.Attribute))}


def functions_of(tree):
    """The functions and methods of a file, and its code outside of them."""
    functions, rest = {}, []
    for node in tree.body:
        if isinstance(node, ast.ClassDef):
            for part in node.body:
                if isinstance(part, ast.FunctionDef):
                    functions.setdefault(part.name, []).append(part)
        elif isinstance(node, ast.FunctionDef):
            functions.setdefault(node.name, []).append(node)
        else:
            rest.append(node)
    return functions, rest


def called_functions(tree):
    """The functions that the file's code comes to, by their names."""
    functions, rest = functions_of(tree)
    called, names = set(), set().union(*map(names_in, rest))
    while names:
        name = names.pop()
        if name in functions and name not in called:
            called.add(name)
            names |= set().union(*map(names_in, functions[name]))
    return called


def python_functions():
    """The functions of scripts that are called."""
    return [f"{path} {name}" for path in python_files()
            for name in called_functions(ast.parse(text_of(path)))]


def clients():
    """The clients of the module that are tried, by their names."""
    for node in ast.parse(text_of("module/tests/clients.py")).body:
        if isinstance(node, ast.Assign) and node.targets[0].id == "CLIENTS":
            return [key.value for key in node.value.keys]
    return []


def commands_of(path, form):
    """The commands of a shell script that have this form, each in one line."""
    lines = re.sub(r"\s*\\\n\s*", " ", text_of(path)).split("\n")
    return [line.strip() for line in lines if form.match(line.strip())]


def words_of_check():
    """The packages that `check` installs, each with the list in which it stands."""
    return [f"{name} {word}" for name, words in WORDS.findall(text_of("check"))
            for word in words.split()]


def inventory():
    """All checks, as sorted lines."""
    kinds = {
        "definition": with_digests(files("crates/*/specs/**/*.antt")),
        "edit that must fail": with_digests(edits()),
        "test of a crate": crate_tests(),
        "module of tests": test_modules(),
        "clauses": clauses_in_files(),
        "text of tests": with_digests(texts_of_tests()),
        "crate": crates(),
        "comparison of secrets": comparisons(),
        "type that can be shown": shown_types(),
        "field that others see": seen_fields(),
        "unsafe line": unsafe_lines(),
        "file of a program": with_digests(program_files()),
        "recorded run": with_digests(files("crates/*/data/*.cases")),
        "races": with_digests(files("crates/*/data/*.races")),
        "test in C": c_tests(),
        "entry in C": c_entries(),
        "header in C": with_digests(headers_in_c()),
        "row of a page": rows_of_pages(),
        "function in Python": python_functions(),
        "client": clients(),
        "part of check": commands_of("check", PART),
        "loop of check": commands_of("check", LOOP),
        "word of check": words_of_check(),
        "step of module/tests/run": commands_of("module/tests/run", STEP),
        "loop of module/tests/run": commands_of("module/tests/run", LOOP),
    }
    return sorted(f"{kind}: {name}" for kind, names in kinds.items() for name in names)


# ---- What must be so whatever the list says


def texts_in(edit):
    """Each text that an edit replaces: its file, the text, and what stands there then."""
    path, old = "", None
    for line in text_of(edit).split("\n"):
        word, _, text = line.partition(": ")
        if word == "file":
            path = os.path.join(edit.split("/must-fail/")[0], text)
        elif word == "old":
            old = text
        elif word == "new":
            yield path, old, text


# The clauses of a function, or of a type with an invariant: its name, the names of those that have
# one, and the function of a trait whose clauses it has, too.
Clauses = collections.namedtuple("Clauses", "name labels of_trait")


def ghosts_in(lines):
    """The ghost items of each block of a file, by the line in which the block begins."""
    ghosts = collections.defaultdict(set)
    for line, block in zip(lines, contracts.blocks_of(lines)):
        found = GHOST.match(line)
        if found:
            ghosts[block].add(found[1])
    return ghosts


def clauses_of_functions(lines, ghosts):
    for function in contracts.functions_in(lines):
        trait, _ = contracts.names_of_block(lines[function.block])
        clauses = contracts.clauses_after(lines, function.start, function.indent)
        labels = {found[1] for found in map(LABEL.match, clauses) if found}
        of_trait = trait and f"{trait}::{function.name.split('::')[-1]}"
        yield Clauses(function.name, labels | ghosts[function.block], of_trait)


def clauses_of_types(lines, ghosts):
    for block, names in ghosts.items():
        if "invariant" in names:
            yield Clauses(contracts.names_of_block(lines[block])[1], set(), None)


@functools.lru_cache(maxsize=None)
def clauses_of(crate):
    """What a line `clause:` of the crate's edits may name."""
    named = []
    for path in files(f"crates/{crate}/src/**/*.rt"):
        lines = text_of(path).split("\n")
        ghosts = ghosts_in(lines)
        named += [*clauses_of_functions(lines, ghosts), *clauses_of_types(lines, ghosts)]
    return named


@functools.lru_cache(maxsize=None)
def labels_of_all():
    """The names of the clauses of each function, by its name, whichever crate it is of."""
    labels = collections.defaultdict(set)
    for clauses in (it for crate in crates() for it in clauses_of(crate)):
        labels[clauses.name] |= clauses.labels
    return labels


def clauses_named(name, crate):
    """The clauses of this name: of the crate, or of one that it uses, which it must show."""
    used = [it for it in libraries_of().get(crate, []) if it in crates()]
    return [it for named in (crate, *used) for it in clauses_of(named) if it.name == name]


def labels_of(name, crate):
    """The names of the clauses of this name, with those of the trait that the function is of."""
    own = clauses_named(name, crate)
    of_traits = [labels_of_all()[it.of_trait] for it in own if it.of_trait]
    return set().union(*(it.labels for it in own), *of_traits)


def clause_faults(edit):
    """The line `clause:` names a function of the crate or of one that it uses, or a type with an
    invariant, and maybe a clause that it has."""
    lines = [line.split(" ") for line in text_of(edit).split("\n") if line.startswith("clause:")]
    if len(lines) != 1 or len(lines[0]) not in (2, 3):
        yield f"{edit} has not one line clause: with one name or two"
        return
    _, name, *label = lines[0]
    crate = edit.split("/")[1]
    if not clauses_named(name, crate):
        yield f"{edit}: there is no function, and no type with an invariant, {name}"
    elif not labels_of(name, crate).issuperset(label):
        yield f"{edit}: {name} has no clause {label[0]}"


def edit_faults(edit):
    lines = text_of(edit).split("\n")
    for word in ("file", "old", "new"):
        if not any(line.startswith(word + ": ") for line in lines):
            yield f"{edit} has no line {word}:"
            return
    if sum(line.startswith("old: ") for line in lines) != len(list(texts_in(edit))):
        yield f"{edit} has not as many lines old: as new:"
    changed = {}
    for path, old, new in texts_in(edit):
        if not os.path.isfile(os.path.join(ROOT, path)):
            yield f"{edit} is of {path}, which isn't there"
            return
        source = changed.get(path) or text_of(path)
        if source.count(old) != 1:
            yield f"{edit}: its old text stands {source.count(old)} times in {path}"
        if old == new:
            yield f"{edit} changes nothing"
        changed[path] = source.replace(old, new)
    yield from clause_faults(edit)


def law_faults():
    """The edits of docs/laws.md are those of definitions, each named once."""
    named = collections.Counter("definition_of_" + it for it in LAW_EDIT.findall(
        text_of("docs/laws.md")))
    there = collections.Counter(
        os.path.basename(path)[:-len(".edit")] for path in edits() if "/definition_of_" in path)
    for name in sorted((named - there).keys()):
        yield f"docs/laws.md names {name} once too often: the edit isn't there"
    for name in sorted((there - named).keys()):
        yield f"docs/laws.md lacks the edit {name}"


def crate_faults():
    """Each folder of crates/ is in crates.txt, and the other way round."""
    there = {os.path.basename(path) for path in folders("crates/*")}
    for name in sorted(there ^ set(crates())):
        yield f"crates/{name} " + ("isn't in crates.txt" if name in there else "isn't there")


def argument_faults():
    """A program with a folder `data` is given each file of it."""
    for folder in folders("crates/*/data"):
        arguments = files(os.path.join(os.path.dirname(folder), "args"))
        given = [word for path in arguments for word in text_of(path).split()]
        there = os.listdir(os.path.join(ROOT, folder))
        for name in sorted(set(there) - {os.path.basename(word) for word in given}):
            yield f"{folder}/{name} isn't named in the file args of the crate"
        for word in given:
            if "." in word and os.path.basename(word) not in there:
                yield f"{folder}/{word}, which the file args names, isn't there"


def module_faults():
    """Each file with tests is a module of its crate, for tests only."""
    modules = set(test_modules())
    for path in sorted({it.split()[0] for it in crate_tests()}):
        folder, name = os.path.split(path)
        name = name[:-len(".rt")]
        outer = (f"{folder}/main.rt", f"{folder}/lib.rt", f"{folder}.rt")
        if not {f"{file} {name}" for file in outer} & modules:
            yield f"{path} has tests, and no module for tests only names it"


def hindrance_faults():
    """No test is kept from being run, all builds of the module have the same code, and no comment
    ends elsewhere than it is taken to."""
    for path in sources() + c_files() + sources_in_c():
        form = C_CONDITION if path.endswith(".c") else HINDRANCE
        for line in form.findall(code_of(path)):
            yield f"{path}: by this line tests, or what they test, may be left out: {line.strip()}"
        if "*/" in COMMENT.sub("", text_of(path)):
            yield f"{path} has a comment in a comment"


def width_faults():
    """No line of the code, the definitions or the proofs is wider than a reader's window."""
    proofs = files("crates/*/specs/**/*.antt") + files("crates/*/proofs/**/*.antt")
    for path in sources() + proofs:
        for number, line in enumerate(text_of(path).split("\n"), 1):
            if len(line) > WIDTH:
                yield f"{path}:{number} has {len(line)} columns, more than {WIDTH}"


def verdict_faults():
    """The scripts that start checks, and those that make them, end with another status than 0 where
    one has failed."""
    for path, wanted in VERDICTS.items():
        lines = [line.strip() for line in text_of(path).split("\n")]
        for line in wanted:
            if lines.count(line) != 1:
                yield f"{path}: the line {line} doesn't stand there once"
        if lines[-2:] != [wanted[-1], ""]:
            yield f"{path} doesn't end with the line {wanted[-1]}"
    for path in [*files("tests/*.py"), "bench/growths.py", "docs/contracts.py"]:
        if not text_of(path).rstrip("\n").split("\n")[-1].strip().startswith("sys.exit(main("):
            yield f"{path} doesn't end with the status of its main"


def start_faults():
    """Each file of tests is started, compiled or brought in by another."""
    for path in files("tests/*.py"):
        if f"python3 {path}" not in text_of("check"):
            yield f"{path} isn't a part of check"
    texts = {path: text_of(path) for path in files("module/tests/*.*") + ["module/tests/run"]}
    for path in files("module/tests/*.*"):
        name = os.path.basename(path)
        words = (name, "import " + os.path.splitext(name)[0])
        if not any(word in text for other, text in texts.items() if other != path
                   for word in words):
            yield f"{path} isn't named by module/tests/run, or by what it starts"


def faults():
    yield from (fault for edit in edits() for fault in edit_faults(edit))
    yield from law_faults()
    yield from crate_faults()
    yield from argument_faults()
    yield from module_faults()
    yield from hindrance_faults()
    yield from width_faults()
    yield from start_faults()
    yield from verdict_faults()


def check():
    with open(LIST, encoding="utf-8") as file:
        listed = collections.Counter(file.read().split("\n")[1:-1])
    there = collections.Counter(inventory())
    said = [f"gone or changed: {line}" for line in (listed - there).elements()]
    said += [f"not listed: {line}" for line in (there - listed).elements()]
    said += [f"wrong: {fault}" for fault in faults()]
    for line in said:
        print(line)
    if said:
        print("python3 tests/inventory.py write lists what is there, where that is meant")
        return 1
    print(f"tests/inventory.txt lists the {sum(there.values())} checks that are there")
    return 0


def main():
    if sys.argv[1:] in ([], ["check"]):
        return check()
    if sys.argv[1:] != ["write"]:
        print("inventory.py [check | write]", file=sys.stderr)
        return 2
    with open(LIST, "w", encoding="utf-8") as file:
        file.write(HEAD + "".join(line + "\n" for line in inventory()))
    return 0


if __name__ == "__main__":
    sys.exit(main())
