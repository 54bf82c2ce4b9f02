#!/usr/bin/env python3
"""Tests of the tests of programs: program.py, rules.py, speed.py, recorded_runs.py, races.py and
figures.py beside this file, and bench/growths.py. Each must pass on a right program, and fail on
one that is wrong in one thing that it can see. And refusals.py must notice an edit that isn't
refused at its clause and a program that isn't run, rules.py other pages, and inventory.py and
docs/contracts.py changes of a copy of the repository.

The programs are those that `rt ci` leaves. This needs a C compiler, `cc`, as growths.py does.
"""
import contextlib
import glob
import inspect
import io
import os
import re
import shutil
import subprocess
import sys
import tempfile
from unittest import mock

import figures
import program
import races
import recorded_runs
import refusals
import rules
import speed

ROOT = os.path.dirname(program.HERE)
sys.path.insert(0, os.path.join(ROOT, "bench"))
import growths

# Scripts that run the right program, `$1`, with all other words, and what is wrong in them.
RIGHT = 'right=$1; shift; exec "$right" "$@"'
WRONG = {
    "another status": 'right=$1; shift; "$right" "$@"; exit $((7 - $?))',
    "a line more": 'right=$1; shift; "$right" "$@"; status=$?; echo; exit $status',
    "nothing on standard output": 'right=$1; shift; exec "$right" "$@" > /dev/null',
    "nothing on standard error": 'right=$1; shift; exec "$right" "$@" 2> /dev/null',
    "other arguments": 'right=$1; exec "$right" none',
}

# How many calls program.py makes here where it makes many, so that it doesn't take long.
FEW_CALLS = 1_000

# Scripts that run the right program, except where something is given or comes that is so in one
# test only: callers in threads, a line that fills the longest one, a long parameter, a reply with
# many handles or many answers, many calls, a packet, and memory.
NO_ROOM = '{ echo "ck_run: out of memory" >&2; exit 3; }'
WITH_INPUT = ('right=$1; shift; input=$(mktemp); trap \'rm "$input"\' EXIT; cat > "$input"; '
              f'%s || {NO_ROOM}; "$right" "$@" < "$input"')
WRONG_FOR_ONE = [
    *((program.callers, f'case "$*" in *--callers*{count}) exit 3;; esac; {RIGHT}')
      for count in (5, 6, 7)),
    (program.long_lists, WITH_INPUT % '[ "$(wc -c < "$input")" -lt 4000000 ]'),
    (program.long_lists, WITH_INPUT % '! grep -q "^1 DigestInit 1 250:00" "$input"'),
    *((program.long_replies, f'"$1" | awk \'/{front}/ {{ exit 3 }} {{ print }}\'')
      for front in ("^0 1,2,", "^0 :0,:0,")),
    (program.long_history, f'head -n {5 * FEW_CALLS} | "$1"'),
    (program.small_stacks, f'ulimit -s 24; {RIGHT}'),
    (program.packets, 'right=$1; shift; dd bs=64 status=none | "$right" "$@"'),
    (program.single_writes, 'right=$1; shift; "$right" "$@" | dd bs=16 status=none'),
    (program.single_errors, 'right=$1; shift; told=$(mktemp); trap \'rm "$told"\' EXIT; '
     '"$right" "$@" 2> "$told"; status=$?; dd bs=16 status=none < "$told" >&2; exit $status'),
    (program.sessions_with_objects, WITH_INPUT % '! grep -q "^1 CreateObject 64 " "$input"'),
    (program.memory, f'ulimit -v {program.ROOM_OF_CREATED // 1_536}; {RIGHT}'),
    (program.memory, WITH_INPUT % '! grep -q "^1 FindObjectsInit 64 " "$input"'),
    *((program.memory_of_entries, WITH_INPUT % f'! grep -q "^1 {call}" "$input"')
      for call in ("GetTokenInfo", "FindObjectsFinal 1")),
    (program.memory_of_callers, f'ulimit -v {program.ROOM_OF_EIGHT // 2_048}; {RIGHT}'),
    (program.audits, WITH_INPUT % (
        '[ "$(wc -l < "$input")" -lt 10000 ] || '
        '{ printf "entries %s\\naudit ok\\n" "$(wc -l < "$input")"; exit; }')),
    (program.audits, WITH_INPUT % '[ "$(wc -c < "$input")" -lt 40000000 ]'),
    *((program.ended, WITH_INPUT % f'! grep -q "^{call}" "$input"')
      for call in ("1 DestroyObject 1 201", "1 FindObjectsFinal 1")),
]

# The tests of each program, with the class that keeps what comes of them.
TESTS = {program: program.Tests, rules: program.Tests, recorded_runs: recorded_runs.Files,
         races: recorded_runs.Files, figures: program.Tests}

# A program whose call of number n takes n * n steps, one that takes as many steps for few calls as
# for many, and one that takes many behind a long line and for digests, with room for them and
# without; and how many objects speed.py then makes, searches and digests, so that it doesn't take
# long.
SLOW = "exec awk '{ for (i = 0; i < NR * NR; i++) x += i; print 0 }'"
SLOW_AMONG_FEW = "exec awk 'END { for (i = 0; i < 300000; i++) x += i } { print 0 }'"
SLOW_FOR_LONG = ("exec awk 'length > 1000000 { is_long = 1 } "
                 "is_long || / 3[12]$/ { for (i = 0; i < 300000; i++) x += i } { print 0 }'")
FEW_OBJECTS = {"FEWER": 3, "FEW": 10, "MANY": 40, "MOST": 50, "SEARCHES": 40,
               "SEARCHES_OF_MOST": 40, "DIGESTS": 20, "MOST_TRIES": speed.TRIES}

# Times of ever more, and whether they grow as they should; of calls, of these with searches by a
# label, and with others, and whether those by a label are fast; of a short value and a long one,
# and whether no copy is made; of a digest's length and of its refusal, and whether the latter comes
# early; of its length and of itself, and whether it takes not much longer; and of digests and short
# calls, and whether these take little.
GROWING_TIMES = [((1, 2.1), True), ((1, 7.9, 62), True), ((1, 2), False), ((1, 8), False),
                 ((4, 4), False), ((1, 4, 8), False), ((2, 4, 16), False)]
TIMES_OF_SEARCHES = [((1, 1.9, 4), True), ((1, 1, 1.1), True), ((1, 2, 4), False),
                     ((1, 4, 4), False)]
TIMES_OF_LENGTHS = [((1, 2.9), True), ((4, 3), True), ((1, 3), False)]
TIMES_OF_DIGESTS = [((3, 4), True), ((3, 2), True), ((3, 4.1), False)]
TIMES_OF_HASHING = [((2, 5.9), True), ((2, 1), True), ((2, 6), False)]
TIMES_OF_SHORT_CALLS = [((2, 5.9, 1), True), ((2, 1, 5.9), True), ((2, 6, 1), False),
                        ((2, 1, 6), False)]

# Tests in which a right program writes nothing there, so that they pass on one that never does.
SILENT = {
    "nothing on standard output": [program.readers, program.single_errors, races.each_wrong_reply,
                                   races.wrong_in_parts, races.bad_lines, races.bad_files],
    "nothing on standard error": [program.dialogue, program.long_lists, program.long_replies,
                                  program.long_history, program.packets, program.side_by_side,
                                  program.many_changes, program.memory,
                                  program.memory_of_entries, program.ended,
                                  program.single_writes, program.memory_of_callers,
                                  program.sessions_with_objects, program.seldom_asleep,
                                  recorded_runs.reports,
                                  recorded_runs.limits_of_first_case, recorded_runs.long_texts,
                                  recorded_runs.long_replies, recorded_runs.long_files,
                                  recorded_runs.cuts,
                                  races.whole_file, races.set_orders, rules.attributes,
                                  rules.unknown_attributes, rules.values, rules.key_states,
                                  rules.mechanisms, rules.session_states, rules.pieces,
                                  rules.flags, rules.tries, rules.locks, rules.buffers,
                                  rules.queries, rules.replies, figures.scripts,
                                  figures.judges],
}

# Tests of a file, to which it is all the same which program is there.
OTHERS = (races.shapes, rules.limits, rules.checks_of_calls, rules.codes, rules.reasons,
          rules.statuses, rules.statuses_of_cases, rules.names_of_mechanisms,
          rules.names_of_arguments, rules.functions_of_programs, rules.functions_besides_calls,
          rules.names_of_programs, rules.functions_without_clauses, rules.laws,
          rules.races_of_threads, rules.sketch_of_call, rules.numbers_of_pages,
          rules.functions_of_module, rules.clients_of_module,
          rules.lines_of_answers, rules.links, rules.toolchain, program.threads_of_share,
          program.threads_of_bench,
          figures.readings, figures.counts_of_callers, figures.readings_of_module,
          figures.times_of_calls, figures.times_of_messages, figures.times_by_lock,
          figures.asks_behind_many_calls,
          figures.bounds, figures.bounds_of_module, figures.sections)

# What a program of figures says of few calls, of many and of an audit, and whether the times can be
# those of the calls and of the audit.
AUDIT = "audit of 100000 entries: true\naudit: "
BENCH_TIMES = [
    (f"few: 1 ns\nmany: 21 ns\n{AUDIT}167 ns\n", True),
    (f"few: 1 ns\nmany: 22 ns\n{AUDIT}167 ns\nfew: 2 ns\nmany: 21 ns\n{AUDIT}3 ns\n", True),
    (f"few: 1 ns\nmany: 20 ns\n{AUDIT}21 ns\n", False),
    (f"few: 1 ns\nmany: 21 ns\n{AUDIT}21 ns\nfew: 2 ns\nmany: 20 ns\n{AUDIT}21 ns\n", False),
    (f"few: 1 ns\nmany: 21 ns\n{AUDIT}169 ns\n", False),
    (f"few: 1 ns\nmany: 21 ns\n{AUDIT}21 ns\nfew: 1 ns\nmany: 21 ns\n{AUDIT}169 ns\n", False),
    (f"few: 0 ns\nmany: 21 ns\n{AUDIT}21 ns\n", False),
    (f"few: 1 ns\nmany: 21 ns\n{AUDIT}0 ns\n", False),
    (f"few: 1 ns\nmany: 21 ns\n{AUDIT}2 ns\n", False),
    (f"few: 1 ns\nmany: 21 ns\n{AUDIT}21 ns\nfew: 1 ns\nmany: 21 ns\n{AUDIT}2 ns\n", False),
    (f"few: 1000 calls, 1 refused\nfew: 1 ns\nmany: 21 ns\n{AUDIT}21 ns\n", False),
    (f"few: 1 ns\n{AUDIT}21 ns\n", False),
    ("few: 1 ns\nmany: 21 ns\n", False),
    ("", False),
]

# Times by the lock of calls that take 100 ns without it, and whether it can be as fast.
TIMES_BY_LOCK = [([799], True), ([900, 799], True), ([800], False), ([0], False)]

# Times of calls whose messages take 100 ns to hash, and whether they can have hashed them once.
TIMES_OF_MESSAGES = [([149], True), ([300, 149], True), ([150], False), ([0], False)]

# Changes of pages, and the test of a right program that must notice each: what stands there, and
# what stands there then.
PAGES = [
    (rules.attributes, "rules.md", r"^\| 108 \| CKA_SIGN .*\n", ""),
    (rules.unknown_attributes, "rules.md", r"^\| 108 \| CKA_SIGN ", "| 10b | CKA_SIGN "),
    (rules.values, "rules.md", r"^\| 170 .*\n", ""),
    (rules.key_states, "rules.md", r"^\| 4 \| destroyed \|", "| 6 | destroyed |"),
    (rules.mechanisms, "rules.md", r"^\| SHA-384 .*\n", ""),
    (rules.session_states, "rules.md", r"^(\| nobody .*\n)(\| the user .*\n)", r"\2\1"),
    (rules.flags, "rules.md", r"^(\| CKF_SO_PIN_LOCKED \|) 400000 ", r"\1 800000 "),
    (rules.flags, "rules.md", r"^(\| CKF_USER_PIN_FINAL_TRY .* has) 2 ", r"\1 1 "),
    (rules.flags, "rules.md", r"^\| CKF_USER_PIN_LOCKED .*\n", ""),
    (rules.tries, "rules.md", r"^\| C_InitPIN \| \|\n", "| C_InitPIN | C_InitPIN |\n"),
    (rules.tries, "rules.md", r"^\| C_InitToken \| C_InitToken \|\n", ""),
    (rules.tries, "rules.md", r"^\| C_Login of the user \|(.*)\|\n", r"| |\1|\n"),
    (rules.locks, "rules.md", r"^- Three wrong tries", "- Five wrong tries"),
    (rules.locks, "rules.md", r"^- Three wrong tries", "- Two wrong tries"),
    (rules.limits, "rules.md", r"^(\| openings .* 1 to) 2\^32 ", r"\1 2^31 "),
    (rules.limits, "rules.md", r"^(\| sessions open at once .*)CKR_SESSION_COUNT \(b1\)",
     r"\1CKR_DEVICE_MEMORY (31)"),
    (rules.limits, "rules.md", r"^\| logins of the user in all.*\n", ""),
    (rules.queries, "rules.md", r"^(\| it is a hidden .*\n)(\| the object .*\n)", r"\2\1"),
    (rules.queries, "rules.md", r"^(\| the buffer .* the value \|.*)150", r"\g<1>12"),
    (rules.buffers, "rules.md", r"^(\| the buffer .* that length \|)[^|]*", r"\1 CKR_OK "),
    (rules.buffers, "rules.md", r"^(\| no buffer .*) the length of ", r"\1 "),
    (rules.queries, "rules.md", r"^(\| no buffer is given \|) the length of ", r"\1 "),
    (rules.checks_of_calls, "rules.md", r"^3(\. That user .*\n)4(\. The new .*\n)", r"3\g<2>4\1"),
    (rules.checks_of_calls, "rules.md", r"^3(\. That user .*\n)4(\. The new .*\n)", r"4\g<2>3\1"),
    (rules.checks_of_calls, "rules.md", r"^2\. CKA_COPYABLE is .*\n", ""),
    (rules.checks_of_calls, "rules.md", r"CKR_SESSION_EXISTS \(b6\)", "CKR_SESSION_EXISTS (b5)"),
    (rules.checks_of_calls, "rules.md", r"^2(\. All.*\n.*\n)3(\. Cr.*\n.*\n.*\n)", r"2\g<2>3\1"),
    (rules.calls, "script.md", r"^\| `SetPIN` \| session, ", "| `SetPIN` | "),
    (rules.calls, "script.md", r"^\| `SetPIN` .*\n", ""),
    (rules.arguments, "script.md", r"^\| caller \| `1` to `8` ", "| caller | `1` to `9` "),
    (rules.arguments, "script.md", r"^\| flags .*no `0x`, ", "| flags | hexadecimal, "),
    (rules.arguments, "script.md", r"^\| queries .*\n", ""),
    (rules.replies, "script.md", r"^\| a session \| a space, the state in decimal",
     "| a session | a space, the state in hexadecimal"),
    (rules.replies, "script.md", r"^Hexadecimal is in lower ", "Hexadecimal is in upper "),
    (rules.replies, "script.md", r"^\| mechanisms \|.*\n", ""),
    (rules.faults_of_lines, "script.md", r"^2(\. the first .*\n)3(\. fewer .*\n)", r"2\g<2>3\1"),
    (rules.faults_of_lines, "script.md", r"^3\. fewer than two words, the caller, ",
     "3. the caller, fewer than two words, "),
    (rules.faults_of_lines, "script.md", r"^(\| a tab .*\n)(\| a second space.*\n)", r"\2\1"),
    (rules.faults_of_lines, "script.md", r"^5\. a caller above N.*\n", ""),
    (rules.codes, "script.md", r"^\| `b3` \| CKR_", "| `b4` | CKR_"),
    (rules.codes, "script.md", r"^\| `b3` \| CKR_.*\n", ""),
    (rules.reasons, "script.md", r"^\| a tab \| `there is ", "| a tab | `there isn't "),
    (rules.reasons, "script.md", r"^\| a tab .*\n", ""),
    (rules.statuses, "script.md", r"^\| 3 \| reading failed ", "| 2 | reading failed "),
    (rules.statuses, "script.md", r"^\| 3 \| reading failed .*\n", ""),
    (rules.statuses_of_cases, "recorded_runs.md", r"^\| 1 (.*\n)\| 2 ", r"| 2 \1| 1 "),
    (rules.statuses_of_cases, "recorded_runs.md", r"^(\| 0 .*), or have no reply", r"\1"),
    (rules.statuses_of_cases, "recorded_runs.md", r"^\| 2 \| bad arguments.*\n", ""),
    (rules.names_of_mechanisms, "rust.md", "250, 260, 270", "260, 250, 270"),
    (rules.names_of_mechanisms, "rules.md", "251 CKM_SHA256_HMAC ", "251 CKM_SHA384_HMAC "),
    (rules.names_of_arguments, "rust.md", r"\| 4, 2, 6 \|", "| 2, 4, 6 |"),
    (rules.names_of_arguments, "rust.md", "400, 800, 2000", "800, 400, 2000"),
    (rules.names_of_arguments, "rust.md", "CKU_SO, CKU_USER", "CKU_USER, CKU_SO"),
    (rules.names_of_arguments, "rust.md", r"CKK_GENERIC_SECRET \| 10 ", "CKK_GENERIC_SECRET | 16 "),
    (rules.functions_of_programs, "rust.md", r"^\| `Template::secret_key\(", "| `Template::key("),
    (rules.functions_of_programs, "rust.md", r"^(\| `Mechanism::new\(alloc), kind", r"\1"),
    (rules.functions_of_programs, "rust.md", r"^(\| `\.class\(class\))\?", r"\1"),
    (rules.functions_of_programs, "rust.md", r"`length`, `attributes`", "`lengths`, `attributes`"),
    (rules.functions_of_programs, "rust.md",
     r"^(\| `Reply::ok`)(.*\n)(\| `Body::handle`[^|]*)(.*\n)", r"\1\4\3\2"),
    (rules.functions_besides_calls, "rust.md", r"`Token::reserve`, ", "`Token::reserves`, "),
    (rules.names_of_programs, "rust.md", "; `DATA`, ", "; `DATUM`, "),
    (rules.names_of_programs, "rust.md", r"^\| `run` [|].*\n", ""),
    (rules.functions_without_clauses, "proofs.md", "^Three public functions have",
     "Four public functions have"),
    (rules.functions_without_clauses, "proofs.md", "`vacant` and `fill` of", "`vacant` of"),
    (rules.functions_without_clauses, "proofs.md", "`SharedToken::lock`", "`Token::lock`"),
    (rules.laws, "laws.md", r"`CopiesStaySensitive` \| A", "`CopiesStaySensitiv` | A"),
    (rules.laws, "laws.md", r"^\| `TriesAreAtMostThree` .*\n", ""),
    (rules.laws, "laws.md", r"^(\| `SensitiveStays`)(.*\n)(\| `Unex\w+`)(.*\n)",
     r"\1\4\3\2"),
    (rules.laws, "laws.md", r"^(\| `CutLaw` \| .*\n)", ""),
    (rules.races_of_threads, "threads.md", "handles 63 and 64 once", "handles 62 and 63 once"),
    (rules.races_of_threads, "threads.md", "three times CKR_PIN_INC", "four times CKR_PIN_INC"),
    (rules.races_of_threads, "threads.md", r"^(\| one .* deactivates .*)FUNCTION_NOT_PERMITTED",
     r"\1HANDLE_INVALID"),
    (rules.races_of_threads, "threads.md", r"^\| four search on .*\n", ""),
    (rules.sketch_of_call, "architecture.md", r"^(    parts[.]res.*\n)(    journal[.]res.*\n)",
     r"\2\1"),
    (rules.sketch_of_call, "architecture.md", r"^    body[.]clone.*\n", ""),
    (rules.numbers_of_pages, "architecture.md", "looks for the lock 11 times",
     "looks for the lock 12 times"),
    (rules.numbers_of_pages, "architecture.md", "call that brings 4,096 bytes",
     "call that brings 4,095 bytes"),
    (rules.numbers_of_pages, "rules.md", r"is its number plus\n  2\^32", "is its number plus 2^31"),
    (rules.numbers_of_pages, "../README.md", "It has 34 calls", "It has 35 calls"),
    (rules.numbers_of_pages, "architecture.md", "for 25,000 ticks", "for 900,000 ticks"),
    (rules.numbers_of_pages, "module.md", "memory of 1,000 entries", "memory of 10,000 entries"),
    (rules.numbers_of_pages, "module.md", r"2\^20 \+ 1 of a single-part", "2^20 of a single-part"),
    (rules.numbers_of_pages, "module.md", r"No memory has 2\^47", "No memory has 2^46"),
    (rules.numbers_of_pages, "module.md", "an entry of 152 bytes", "an entry of 160 bytes"),
    (rules.numbers_of_pages, "proofs.md", "140,000 sessions", "14,000 sessions"),
    (rules.numbers_of_pages, "proofs.md", r"and\s+280,000\s+objects",
     "and 140,000 objects"),
    (rules.numbers_of_pages, "proofs.md", "more than twice and", "more than three and"),
    (rules.functions_of_module, "module.md", "the 20 message-based", "the 19 message-based"),
    (rules.functions_of_module, "module.md", "C_LoginUser, ", ""),
    (rules.clients_of_module, "module.md", "run eleven real", "run ten real"),
    (rules.clients_of_module, "module.md", "call from 8, 16 and 32", "call from 8, 16 and 64"),
    (rules.lines_of_answers, "proofs.md", "some 1,300 lines", "some 1,200 lines"),
    (rules.links, "laws.md", "^## Wrong definitions", "## Other definitions"),
    (rules.links, "module.md", "^## What is proved", "## What was proved"),
    (rules.links, "threads.md", r"[(]proofs[.]md#", "(proof.md#"),
    (rules.toolchain, "../README.md", "`logic dac", "`logic dad"),
    (rules.toolchain, "../README.md", r"`rattle-kit-(\w+)` or `rattle-kit-", r"`kit-\1` or `kit-"),
]

# Changes of sources in the folder crates with which such a page no longer agrees.
SOURCES = [
    (rules.flags, "ck_types/src/token_flags.rt", "SO_PIN_LOCKED = 0x4", "SO_PIN_LOCKED = 0x8"),
    (rules.checks_of_calls, "ck_token/src/tokens/pin_calls.rt", r"_LOGGED_IN \(101\),$", "(101),"),
    (rules.checks_of_calls, "ck_token/src/tokens/session_calls.rt", r"ARGUMENTS_BAD \(7\)\.$",
     "ARGUMENTS_BAD (7), CKR_OPERATION_ACTIVE (90)."),
    (rules.checks_of_calls, "ck_cases/data/*.cases", "^1 Verify .* -> 60$", "# none"),
    (rules.codes, "ck_run/src/tests/texts.rt", '"CKR_PIN_LOCKED"', '"CKR_PIN_EXPIRED"'),
    (rules.names_of_mechanisms, "ck_types/src/mechanism_numbers.rt", "= 0x250;", "= 0x258;"),
    (rules.names_of_arguments, "ck_journal/src/session_flags.rt", "SESSION: u64 = 2", "S: u64 = 2"),
    (rules.names_of_arguments, "ck_objects/src/forms.rt", "SECRET: u64 = 16", "SECRET: u64 = 10"),
    (rules.functions_of_programs, "ck_objects/src/*.rt", r"pub fn flag\(", "pub fn with_flag("),
    (rules.names_of_programs, "ck_token/src/lib.rt", " MOST_CALLERS, OperationKind,", ""),
    (rules.names_of_programs, "ck_token/src/lib.rt", "Stopped, run}", "Stopped}"),
    (rules.laws, "ck_journal/specs/Laws.antt", "^abbrev pub LoginsNeedThePin", "abbrev L"),
    (rules.laws, "ck_journal/src/laws.rt", r"^    ensures \{ SensitiveStays \}\n", ""),
    (rules.races_of_threads, "ck_races/data/callers.races", "^1 OpenSession 6 -> 0 63\n", ""),
    (rules.sketch_of_call, "ck_token/src/tokens.rt", r"^(    parts\.res.*\n)(    j.*\n)", r"\2\1"),
    (rules.functions_without_clauses, "ck_shared/src/shared.rt", "pub fn lock<", "fn lock<"),
    (rules.functions_without_clauses, "ck_shared/src/shared.rt", "^fn let_", "pub fn let_"),
    (rules.numbers_of_pages, "ck_shared/src/shared.rt", "LOOKS: u32 = 11", "LOOKS: u32 = 13"),
    (rules.numbers_of_pages, "ck_shared/src/shared.rt", "YIELDS: u32 = 64", "YIELDS: u32 = 400"),
    (rules.numbers_of_pages, "../module/locking.c", " TICKS = 25000", " TICKS = 900000"),
    (rules.numbers_of_pages, "../module/locking.c", "LOOKS = 5 ", "LOOKS = 19 "),
    (rules.numbers_of_pages, "../module/locking.c", "MOST_TICKS = 1000000", "MOST_TICKS = 1000"),
    (rules.numbers_of_pages, "../module/calls.c", "attributes = 1 << 20", "attributes = 1 << 18"),
    (rules.numbers_of_pages, "../module/module.h", "PARAMETER = 8,", "PARAMETER = 16,"),
    (rules.numbers_of_pages, "../module/module.h", "CK_ULONG.1 << 47", "CK_ULONG)1 << 46"),
    (rules.numbers_of_pages, "../tests/speed.py", "LABEL_PART = 3", "LABEL_PART = 2"),
    (rules.functions_of_module, "../module/unsupported.c", "^CK_RV C_LoginUser", "CK_RV C_Login"),
]

# Changes of `check` by which a part that ends isn't counted as it ends, and its status.
UNCOUNTED = [
    ("", "", 0),
    ('if [ "$status" -eq 0 ] && ! grep -q "^FAILED " "$output"; then', "if true; then", 1),
    (' && ! grep -q "^FAILED " "$output"', "", 1),
    ('[ "$status" -eq 0 ] && ! grep', "! grep", 1),
    ("left out|skipped", "left-out|skipped", 1),
    ("left out|skipped", "left out|skip", 1),
    ("failed + 1", "failed + 0", 1),
    ('"${PIPESTATUS[0]}" "$outputs/last"', '0 "$outputs/last"', 1),
    ("status=$?", "status=0", 1),
    ("passed + 1", "passed + 0", 1),
]

EDITS = "crates/*/must-fail/*.edit"

# Changes of the repository that its list of checks must show: what is changed, the first file of
# this pattern that has such a text, and what stands there then. Without one the file is gone.
CHANGES = [
    ("an edit that is gone", EDITS, "", None),
    ("an edit that is another one", EDITS, "new: .*", "new: none"),
    ("another reply of a case", "crates/*/data/*.cases", " -> 0$", " -> 1"),
    ("another definition", "crates/*/specs/*.antt", "^pub record ", "pub  record "),
    ("a clause that is gone", "crates/ck_store/src/labels.rt", "^ *ensures .*\n", ""),
    ("an invariant that says less", "crates/ck_store/src/stores.rt",
     r"\n *× IsShort s[.]objects s[.]index[.]items };", " };"),
    ("a clause of a private function that says less", "crates/ck_store/src/places.rt",
     "IsShort objects.now index.new.items }", "IsIndex objects.now index.new.items }"),
    ("another reply of a race", "crates/*/data/*.races", " -> 0$", " -> 1"),
    ("another output", "crates/*/stdout", "1", "2"),
    ("a comparison that may end early", "crates/*/src/*.rt", "constant_time_eq\\(&", "same(&"),
    ("a PIN that is compared by ==", "crates/ck_token/src/tokens/pin_calls.rt",
     "[.]matches\\(&given\\)", " == given"),
    ("a PIN that is compared by == beside it", "crates/ck_token/src/tokens/pin_calls.rt",
     "if is_pin\\(credential[.]pin, pin\\)", "if credential.pin == Some(pin)"),
    ("a key that can be shown", "crates/ck_objects/src/keys.rt", "derive\\(Drop",
     "derive(Debug, Drop"),
    ("a key that is shown by hand", "crates/ck_objects/src/keys.rt", "^impl Clone for Key",
     "impl<'a> std::fmt::Debug for Key {}\n\nimpl Clone for Key"),
    ("a private field that others see", "crates/ck_shared/src/locked.rt", "^    head: Head<K>,",
     "    pub head: Head<K>,"),
    ("a field of the crate that all see", "crates/ck_shared/src/shared.rt",
     r"pub\(crate\) work: Work", "pub work: Work"),
    ("another unsafe line", "crates/ck_module/src/places.rt",
     "^unsafe impl Send for TokenPlace {}", r"unsafe impl Sync for TokenPlace {}\n\g<0>"),
    ("another handle that is allowed", "HANDLES", "Wait", "Wait, Net"),
    ("another library of a crate", "crates.txt", "^ck_run: ", "ck_run: ck_shared "),
    ("a part of check that is gone", "check", "^(part|begin) .*\n", ""),
    ("a condition of module/tests/run that is gone", "module/tests/run", " && \\[ -s .* \\]", ""),
    ("a check in Rust that is gone", "crates/ck_run/src/tests/*.rt", "^ *assert.*\n", ""),
    ("a check in C that is gone", "module/tests/*.c", "^ *CHECK.*\n", ""),
    ("a check in Python that compares nothing", "module/tests/*.py", "checks[.]equal", "str"),
    ("another bound", "bench/growths.py", "^LEAST_OF_SHORT = .*", "LEAST_OF_SHORT = 0"),
    ("a condition of the build that is gone", "module/*.h", "^_Static_assert.*\n", ""),
    ("another law on its page", "docs/laws.md", "is sensitive at every later one", "may be read"),
]

# Changes that are wrong, also where the list shows them.
WRONG_CHANGES = [
    ("a clause of nothing", EDITS, "^clause: .*", "clause: nothing"),
    ("an edit of a text that isn't there", EDITS, "^old: ", "old: nothing"),
    ("an edit that changes nothing", EDITS, "^old: (.*)\nnew: .*", r"old: \1\nnew: \1"),
    ("tests that aren't started", "check", "^(part|begin) .* python3 tests/.*\n", ""),
    ("a test that isn't run", "crates/ck_run/src/tests/*.rt", "#.test.", "#[ignore] #[test]"),
    ("a check that only some builds have", "module/*.c", "^( *if [(].* == NULL[)]\\n)",
     r"#ifdef __SANITIZE_ADDRESS__\n\1#endif\n"),
    ("a status that is always 0", "check", "^.*failed. -eq 0 .*\n", "true\n"),
]

# Changes that the script of contracts must show: of its page, of a source, and of its examples.
CONTRACTS = "docs/contracts.py"
CONTRACT_CHANGES = [
    ("docs/contracts.md", "^ *ensures .*\n", ""),
    ("docs/contracts.md", "^ *requires .*\n", ""),
    ("crates/ck_types/src/*.rt", "^ *ensures .*\n", ""),
    ("docs/rust.md", "^    fn sign.*\n", ""),
    ("crates/ck_token/src/lib.rt", "^//! +token[.]try_call.*\n", ""),
    ("docs/threads.md", "^ +gate[.]call.*\n", ""),
    ("crates/ck_threads/src/main.rt", "^ +gate[.]call.*\n", ""),
]

# What is said of an edit with the clause `publish_board published`, and whether it is said of this
# clause: behind `refused, as it must be`.
REFUSALS = [
    (": note: src/locked.rt:{publish_board}:1: it is not proved that (`returns`)", True),
    (": note: src/locked.rt:{publish_board}:1: (`returns-in-Some-clause-published`)", True),
    (": note: src/locked.rt:{publish_board}:1: (`returns-in-Some-clause-publi", True),
    (": ./proofs/locked/publish_board/Answers.antt:1:1: error: `returns`", True),
    (": ./proofs/locked/publish_board/Answers.antt:1:1: error: `a_lemma`", True),
    (": ./proofs/locked/publish_board/Answers.antt:1:1: error: `loop-slot-preserved`", True),
    (": note: src/shared.rt:1:1: (`publish_board-requires-clause-published`)", True),
    (": note: src/locked.rt:{publish_board}:1: (`returns-in-Some-clause-board`)", False),
    (": note: src/locked.rt:{publish_board}:1: (`returns-in-Some-clause-boa", False),
    (": note: src/locked.rt:{publish_board}:1: (`invariant_of-self`)", False),
    (": note: src/locked.rt:{publish_board}:1: (`invariant_of-se", False),
    (": note: src/locked.rt:{publish_board}:1: (`overflow_add-count`)", False),
    (": note: src/locked.rt:{publish_board}:1: (`publish_slot-requires`)", False),
    (": note: src/locked.rt:{publish_board}:1: (`publish_slot-requires-clause-published`)", False),
    (": ./proofs/locked/publish_board/Answers.antt:1:1: error: `scope-returns`", False),
    (": ./proofs/publish_board/add_slot/Answers.antt:1:1: error: `returns`", False),
    (": note: src/locked.rt:{add_slot}:1: it is not proved that (`returns`)", False),
    (": ./proofs/locked/add_slot/Answers.antt:1:1: error: `returns`", False),
    (": note: src/shared.rt:1:1: (`add_slot-requires-clause-published`)", False),
    (": note: src/shared.rt:1:1: (`publish_board-requires-clause-history`)", False),
    (": note: src/shared.rt:1:1: (`publish_board-requires`)", False),
    (" (only by a limit): note: src/locked.rt:{publish_board}:1: (`returns`)", False),
    (" (only because a proof file): ./proofs/locked/publish_board/Answers.antt:1:1:", False),
    ("", False),
]
REFUSED = ("ck_shared", "refused_call_leaves_slot_pending")

# The same of other edits: of the invariant of the type Caller; of a function without a clause's
# name, `end_searches`; of the function `value_in` of a trait; of two that are listed as refused
# elsewhere, at a call, `apply-requires-clause-counted`, and in a lemma, `base_tries-same`; and of a
# law.
OF_CALLER = ("ck_callers", "a_caller_keeps_its_reply_before")
OF_SEARCHES = ("ck_sessions", "a_logout_leaves_the_search_of_the_first_session")
OF_TRAIT = ("ck_script", "a_pin_is_its_text")
OF_CALL = ("ck_token", "a_wrong_pin_behind_another_callers_try_is_not_counted")
OF_CUT = ("ck_journal", "definition_of_cuts_unlocks_the_security_officer")
OF_LAW = ("ck_journal", "definition_of_queries_gives_hidden_values")
OTHER_REFUSALS = [
    (OF_CALLER, ": ./proofs/callers/Caller/learn/Answers.antt:1:1: error: `invariant_of-self`",
     True),
    (OF_CALLER, ": ./proofs/callers/Caller/learn/Answers.antt:1:1: error: `returns`", False),
    (OF_CALLER, ": ./proofs/x/News/learn/Answers.antt:1:1: error: `invariant_of-self`", False),
    (OF_SEARCHES, ": ./proofs/rows/end_searches/Answers.antt:1:1: error: `returns-then-a`", True),
    (OF_SEARCHES, ": ./proofs/rows/end_searches/Answers.antt:1:1: error: `cut-requires`", False),
    (OF_TRAIT, ": ./proofs/arguments/Pin/value_in/Answers.antt:1:1: error: `returns`", True),
    (OF_TRAIT, ": ./proofs/arguments/Other/value_in/Answers.antt:1:1: error: `returns`", False),
    (OF_CALL, ": note: src/tokens.rt:1:1: (`apply-requires-clause-counted`)", True),
    (OF_CALL, ": note: src/tokens.rt:1:1: (`apply-requires-clause-room`)", False),
    (OF_CUT, ": ./proofs/CutBases.antt:1:1: error: `base_tries-same`", True),
    (OF_CUT, ": ./proofs/CutBases.antt:1:1: error: `base-alike`", False),
    (OF_CUT, " (only by a limit): ./proofs/CutBases.antt:1:1: error: `base_tries-same`", False),
    (OF_LAW, ": ./proofs/laws/hidden_values_are_not_given/Answers.antt:1:1: error: `a`", True),
    (OF_LAW, ": ./proofs/ValueLemmas.antt:1:1: error: `a_lemma`", True),
    (OF_LAW, ": ./proofs/Selections.antt:1:1: error: `a_lemma`", True),
    (OF_LAW, ": ./specs/Laws.antt:1:1: error: `a_law`", False),
    (OF_LAW, ": ./proofs/laws/pins_stay/Answers.antt:1:1: error: `returns`", False),
    (OF_LAW, ": ./proofs/PinLaws.antt:1:1: error: `a_lemma`", False),
    (OF_LAW, ": note: src/laws.rt:1:1: it is not proved that (`returns`)", False),
    (OF_LAW, " (only by a limit): ./proofs/ValueLemmas.antt:1:1: error: `a_lemma`", False),
]

NO_MEMORY = b"ck_run: out of memory\n"


def ended(status, output, errors=b""):
    return growths.Ended(status, output, errors, 9)


CASE = ended(0, b"t: 2 passed\n")
SCRIPT = ended(0, b"0\n0 1\n")
SUMMARY = ended(0, b"entries 2\naudit ok\n")


def is_case_right(end):
    return growths.is_case_right(end, "t", CASE)


def is_script_right(end):
    return growths.is_script_right(end, SCRIPT)


def is_summary_right(end):
    return growths.is_summary_right(end, SUMMARY)


# How a case, a script and a script in threads may end where a growth is refused, and how not.
RIGHT_ENDS = [
    (is_case_right, CASE),
    (is_case_right, ended(0, b"t: 2 passed, 1 made again\n")),
    (is_case_right, ended(1, b"t: out of memory\n")),
    (is_case_right, ended(1, b"", b"Error: out of memory\n")),
    (is_script_right, SCRIPT),
    (is_script_right, ended(3, b"0\n", NO_MEMORY)),
    (is_summary_right, SUMMARY),
    (is_summary_right, ended(3, b"", NO_MEMORY)),
    (growths.is_started_right, ended(0, b"scripts with a thread: 3\n")),
    (growths.is_started_right, ended(0, b"scripts with a thread: 2\n")),
    (growths.is_started_right, ended(1, b"", b"Error: out of memory\n")),
    (growths.is_started_right, ended(1, b"")),
]
WRONG_ENDS = [
    (is_case_right, ended(1, CASE.output)),
    (is_case_right, ended(0, b"t: 1 passed\n")),
    (is_case_right, ended(0, b"t: 1 passed, 1 made again\n")),
    (is_case_right, ended(0, b"t: out of memory\n")),
    (is_case_right, ended(-1, b"")),
    (is_case_right, ended(1, b"", b"Error: line 1\n")),
    (is_case_right, ended(1, b"t: out of memory a second time\n")),
    (is_case_right, ended(1, b"", b"Error: out of memory a second time\n")),
    (is_script_right, ended(0, b"0\n")),
    (is_script_right, ended(0, SCRIPT.output, NO_MEMORY)),
    (is_script_right, ended(3, b"0", NO_MEMORY)),
    (is_script_right, ended(3, b"0\nb3\n", NO_MEMORY)),
    (is_script_right, ended(3, b"0\n", b"ck_run: write fault\n")),
    (is_script_right, ended(-1, b"0\n", NO_MEMORY)),
    (is_script_right, ended(1, SCRIPT.output, NO_MEMORY)),
    (is_script_right, ended(-1, SCRIPT.output, NO_MEMORY)),
    (is_summary_right, ended(0, b"entries 1\naudit ok\n")),
    (is_summary_right, ended(3, SUMMARY.output, NO_MEMORY)),
    (is_summary_right, ended(3, b"entries 1\n", NO_MEMORY)),
    (is_summary_right, ended(3, b"", b"ck_run: read fault\n")),
    (growths.is_started_right, ended(0, b"scripts with a thread: 1\n")),
    (growths.is_started_right, ended(0, b"")),
    (growths.is_started_right, ended(0, b"scripts with a thread: 3\n", b"Error: a call\n")),
    (growths.is_started_right, ended(1, b"scripts with a thread: 2\n")),
    (growths.is_started_right, ended(1, b"", b"Error: not an entry for each call\n")),
    (growths.is_started_right, ended(-1, b"")),
]


# The lines of growths.py that are bad and take memory for their arguments.
BAD_ARGUMENTS = '*" xx" | *" x "* | *g | *=616 | *:6" "*'

# A program that plays cases, a script, a script in threads, a race and calls with reserved room as
# it must, and says that it has this many growths for each line, one more for a script with a
# creation and for such a line, and two more where one is refused. There it first does something
# else, and where a second one is refused, it says that what is made again finds no memory either,
# or that something else is made again, too.
GROWING = """\
shift
for file; do :; done
lines=1 more=0
bare=0 without=""
[ -f "$file" ] && lines=$(/bin/grep -vc "^limits" "$file")
[ -f "$file" ] && bare=$(/bin/grep -c "^1 GetTokenInfo$" "$file")
[ $bare = 0 ] || without=", $bare without a reply"
script=$(/bin/cat)
case "$*$script" in 1*Create*) more=1 ;; esac
case "$script" in BAD_ARGUMENTS) more=1 ;; esac
[ "${REFUSED_GROWTH:-0}" = 0 ] || more=$((more + 2))
printf $((%s * lines + more)) >&3
[ "$REFUSED_GROWTH $REFUSED_FROM" = "0 0" ] || { %s; }
case "$REFUSED_SECOND" in
0) ;;
*7) again=", 2 made again" ;;
*) echo "$file: out of memory a second time"; exit 1 ;;
esac
case "$* $REFUSED_GROWTH" in
"--callers 1 1" | "--callers 2 1" | "--callers 2 2")
    echo "ck_run: thread not started" >&2; exit 3 ;;
"scripts "[123]) echo "scripts with a thread: 2"; exit ;;
esac
case "$script" in BAD_ARGUMENTS | *xx | *Update*) echo "ck_run: bad line" >&2; exit 1 ;; esac
case "$*" in
"") echo "0 4 64 0 0" ;;
scripts) echo "scripts with a thread: 3" ;;
--callers*) echo "entries 1"; echo "audit ok" ;;
reserve*) ;;
--help | --nothing) echo "a text" ;;
*) echo "$file: $((lines - bare)) passed$without$again" ;;
esac
""".replace("BAD_ARGUMENTS", BAD_ARGUMENTS)
MADE_AGAIN = 'again=", 1 made again"'
GROWING_CASE = [growths.LARGEST, "1 GetTokenInfo -> 0 4 64 0 0"]

# Of each of these: how many growths are refused, after how many something is made again, and how
# many faults are found where the program is wrong then.
GROWING_ENDS = [(9, 9, 9), (9, 0, 9), (9, 0, 9), (9, 9, 9), (0, 0, 1), (9, 0, 10)]

# How many growths the program has for each line, what it does where one is refused, and how many
# faults are found of what it counts. First it is right, and then it forgets what was made again in
# the case before, has no more growths with a cut than without, or many with one that is refused.
COUNTING = [
    ("9", MADE_AGAIN, [0, 0, 0]),
    ("9", f'[ $(/bin/grep -c "^limits" "$file") = 2 ] || {MADE_AGAIN}', [1, 0, 0]),
    ("9 / lines", MADE_AGAIN, [0, 1, 0]),
    ("""(9 + 9 * $(/bin/grep -c "^cut -> a" "$file"))""", MADE_AGAIN, [0, 0, 1]),
]

# What a program does where a growth is refused, and how many faults are found of what is made
# again. First it is right, and then it makes nothing again, counts it before the lines without a
# reply, and makes all again at each time.
RETRYING = [
    (MADE_AGAIN, [0, 0]),
    ('echo "$file: out of memory"; exit 1', [1, 1]),
    (f'{MADE_AGAIN}; [ $bare = 0 ] || {{ echo "$file: 1 passed$again$without"; exit; }}',
     [7, 0]),
    (f'{MADE_AGAIN}; [ "$REFUSED_SECOND" = 0 ] || {{ echo "$file: $lines passed$again"; exit; }}',
     [0, 19]),
]

# A program that writes texts as it must, and says that it has this many growths. Where one of them
# is refused it first does something else.
TELLING = """\
shift
script=$(/bin/cat)
printf %s >&3
[ "$REFUSED_GROWTH" = 0 ] || { %s; }
case "$* $REFUSED_GROWTH" in
"--callers 1 1" | "--callers 2 1" | "--callers 2 2")
    echo "ck_run: thread not started" >&2; exit 3 ;;
esac
case "$script" in BAD_ARGUMENTS | *xx | *Update*) echo "ck_run: bad line" >&2; exit 1 ;; esac
case "$*$script" in
--help) echo "how it is used" ;;
--nothing) echo "ck_run: bad arguments" >&2; exit 2 ;;
*Logn*) echo "ck_run: line 1: bad, the nearest is Login" >&2; exit 1 ;;
esac
""".replace("BAD_ARGUMENTS", BAD_ARGUMENTS)

# How many growths it has, what it does where one is refused, and how many faults are found. First
# it is right: with a creation, or a bad line that takes memory for its arguments, it has one growth
# more, which it passes over.
ENOUGH = f'$(case "$script" in *Create* | {BAD_ARGUMENTS}) echo 10 ;; *) echo 9 ;; esac)'
TOLD = [
    (ENOUGH, ":", [0, 0, 0, 0, 0, 0, 0, 0, 0]),
    (ENOUGH, f'case "$script" in {BAD_ARGUMENTS}) echo "ck_run: out of memory" >&2; exit 3 ;; esac',
     [0, 0, 5, 0, 0, 0, 0, 0, 0]),
    (ENOUGH, f'case "$script" in {BAD_ARGUMENTS}) echo "ck_run: bad" >&2; exit 1 ;; esac',
     [0, 0, 5, 0, 0, 0, 0, 0, 0]),
    ("9", ":", [0, 1, 5, 0, 0, 0, 0, 0, 0]),
    ("9", 'echo "ck_run: out of memory" >&2; exit 3', [0, 1, 5, 0, 0, 0, 0, 1, 1]),
    ("9", 'echo "ck_run: line 1: bad" >&2; exit 1', [0, 1, 5, 0, 9, 9, 0, 1, 1]),
    ("9", "exit 0", [0, 1, 5, 0, 9, 9, 9, 1, 1]),
    ("0", ":", [5, 1, 5, 1, 1, 1, 1, 1, 1]),
    ('$(case "$script" in *11:?* | *"Object 2"* | *"Key 2"* | *"Value 2"*) echo 8 ;; *) echo 9 ;; '
     'esac)', ":", [5, 1, 5, 0, 0, 0, 0, 0, 0]),
    ('$(case "$script" in *Info*Info*Info*) echo 8 ;; *) echo 9 ;; esac)', ":",
     [0, 1, 5, 1, 0, 0, 0, 0, 0]),
    ("9", '[ $# != 2 ] || { echo "ck_run: thread not started" >&2; exit 3; }',
     [0, 1, 5, 0, 0, 0, 0, 1, 1]),
]

# What scripts of three callers say where a growth is refused, and how many faults are found: first
# it is right, and then two of them have no thread, or only once none.
THREADS_LACKING = [
    (":", 0),
    ('[ "$REFUSED_GROWTH" != 1 ] || { echo "scripts with a thread: 1"; exit; }', 2),
    ('case "$REFUSED_GROWTH" in [23]) echo "scripts with a thread: 3"; exit ;; esac', 1),
]

# What is wrong then.
WRONG_GROWING = ["echo nonsense; exit 1", "echo nonsense; exit 3", "kill -9 $$"]


@contextlib.contextmanager
def unseen():
    """What is written isn't shown. Gives what goes to standard output."""
    with contextlib.redirect_stdout(io.StringIO()) as output:
        with contextlib.redirect_stderr(io.StringIO()):
            yield output


def write_program(folder, text, right):
    """A program that does this, with the right program for `$1`."""
    path = os.path.join(folder, "program")
    with open(path, "w", encoding="utf-8") as file:
        file.write(f'#!/bin/sh\nset -- "{os.path.abspath(right)}" "$@"\n{text}\n')
    os.chmod(path, 0o700)
    return path


def is_test(function, module):
    """Whether this is a function of the module that is given its tests, and nothing else."""
    return (inspect.isfunction(function) and function.__module__ == module.__name__
            and [*inspect.signature(function).parameters] == ["tests"])


def tests_of(module):
    return [it for it in vars(module).values() if is_test(it, module)]


def words_of(module, test, path):
    """How the lines begin that a test writes of this program."""
    with unseen() as output:
        test(TESTS.get(module, program.Tests)(path))
    return {line.split(" ")[0] for line in output.getvalue().splitlines()}


def passes(words):
    return bool(words) and words <= {"passed", "skipped"}


def fails(words):
    return bool(words) and "passed" not in words


def judge(checks, module, path, what, blind=()):
    """Each test of the module by itself, except those that look at something else. It fails on this
    program, except these, which can't see what is wrong."""
    for test in tests_of(module):
        if test not in OTHERS:
            words = words_of(module, test, path)
            is_right = passes(words) if test in blind else fails(words)
            checks.expect(is_right, f"{test.__name__} of {module.__name__}.py on {what}: {words}")


def wrong_programs(checks):
    with tempfile.TemporaryDirectory() as folder:
        for module in TESTS:
            path = write_program(folder, RIGHT, module.PROGRAM)
            judge(checks, module, path, "a right program", tests_of(module))
            for wrong, text in WRONG.items():
                path = write_program(folder, text, module.PROGRAM)
                judge(checks, module, path, f"a program with {wrong}", SILENT.get(wrong, []))
    checks.end("programs that are wrong in one thing")


def wrong_programs_for_one(checks):
    with tempfile.TemporaryDirectory() as folder:
        for test, text in WRONG_FOR_ONE:
            words = words_of(program, test, write_program(folder, text, program.PROGRAM))
            checks.expect(fails(words), f"{test.__name__} of program.py on {text}: {words}")
    checks.end("programs that are wrong where one test looks")


def idle_programs(checks):
    for module in TESTS:
        with unseen():
            status = module.main("/bin/true")
        checks.expect(status == 1, f"{module.__name__}.py passes on a program that does nothing")
        judge(checks, module, "/bin/true", "a program that does nothing")
    with unseen(), mock.patch.multiple(speed, **FEW_OBJECTS):
        status = speed.main("/bin/true")
    checks.expect(status == 1, "speed.py passes on a program that does nothing")
    for module in (*TESTS, speed):
        source = inspect.getsource(module.main)
        made = set(re.findall(r"^    (\w+)\(tests\)$", source, re.MULTILINE))
        wanted = {test.__name__ for test in tests_of(module)}
        checks.expect(made == wanted, f"main of {module.__name__}.py: {made ^ wanted}")
    checks.end("a program that does nothing")


def slow_programs(checks):
    with tempfile.TemporaryDirectory() as folder, mock.patch.multiple(speed, **FEW_OBJECTS):
        long_lines = [speed.long_values, speed.early_digests, speed.single_digests]
        others = [test for test in tests_of(speed) if test not in long_lines]
        for text, tests in ((SLOW, others), (SLOW_AMONG_FEW, [speed.even_times]),
                            (SLOW_FOR_LONG, long_lines)):
            path = write_program(folder, text, "/bin/true")
            for test in tests:
                words = words_of(speed, test, path)
                checks.expect(fails(words), f"{test.__name__} of speed.py on {text}: {words}")
    for judge_times, examples in ((speed.grows_evenly, GROWING_TIMES),
                                  (speed.is_faster_by_label, TIMES_OF_SEARCHES),
                                  (speed.takes_no_copies, TIMES_OF_LENGTHS),
                                  (speed.is_told_early, TIMES_OF_DIGESTS),
                                  (speed.is_fast_enough, TIMES_OF_HASHING),
                                  (speed.are_short, TIMES_OF_SHORT_CALLS)):
        for times, is_right in examples:
            checks.expect(judge_times(*times) == is_right, f"{judge_times.__name__} of {times}")
    checks.end("a program that takes ever more time for a call, or too much for a few")


def wrong_times(checks):
    bench = figures.BENCH
    times = [f"{name}: 1 ns\n" for where, name in figures.FIGURES if where == "threads"]
    messages = [f"{name}{what}: 1 ns\n" for name in figures.TAKING_CALLS
                for what in ("", ", only hashed")]
    short = [f"{name}: 1 ns\n" for name in figures.SHORT_CALLS]
    with tempfile.TemporaryDirectory() as folder:
        for test, output, is_right in (
                *((figures.times_of_calls, *it) for it in BENCH_TIMES),
                (figures.times_of_messages, "".join(messages), True),
                *((figures.times_of_messages, "".join(messages).replace(it, ""), False)
                  for it in messages),
                (figures.times_by_lock, "".join(short), True),
                *((figures.times_by_lock, "".join(short).replace(it, ""), False) for it in short),
                (figures.asks_behind_many_calls, "".join(times), True),
                *((figures.asks_behind_many_calls, "".join(times).replace(it, ""), False)
                  for it in times)):
            figures.BENCH = figures.program_of(folder, output)
            words = words_of(figures, test, figures.PROGRAM)
            checks.expect((passes if is_right else fails)(words), f"{output}: {words}")
    figures.BENCH = bench
    once = {line.removesuffix(": 1 ns\n"): [100] for line in messages}
    for name in figures.TAKING_CALLS:
        for tries, is_right in TIMES_OF_MESSAGES:
            times = {**once, name: tries}
            checks.expect(figures.are_hashed_once(times) == is_right, f"messages: {times}")
    fast = {name: [100] for name in figures.SHORT_CALLS}
    for name in fast:
        for tries, is_right in TIMES_BY_LOCK:
            checks.expect(figures.are_fast_by_lock(fast, {**fast, name: tries}) == is_right,
                          f"by the lock: {name}, {tries}")
    checks.end("a program of figures whose times aren't those of the calls")


def no_checks(checks):
    tests = program.Tests("/bin/true")
    with unseen():
        tests.end("no check")
    checks.expect(tests.status() == 1, "a test without a check passes")
    checks.end("a test without a check")


def read(path):
    with open(path, encoding="utf-8", newline="\n") as file:
        return file.read()


def write(path, text):
    with open(path, "w", encoding="utf-8", newline="\n") as file:
        file.write(text)


def change(copy, pattern, old, new):
    """Changes a file of a copy as `CHANGES` says. Gives its path there, and its text before."""
    paths = sorted(glob.glob(os.path.join(copy, pattern)))
    path = next(path for path in paths if re.search(old, read(path), re.MULTILINE))
    text = read(path)
    if new is None:
        os.remove(path)
    else:
        write(path, re.sub(old, new, text, count=1, flags=re.MULTILINE))
    return path, text


def run_script(copy, path, *words):
    """What a script of a copy of the repository says: its status, and its text."""
    run = subprocess.run([sys.executable, os.path.join(copy, path), *words], capture_output=True,
                         timeout=program.SECONDS, text=True)
    return run.returncode, run.stdout + run.stderr


def say_of_checks(copy, *words):
    return run_script(copy, os.path.join("tests", "inventory.py"), *words)


def check_noticed(checks, folder, changes):
    """Each of these changes of a folder is noticed by its test, on a right program."""
    for test, *change_of in changes:
        path, text = change(folder, *change_of)
        checks.expect(read(path) != text, f"{change_of} changes nothing")
        words = words_of(rules, test, rules.PROGRAM)
        checks.expect(fails(words), f"{test.__name__} on another {change_of}: {words}")
        write(path, text)


def changed_pages(checks):
    with tempfile.TemporaryDirectory() as folder:
        pages = shutil.copytree(rules.DOCS, os.path.join(folder, "docs"))
        shutil.copy(os.path.join(ROOT, "README.md"), folder)
        shutil.copytree(os.path.join(ROOT, "module"), os.path.join(folder, "module"),
                        ignore=shutil.ignore_patterns("out", "tests"))
        shutil.copytree(os.path.join(ROOT, "tests"), os.path.join(folder, "tests"))
        crates = shutil.copytree(rules.CRATES, os.path.join(folder, "crates"),
                                 ignore=shutil.ignore_patterns("out", "must-fail", "proofs"))
        with mock.patch.object(rules, "DOCS", pages):
            words = words_of(rules, rules.links, rules.PROGRAM)
            checks.expect(passes(words), f"links of copied pages: {words}")
            check_noticed(checks, pages, PAGES)
        with mock.patch.object(rules, "CRATES", crates):
            check_noticed(checks, crates, SOURCES)
    checks.end("changes of pages, and of sources with which they agree")


def check_change(checks, copy, front, what, *change_of):
    """A change is told by lines that begin so. One that is wrong is so where it is listed, too."""
    path, text = change(copy, *change_of)
    listed = os.path.join(copy, "tests", "inventory.txt")
    list_before = read(listed)
    if front == "wrong: ":
        say_of_checks(copy, "write")
    status, said = say_of_checks(copy)
    lines = [line for line in said.splitlines() if line.startswith(front)]
    is_told = any(os.path.relpath(path, copy) in line for line in lines)
    checks.expect(status == 1 and is_told, f"{what}: status {status}, {said}")
    write(path, text)
    write(listed, list_before)


def check_moved_definition(checks, copy):
    """A file of definitions that is moved into a folder is listed there."""
    path = sorted(glob.glob(os.path.join(copy, "crates/*/specs/*.antt")))[0]
    moved = os.path.join(os.path.dirname(path), "more", os.path.basename(path))
    os.renames(path, moved)
    _, said = say_of_checks(copy)
    is_told = f"not listed: definition: {os.path.relpath(moved, copy)} " in said
    checks.expect(is_told, f"definitions in a folder: {said}")
    os.renames(moved, path)


def check_contract_change(checks, copy, *change_of):
    """A change of what contracts.py writes or compares is told."""
    path, text = change(copy, *change_of)
    status, said = run_script(copy, CONTRACTS, "check")
    checks.expect(status == 1, f"{change_of}: status {status}, {said}")
    write(path, text)


def changes(checks):
    with tempfile.TemporaryDirectory() as folder:
        copy = os.path.join(folder, "copy")
        shutil.copytree(ROOT, copy, ignore=shutil.ignore_patterns(".git", "out", "__pycache__"))
        status, said = say_of_checks(copy)
        checks.expect(status == 0, f"a copy of the repository: {said}")
        for what in CHANGES:
            check_change(checks, copy, ("gone or changed: ", "not listed: "), *what)
        for what in WRONG_CHANGES:
            check_change(checks, copy, "wrong: ", *what)
        check_moved_definition(checks, copy)
        status, said = run_script(copy, CONTRACTS, "check")
        checks.expect(status == 0, f"the contracts of the copy: {said}")
        for what in CONTRACT_CHANGES:
            check_contract_change(checks, copy, *what)
        status, said = say_of_checks(copy)
        checks.expect(status == 0, f"the copy as it was: {said}")
    checks.end("changes of checks")


def uncounted_parts(checks):
    """What stands in `check` before its first part, with each of these changes."""
    front = read(os.path.join(ROOT, "check")).partition("\npart ")[0]
    with tempfile.TemporaryDirectory() as folder:
        for old, new, status in UNCOUNTED:
            path = os.path.join(folder, "check")
            write(path, front.replace(old, new, 1) + "\n")
            ended = subprocess.run(["bash", path], capture_output=True, timeout=program.SECONDS)
            checks.expect(old in front and ended.returncode == status,
                          f"check with {new}: status {ended.returncode}")
    checks.end("a script of checks that doesn't count how a part ends")


def ends(checks):
    for is_right, end in RIGHT_ENDS:
        checks.expect(is_right(end), f"{end} is refused")
    for is_right, end in WRONG_ENDS:
        checks.expect(not is_right(end), f"{end} passes")
    checks.end("how a program ends whose growth is refused")


def refused_growths(checks):
    cases = os.path.join(growths.CRATES, "ck_cases", "data", "first.cases")
    growths.CASES = growths.SCRIPTS = growths.RACES = "/bin/true"
    with unseen():
        without_cases, idle = growths.main([], []), growths.main([cases], [])
    checks.expect(without_cases == 1, "no case passes")
    checks.expect(idle == 1, "a program that does nothing passes")
    with mock.patch.object(growths, "SECONDS", 0.1):
        hanging = growths.play("", ["/bin/sleep", "99"], b"", 0)
    checks.expect(hanging.status == -1, f"a program that doesn't end: {hanging}")
    checks.end("refused growths of a program that does nothing")


def growths_of(folder, count, refused):
    """How many growths are refused, how often something is made again, and how many faults are
    found, of each kind, where the program has this many growths and does this where one is refused.
    """
    path = write_program(folder, GROWING % (count, refused), "/bin/true")
    growths.CASES = growths.SCRIPTS = growths.RACES = path
    made = [*growths.checks_of_case("", "a case", GROWING_CASE, 1),
            *growths.checks_of_races("", [(1, ["race"])], 1)]
    results = [check(*arguments) for check, *arguments in made]
    return [(numbers, retries, len(faults)) for numbers, retries, faults in results]


def faults_of_counts(folder, count, refused):
    """How many faults are found of what a program counts that has this many growths for each line,
    and does this where one is refused."""
    growths.CASES = write_program(folder, GROWING % (count, refused), "/bin/true")
    growths.CUT_CALLS = 9
    return [len(check(*arguments)[2]) for check, *arguments in growths.checks_of_counts("")]


def faults_of_retries(folder, refused):
    """How many faults are found of what a program makes again that has three growths for each line,
    and does this where one is refused."""
    growths.CASES = write_program(folder, GROWING % ("3", refused), "/bin/true")
    return [len(check(*arguments)[2]) for check, *arguments in growths.checks_of_retries("")]


def faults_of_scripts(folder, count, refused):
    """How many faults are found of a program's texts that has this many growths, and does this
    where one is refused."""
    growths.SCRIPTS = write_program(folder, TELLING % (count, refused), "/bin/true")
    return [len(check(*arguments)[2]) for check, *arguments in growths.checks_of_scripts("")]


def faults_of_threads(folder, refused):
    """How many faults are found of scripts, one of which has no thread, in a program that does this
    where a growth is refused."""
    growths.RACES = write_program(folder, GROWING % ("9", refused), "/bin/true")
    return len(growths.check_some_threads("")[2])


def status_of_short(path, least, least_again):
    """How growths.py ends with the argument `short`, where this many growths must be refused, and
    something made again after this many."""
    growths.LEAST_OF_SHORT, growths.LEAST_MADE_AGAIN = least, least_again
    with unseen():
        return growths.main([path], [], is_short=True)


def judged_growths(checks):
    growths.build = lambda folder: ""
    with tempfile.TemporaryDirectory() as folder:
        for refused in WRONG_GROWING:
            came = [faults for _, _, faults in growths_of(folder, 9, refused)]
            checks.expect(came == [faults for _, _, faults in GROWING_ENDS], f"{refused}: {came}")
        came = growths_of(folder, 0, MADE_AGAIN)
        checks.expect(came == [(0, 0, 1)] * len(GROWING_ENDS), f"without growths: {came}")
        for count, refused, faults in COUNTING:
            came = faults_of_counts(folder, count, refused)
            checks.expect(came == faults, f"{count}, {refused}: {came} faults of counts")
        for refused, faults in RETRYING:
            came = faults_of_retries(folder, refused)
            checks.expect(came == faults, f"{refused}: {came} faults of what is made again")
        for count, refused, faults in TOLD:
            came = faults_of_scripts(folder, count, refused)
            checks.expect(came == faults, f"{count}, {refused}: {came} faults of texts")
        for refused, faults in THREADS_LACKING:
            came = faults_of_threads(folder, refused)
            checks.expect(came == faults, f"{refused}: {came} faults of threads")
        came = growths_of(folder, 9, MADE_AGAIN)
        checks.expect(came == [(*ends, 0) for *ends, _ in GROWING_ENDS], f"made again: {came}")
        path = os.path.join(folder, "a.cases")
        write(path, "\n".join(GROWING_CASE) + "\n")
        for least, least_again, status in ((1, 1, 0), (999, 1, 1), (1, 999, 1)):
            came = status_of_short(path, least, least_again)
            checks.expect(came == status, f"{least} growths, {least_again} made again: {came}")
    checks.end("refused growths of a program that is wrong when they are refused")


def passed_over(checks):
    firsts = {growths.refused_numbers(f"case {number}", 9, 4)[0] for number in range(99)}
    checks.expect(firsts == {1, 2, 3, 4}, f"the first growths of 9 that are refused: {firsts}")
    checks.expect([*growths.refused_numbers("a case", 9, 1)] == [*range(1, 10)],
                  "not each growth is refused")
    checks.end("which growths are refused, where not all are")


def refused_edits(checks):
    path = os.path.join(ROOT, "crates", REFUSED[0], "src", "locked.rt")
    lines = {name: first for first, name in refusals.functions_of(path)}
    for said, is_right in REFUSALS:
        said = said.format(**lines)
        checks.expect(refusals.is_refused(*REFUSED, said) == is_right, f"{REFUSED}: {said}")
    for edit, said, is_right in OTHER_REFUSALS:
        checks.expect(refusals.is_refused(*edit, said) == is_right, f"{edit}: {said}")
    output = "rt: must-fail {}/{}.edit: refused, as it must be".format(*REFUSED)
    faults = list(refusals.faults_in(output))
    checks.expect(len(faults) == len(glob.glob(os.path.join(ROOT, EDITS))),
                  f"of edits without a verdict: {faults}")
    with mock.patch.dict(refusals.ELSEWHERE, {"ck_shared/no_edit": ("returns", "")}):
        checks.expect(len(list(refusals.faults_in(output))) == len(faults) + 1, "a listed edit")
    checks.end("edits that aren't refused at their clauses")


def programs_not_run(checks):
    """What `rt ci` says of programs and tests that it runs, with one line left out, and nothing."""
    lines = [f"rt: {name} ran{builder}, and wrote what its file stdout has"
             for name in ("ck_bench", "ck_cases", "ck_races", "ck_run", "ck_threads")
             for builder in ("", " (built by Rattle's own compiler)")]
    lines.append("rt: ck_run: its tests passed")
    missing = list(refusals.programs_not_run("\n".join(lines)))
    checks.expect(missing == [], f"all programs are run: {missing}")
    for line in lines:
        missing = list(refusals.programs_not_run("\n".join(it for it in lines if it != line)))
        checks.expect(len(missing) == 1, f"without {line}: {missing}")
    with tempfile.NamedTemporaryFile("w", suffix=".log") as log, unseen():
        checks.expect(refusals.main(log.name) == 1, "a run of rt ci that says nothing passes")
        with mock.patch.object(refusals, "faults_in", lambda output: []):
            checks.expect(refusals.main(log.name) == 1, "a run without programs passes")
            log.write("\n".join(lines))
            log.flush()
            checks.expect(refusals.main(log.name) == 0, "a run of all programs doesn't pass")
        with mock.patch.object(refusals, "faults_in", lambda output: ["a fault"]):
            checks.expect(refusals.main(log.name) == 1, "an edit that isn't refused passes")
    checks.end("programs that rt ci doesn't run")


def main():
    checks = program.Checks("noticing")
    program.MANY = program.MANY_SESSIONS = FEW_CALLS
    program.MANY_ENTRIES = program.HANDLE_SEARCHES = FEW_CALLS
    wrong_programs(checks)
    wrong_programs_for_one(checks)
    idle_programs(checks)
    slow_programs(checks)
    wrong_times(checks)
    no_checks(checks)
    ends(checks)
    refused_edits(checks)
    programs_not_run(checks)
    refused_growths(checks)
    judged_growths(checks)
    passed_over(checks)
    changed_pages(checks)
    uncounted_parts(checks)
    changes(checks)
    return checks.status()


if __name__ == "__main__":
    sys.exit(main())
