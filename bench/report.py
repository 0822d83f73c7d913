#!/usr/bin/env python3
"""Prints all figures, then tests the targets: called by bench/run. Status 1 where a target is missed or a list is wrong."""
import os
import shutil
import sys

from lexers import KIT, SQLITE_SOURCE, UNPROVED, compile_library, is_archives
from literals import all_done, figures as of_literals
from machines import M4, OUT, X86, Missing, run
from packets import above, figures as in_parts, same_tokens
from readings import a_step, code, figures, same_lexemes
from space import linked, sizes, stacks
from speed import CHECKS, a_record, checks, cuts, growth, instructions, length, pairings, profile, same_lists, slices, total

MOST_STACK = 768  # bytes
MOST_LOOKUP = 2400  # bytes
MOST_INSTRUCTIONS = {X86: 55.8, M4: 69}  # a byte
MOST_OF_STRING = 9  # instructions a byte
MOST_OF_CHECK = {X86: 66, M4: 86}  # a byte
MOST_PAIR_STACK = 2400  # bytes
MOST_OF_PAIRING = {"sync": {X86: 30, M4: 38}, "brackets": {X86: 68, M4: 77}}  # a record
MOST_GROWTH = 1  # percent from linear
MOST_STEP = 30  # instructions
MOST_STEPS_CODE = 2600  # bytes
MOST_STREAM_STACK = 1024  # bytes
MOST_LITERAL_STACK = 768  # bytes
MOST_ABOVE_NEXT = {20: 75, 1: 120}  # instructions a byte, by the size of the parts


def part(title, measure, *arguments):
    print(f"\n== {title}", flush=True)
    try:
        return measure(*arguments)
    except Missing as why:
        print(f"SKIPPED: {why}")


def versions():
    print(f"host: {os.uname().machine}; {run('rt', 'version').strip()}")
    commands = [KIT / "clang", "rustc", X86.compiler, M4.compiler, X86.emulator, M4.emulator]
    for command in [command for command in commands if shutil.which(command)]:
        print(f"{os.path.basename(command)}: {run(command, '--version').splitlines()[0]}")
    for source in (OUT / "rustc/usr/src").glob("rustc-*"):
        print(f"the Rust for the Cortex-M4: {source.name}")
    version = SQLITE_SOURCE / "VERSION"
    print("SQLite:", f"source of {version.read_text().strip()}" if version.exists() else "the installed library, if any")
    if UNPROVED:
        print("UNPROVED: what is measured was compiled from its source as it stands; nothing says that it keeps its bounds")
    elif not is_archives(compile_library(X86, OUT / "again.o")):
        raise SystemExit("bench: FAIL: the kept module, compiled again, is not the object in the archive")
    else:
        print("the kept module, compiled again with the kit's flags, is the archive's object byte for byte")


def test(what, value, most):
    print(f"{'PASS' if value <= most else 'FAIL'}  {what}: {value}, at most {most}")
    return value <= most


def try_test(what, measure, most):
    try:
        return test(what, measure(), most)
    except Missing as why:
        print(f"SKIPPED  {what}: {why}")
        return True


def a_byte(machine, lexer, name):
    return round(total(machine, lexer, name) / length(name), 2)


def main():
    part("Versions", versions)
    part("The lists", same_lists)
    ours = ["List", "List:sqlite"]
    part("Instructions a byte, x86-64", instructions, X86, ours if UNPROVED else [*ours, "Rust", "Rust+", "SQLite"])
    part("Instructions a byte, Cortex-M4", instructions, M4, ours if UNPROVED else [*ours, "Rust", "SQLite"])
    for machine in X86, M4:
        part(f"The cut of all statements, instructions a byte of the text sync, {machine.name}", cuts, machine)
    for machine in X86, M4:
        part(f"A list without TK_NONE, in slices, instructions a byte of the text sync, {machine.name}", slices, machine)
    for machine in X86, M4:
        part(f"The check of List's records, instructions a byte, {machine.name}", checks, machine)
    for machine in X86, M4:
        part(f"The pairing of the brackets of List's records, instructions, {machine.name}", pairings, machine)
    part("The walk by step", same_lexemes)
    for machine in X86, M4:
        part(f"The walk by step, instructions of the text sync, {machine.name}", figures, machine)
    part("Packet by packet", same_tokens)
    for machine in X86, M4:
        part(f"Packet by packet, instructions a byte, {machine.name}", in_parts, machine)
    part("Literals", all_done)
    for machine in X86, M4:
        part(f"Literals, instructions, {machine.name}", of_literals, machine)
    worst = part("How List grows, x86-64: one text once, twice and four times", growth)
    bounds = [part(f"Stack in bytes, {machine.name}", stacks, machine) for machine in (X86, M4)]
    _, lookup = [part(f"Code size in bytes, {machine.name}", sizes, machine) for machine in (X86, M4)]
    part("Code size in bytes, Cortex-M4: what List adds to a program", linked, M4)
    for machine in X86, M4:
        part(f"List by function, text sync, {machine.name}", profile, machine)
    print("\n== Targets")
    calls, pairs, streams, literals = (max(of_both) for of_both in zip(*bounds))
    good = test("stack bound of a whole call that lexes, in bytes, both machines", calls, MOST_STACK)
    good &= test("stack bound of the pairing of brackets, in bytes, both machines", pairs, MOST_PAIR_STACK)
    good &= test("stack bound of a stream's call, in bytes, both machines", streams, MOST_STREAM_STACK)
    good &= test("stack bound of a call that reads or writes a literal, in bytes, both machines", literals, MOST_LITERAL_STACK)
    good &= test("the lookup of a word with its tables, in bytes, Cortex-M4", lookup, MOST_LOOKUP)
    for machine, most in MOST_INSTRUCTIONS.items():
        for lexer in ours:
            good &= try_test(f"{lexer}, instructions a byte of the text sync, {machine.name}", lambda: a_byte(machine, lexer, "sync"), most)
    for lexer in ours:
        what = f"{lexer}, instructions a byte of one string of {length('string'):,} bytes, x86-64"
        good &= try_test(what, lambda: a_byte(X86, lexer, "string"), MOST_OF_STRING)
    for machine, most in MOST_OF_CHECK.items():
        for lexer in CHECKS:
            what = f"{lexer} of List's records, instructions a byte of the text sync, {machine.name}"
            good &= try_test(what, lambda: a_byte(machine, lexer, "sync"), most)
    for name, each in MOST_OF_PAIRING.items():
        for machine, most in each.items():
            what = f"the pairing of brackets, instructions a record of the text {name}, {machine.name}"
            good &= try_test(what, lambda: round(a_record(machine, name), 2), most)
    good &= try_test("a step, instructions as a function of its own, text sync, x86-64", lambda: a_step(X86), MOST_STEP)
    good &= try_test("the walk by step, bytes of code, Cortex-M4", lambda: code(M4), MOST_STEPS_CODE)
    for size, most in MOST_ABOVE_NEXT.items():
        good &= try_test(f"parts of {size}, instructions a byte of the text sync above a walk of Next, x86-64", lambda: above(X86, size), most)
    if worst is None:
        print("SKIPPED  growth: nothing was counted")
    else:
        good &= test("growth of List, percent from linear, x86-64", round(worst, 4), MOST_GROWTH)
    return 0 if good else 1


if __name__ == "__main__":
    sys.exit(main())
