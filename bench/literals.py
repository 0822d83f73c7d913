"""Literals: those of a text read, and read and written again; each a call with the start and length of a record of List."""
from machines import M4, X86, output_of
from lexers import program
from speed import records, text, total

TEXTS = "sync", "integers", "string", "quotes", "blob"
KINDS = "29 ", "31 ", "33 "  # strings, integers and blobs, as a record's line begins


def literals(machine, name):
    """The records of the text that are literals."""
    return [line for line in records(machine, "List", name) if line.startswith(KINDS)]


def all_done():
    """Each literal is read and written, or what that costs would say nothing."""
    for machine in X86, M4:
        for name in TEXTS:
            for lexer in "reads", "writes":
                if output_of(machine, program(machine, lexer), text(name), "dump").splitlines() != literals(machine, name):
                    raise SystemExit(f"bench: FAIL: of the text {name} not all literals were done: {lexer}")
    print(f"every literal of {len(TEXTS)} texts was read and written, on both machines")


def figures(machine):
    print(f"{'text':12}{'literals':>9}{'bytes':>8}{'read, each':>14}{'a byte':>8}{'written, each':>16}{'a byte':>8}")
    for name in TEXTS:
        count, size = len(literals(machine, name)), sum(int(line.split()[2]) for line in literals(machine, name))
        read = total(machine, "reads", name)
        written = total(machine, "writes", name) - read
        print(f"{name:12}{count:9,}{size:8,}{read / count:14,.1f}{read / size:8.2f}{written / count:16,.1f}{written / size:8.2f}")
