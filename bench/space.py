"""Stack and code size."""
import functools

import graph
from lexers import compile_library, program
from machines import OUT, Missing, output_of
from speed import KINDS_OF_TEXT, PAIRED, present, text

ENTRIES = "sqllex_next", "sqllex_list", "sqllex_list_from", "sqllex_list_part", "sqllex_cut", "sqllex_check_list"
PAIR_ENTRIES = "sqllex_pair",
STREAM_ENTRIES = "sqllex_stream_begin", "sqllex_stream_offer", "sqllex_stream_finish"
LITERAL_ENTRIES = tuple(f"sqllex_{call}_{kind}" for call in ("read", "write") for kind in ("integer", "string", "name", "blob"))
ALL_ENTRIES = *ENTRIES, *PAIR_ENTRIES, *STREAM_ENTRIES, *LITERAL_ENTRIES
LOOKUP = "words::lookup::", "keywords::"  # the functions that look a word up


@functools.cache
def functions(machine):
    """Of the library. Its archive has no stack sizes, so its module is compiled again, with the same flags, to assembly that has them."""
    return graph.functions(compile_library(machine, OUT / f"capi.{machine.name}.s", "-S", "-fstack-size-section"))


def painted(machine, lexer):
    """What calls really used, by symbol: the most of all texts."""
    most = {}
    for name in [*KINDS_OF_TEXT, *(set(PAIRED) - set(KINDS_OF_TEXT))]:
        for line in output_of(machine, program(machine, lexer), text(name), "stack").splitlines():
            symbol, size = line.split()
            most[symbol] = max(most.get(symbol, 0), int(size))
    return most


def stacks(machine):
    """Prints a line for each call, and gives the largest bound, that of the pairing, that of a stream's calls, and that of those that read and
    write literals."""
    used = {}
    for lexer in "calls", "Rust", "SQLite":
        try:
            used |= painted(machine, lexer)
        except Missing as why:
            print(f"SKIPPED what was used by {lexer}: {why}")
    bounds = {entry: graph.bound(functions(machine), entry, machine.pushed) for entry in ALL_ENTRIES}
    for entry in [*ALL_ENTRIES, *sorted(set(used) - set(ALL_ENTRIES))]:
        size, chain = bounds.get(entry, (None, []))
        figure = lambda n: f"{n:,}" if n else "-"
        print(f"{entry:22} bound {figure(size):>5}  used {figure(used.get(entry)):>5}   {' > '.join(chain)}".rstrip())
        if size and used.get(entry, 0) > size:
            raise SystemExit(f"bench: FAIL: {entry} used more stack than its bound")
    if unknown := graph.elsewhere(functions(machine)):
        raise SystemExit(f"bench: FAIL: there is no bound on the stack, since these are not in the library: {', '.join(sorted(unknown))}")
    largest = lambda some: max(bounds[entry][0] for entry in some)
    return largest(ENTRIES), largest(PAIR_ENTRIES), largest(STREAM_ENTRIES), largest(LITERAL_ENTRIES)


def sizes(machine):
    """Prints the library's parts, and gives the size of the lookup of a word with all constants, which on the M4 are its tables alone."""
    found, size = functions(machine), graph.sections(compile_library(machine, OUT / f"capi.{machine.name}.o"))
    constants = sum(n for name, n in size.items() if name.startswith(".rodata"))
    code = lambda names: sum(size[".text." + name] for name in names)
    lookup = code(name for name in found if name.startswith(LOOKUP)) + constants
    print(f"{'the library':42}{code(found) + constants:7,}")
    for entry in ALL_ENTRIES:
        print(f"{'what a program with ' + entry + ' has':42}{code(graph.reached(found, entry)) + constants:7,}")
    for name in found:
        print(f"    {name:38}{code([name]):7,}")
    print(f"    {'constants':38}{constants:7,}")
    return lookup


def linked(machine):
    """A program's code and constants, less those of the same program without a lexer."""
    loaded = lambda lexer: sum(n for name, n in graph.sections(program(machine, lexer)).items() if name != ".bss")
    for lexer in present(machine, ["List", "Rust", "SQLite"]):
        print(f"{lexer:42}{loaded(lexer) - loaded('nothing'):7,}")
