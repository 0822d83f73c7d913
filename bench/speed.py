"""Instructions: of the three lexers a byte, of the cut, of List's slices, of the check of its list and of the pairing of its brackets, of
List by function, and how List grows."""
import bisect
import functools
import re

from lexers import OWN_WIDTH, WIDTH, program, width
from machines import M4, OUT, ROOT, X86, Missing, one_pass, output_of, run

KINDS_OF_TEXT = "sync", "keywords", "names", "floats", "operators", "string"
SLICES = "one slice", "slices of 1,024", "slices of 64"  # of so many lexemes
CHECKS = "check", "check:sqlite"
PAIRED = "sync", "names", "operators", "brackets"  # the last as deep as brackets may nest


def text(name):
    return OUT / f"texts/{name}.sql"


def length(name):
    return text(name).stat().st_size


@functools.cache
def cost(machine, lexer, name):
    """Instructions of one pass, by address."""
    return one_pass(machine, program(machine, lexer), text(name))


def total(machine, lexer, name):
    return sum(cost(machine, lexer, name).values())


@functools.cache
def newlines(name):
    """Where the text has a 0A."""
    return [at for at, byte in enumerate(text(name).read_bytes()) if byte == 0x0A]


def place(name, start):
    """Line and column, by the text alone."""
    before = bisect.bisect_left(newlines(name), start)
    return before + 1, start - (newlines(name)[before - 1] if before else -1)


@functools.cache
def records(machine, lexer, name):
    """The list's lines. It must come to the text's end, and have the right places: a lexer that stops early would look cheap, and so would one
    that counts no lines."""
    lines = output_of(machine, program(machine, lexer), text(name), "dump").splitlines()
    found = [[int(number) for number in line.split()] for line in lines]
    _, start, size = found[-1][:OWN_WIDTH]
    if start + size != length(name):
        raise SystemExit(f"bench: FAIL: {lexer} stopped at {start + size} in the text {name}")
    if width(lexer) == WIDTH and any((line, column) != place(name, start) for _, start, _, line, column in found):
        raise SystemExit(f"bench: FAIL: {lexer} wrote another line or column of the text {name}")
    return lines


def tokens(machine, lexer, name):
    """Kind, start and length of each record."""
    return [line.split()[:OWN_WIDTH] for line in records(machine, lexer, name)]


def with_names(lines, names):
    return [(names[int(line.split()[0])], *line.split()[1:]) for line in lines]


def same_lists():
    """List and the Rust: kinds by name, and all other numbers. (SQLite's kinds are its own, and it ends a comment before the newline.)"""
    ours = {int(n): name for n, name in re.findall(r"(?m)^\| (\d+) \| (TK_\w+) \|", (ROOT / "docs/KINDS.md").read_text())}
    rusts = {int(n): name for name, n in re.findall(r"(TK_\w+) = (\d+),", (ROOT / "oracle/turso_parser/src/token.rs").read_text())}
    for name in KINDS_OF_TEXT:
        if with_names(records(X86, "List", name), ours) != with_names(records(X86, "Rust", name), rusts):
            raise SystemExit(f"bench: FAIL: List and the Rust wrote different records of the text {name}")
        if records(X86, "List:sqlite", name) != records(X86, "List", name):
            raise SystemExit(f"bench: FAIL: List wrote different records of the text {name} under its two profiles, which read it alike")
    print(f"List, under both profiles, and the Rust wrote the same records of {len(KINDS_OF_TEXT)} texts: kinds by name, starts, lengths, lines, "
          "columns")


def can_build(machine, lexer):
    try:
        return program(machine, lexer)
    except Missing:
        return None


def present(machine, lexers):
    """List, and those of the other lexers that can be built here."""
    there = []
    program(machine, "List")
    for lexer in lexers:
        try:
            program(machine, lexer)
            there.append(lexer)
        except Missing as why:
            print(f"SKIPPED {lexer}: {why}")
    return there


def instructions(machine, lexers):
    lexers = present(machine, lexers)
    print(f"{'text':12}{'records':>8}" + "".join(f"{lexer:>12}" for lexer in lexers))
    for name in KINDS_OF_TEXT:
        numbers = {lexer: len(records(machine, lexer, name)) for lexer in lexers}
        for lexer in lexers:
            if machine is M4 and can_build(X86, lexer) and records(M4, lexer, name) != records(X86, lexer, name):
                raise SystemExit(f"bench: FAIL: records of the text {name} differ between the two machines")
        a_byte = "".join(f"{total(machine, lexer, name) / length(name):12.2f}" for lexer in lexers)
        others = [f"{lexer}: {n:,} records" for lexer, n in numbers.items() if n != numbers[lexers[0]]]
        print(f"{name:12}{numbers[lexers[0]]:8,}{a_byte}  {'; '.join(others)}".rstrip())


def cuts(machine):
    """The text has no trigger, so there are as many as semicolons: a cut that stops early would look cheap."""
    found = len(output_of(machine, program(machine, "cut"), text("sync"), "dump").splitlines())
    if found != sum(line.startswith("3 ") for line in records(machine, "List", "sync")):
        raise SystemExit(f"bench: FAIL: {found} statements were cut, not one for each TK_SEMI")
    print(f"{total(machine, 'cut', 'sync') / length('sync'):.2f}")


def slices(machine):
    """However a text is sliced, the records are List's but for TK_NONE, or what they cost would say nothing."""
    tokens = [line for line in records(machine, "List", "sync") if not line.startswith("0 ")]
    for lexer in SLICES:
        if output_of(machine, program(machine, lexer), text("sync"), "dump").splitlines() != tokens:
            raise SystemExit(f"bench: FAIL: {lexer} and List wrote different records of the text sync")
        print(f"{lexer:16}{total(machine, lexer, 'sync') / length('sync'):8.2f}  {len(tokens):,} records")


def checks(machine):
    """A list that is not accepted would look cheap; the program has no records of one."""
    print(f"{'text':12}{'records':>8}" + "".join(f"{lexer:>14}" for lexer in CHECKS))
    for name in KINDS_OF_TEXT:
        for lexer in CHECKS:
            if output_of(machine, program(machine, lexer), text(name), "dump").splitlines() != records(machine, "List", name):
                raise SystemExit(f"bench: FAIL: List's records of the text {name} are not accepted: {lexer}")
        a_byte = "".join(f"{total(machine, lexer, name) / length(name):14.2f}" for lexer in CHECKS)
        print(f"{name:12}{len(records(machine, 'List', name)):8,}{a_byte}")


def partners_of(kinds):
    """Of brackets that nest: the index of each record's partner, or its own."""
    found, open_ones = list(range(len(kinds))), []
    for at, kind in enumerate(kinds):
        if kind in ("1", "9"):
            open_ones.append(at)
        elif kind in ("2", "10"):
            found[at] = open_ones.pop()
            found[found[at]] = at
    return found


def a_record(machine, name):
    """What the pairing costs."""
    return total(machine, "pair", name) / len(records(machine, "List", name))


def pairings(machine):
    """Partners that are not the text's would say nothing of what they cost."""
    print(f"{'text':12}{'records':>8}{'brackets':>10}{'a record':>10}{'a byte':>8}")
    for name in PAIRED:
        kinds = [line.split()[0] for line in records(machine, "List", name)]
        lines = output_of(machine, program(machine, "pair"), text(name), "dump").splitlines()
        if [int(line.split()[1]) for line in lines] != partners_of(kinds):
            raise SystemExit(f"bench: FAIL: the brackets of the text {name} are not paired")
        brackets = sum(kind in ("1", "2", "9", "10") for kind in kinds)
        print(f"{name:12}{len(kinds):8,}{brackets:10,}{a_record(machine, name):10.2f}{total(machine, 'pair', name) / length(name):8.2f}")


def growth():
    """Prints a line for each length, and gives the most percent from linear."""
    worst = 0
    for times in 1, 2, 4:
        name = f"grow{times}"
        records(X86, "List", name)
        here = total(X86, "List", name)
        percent = 100 * (here / (times * total(X86, "List", "grow1")) - 1)
        print(f"{length(name):7,} bytes {here:10,.0f} instructions {here / length(name):8.3f} a byte {percent:+8.4f} % from linear")
        worst = max(worst, abs(percent))
    return worst


def profile(machine):
    """List by function: instructions a byte, share, calls, instructions a call, and how many of these are run just once in every call."""
    times = cost(machine, "List", "sync")
    table = re.findall(r"(?m)^(\w+) [tT] (.*)$", run(machine.nm, program(machine, "List")))
    symbols = sorted((int(address, 16) & ~1, name) for address, name in table)  # a Thumb function's address is odd
    parts = {}
    for address, count in times.items():
        if count:
            parts.setdefault(max(symbol for symbol in symbols if symbol[0] <= address), []).append(count)
    print(f"{'function':38}{'a byte':>8}{'share':>8}{'calls':>8}{'a call':>10}{'once':>6}")
    for (start, name), part in sorted(parts.items(), key=lambda item: -sum(item[1])):
        calls = times.get(start) or 1  # of the program's main, which goes on with the next pass, its beginning is not run again
        print(f"{name:38}{sum(part) / length('sync'):8.2f}{sum(part) / sum(times.values()):8.1%}{calls:8,.0f}{sum(part) / calls:10,.1f}{part.count(calls):6}")
