"""The call graph of a library with the stack that each function takes, read from the assembly that clang writes with -fstack-size-section;
and the sizes of an object file's sections. Nothing but the kit is needed for either."""
import ast
import re

from levels import open_at_once

NAME = r'"?([^\s",]+)"?'
FUNCTION = re.compile(rf"(?m)^\s\.type\s+{NAME},[@%]function")
JUMP = re.compile(rf"^\s(call\w*|bl|blx|j\w+|b(?:eq|ne|hs|lo|mi|pl|vs|vc|hi|ls|ge|lt|gt|le)?(?:\.[wn])?)\s+{NAME}")
CALLS = "call", "callq", "bl", "blx"
# x86-64: what moves the stack pointer, what jumps and where to, and an entry of a table of jumps
PUSH_OR_POP = re.compile(r"^\s(push|pop)q\s")
ADD_OR_SUB = re.compile(r"^\s(add|sub)q\s+\$(-?\d+), %rsp$")
GOES = re.compile(r"^\sj\w+\s+(\S+)")
TABLE = re.compile(r"^\s\.long\s+(\.L\w+)-\.LJTI")


class Function:
    def __init__(self):
        self.frame = 0
        self.lines = []
        self.below = 0  # x86-64: a function that calls none may use 128 bytes below its stack pointer, which are no part of its frame
        self.calls, self.tail_calls = set(), set()


def unsigned(line):
    """A number of .stack_sizes: one byte, or seven bits in each of several."""
    kind, value = line.split(None, 1)
    data = ast.literal_eval("b" + value) if kind == ".ascii" else bytes([int(value, 0)])
    return sum((byte & 127) << 7 * i for i, byte in enumerate(data))


def moved(line):
    """x86-64: by how many bytes an instruction moves the stack pointer down."""
    if found := PUSH_OR_POP.match(line):
        return 8 if found[1] == "push" else -8
    found = ADD_OR_SUB.match(line)
    return int(found[2]) * (1 if found[1] == "sub" else -1) if found else 0


def depth(lines):
    """x86-64: how far a function takes the stack pointer down; what clang states as its frame leaves out the arguments that it pushes for a
    call. Each instruction is come to by one way through the code: by any other the pointer is the same there."""
    labels = {line.split(":")[0]: i for i, line in enumerate(lines) if line.startswith(".L")}
    tables = [labels[found[1]] for found in map(TABLE.match, lines) if found]
    most, seen, ways = 0, set(), [(0, 0)]
    while ways:
        at, deep = ways.pop()
        while at < len(lines) and at not in seen:
            seen.add(at)
            line = lines[at]
            deep += moved(line)
            most = max(most, deep)
            if goes := GOES.match(line):
                there = tables if goes[1].startswith("*") else [labels[goes[1]]] if goes[1] in labels else []  # a tail call ends the way
                ways += [(i, deep) for i in there]
            if line.startswith(("\tjmp", "\tret", "\tud2", ".Lfunc_end")):
                break
            at += 1
    return most


def functions(assembly):
    text = assembly.read_text()
    found, now, lines = {name: Function() for name in FUNCTION.findall(text)}, None, text.split("\n")
    for i, line in enumerate(lines):
        if begun := FUNCTION.match(line):
            now = found[begun[1]]
        elif size := re.match(r'\s\.section\s+\.stack_sizes,.*\.text\.([^"\s]+)', line):
            found[size[1]].frame = unsigned(lines[i + 2].strip())
        elif (jump := JUMP.match(line)) and (jump[1] in CALLS or not jump[2].startswith((".L", "*"))):
            (now.calls if jump[1] in CALLS else now.tail_calls).add(jump[2])
        elif now:
            now.below = max([now.below] + [int(n) for n in re.findall(r"\s-(\d+)\(%rsp", line)])
        if now:
            now.lines.append(line)
    for function in found.values():
        function.frame = max(function.frame, depth(function.lines))
    return found


def ring(found, name):
    """The functions that call each other around this one, itself among them; none where it does not come to call itself."""
    behind = lambda one: set().union(*(reached(found, other) for other in (found[one].calls | found[one].tail_calls) & set(found)))
    return {other for other in behind(name) if name in behind(other)} if name in found else set()


def bound(found, name, pushed):
    """The deepest chain of calls from a function: its bytes, and its functions. `pushed` is what a call itself puts on the stack. Functions
    that call each other are one link of the chain, each as often as its contract lets it be open at once."""
    around = ring(found, name)
    here = [found.get(one, Function()) for one in sorted(around) or [name]]  # of what is elsewhere nothing is known: see `elsewhere`
    times = max(map(open_at_once, around), default=1)
    own = times * sum(pushed + one.frame + one.below for one in here)
    calls, tail_calls = (set().union(*(getattr(one, kind) for one in here)) - around for kind in ("calls", "tail_calls"))
    below = {other: bound(found, other, pushed) for other in sorted(calls | tail_calls)}
    deeper = [(own + below[other][0], below[other][1]) for other in calls]
    # The frame was given back before, but for those of the other calls that are open.
    deeper += [(max(own, below[other][0]) if not around else own + below[other][0], below[other][1]) for other in tail_calls]
    size, chain = max(deeper, default=(own, []))
    return size, [f"{' and '.join(sorted(around)) or name} {f'{times} x {own // times}' if around else own}", *chain]


def elsewhere(found):
    """What is called and is not in the library: functions of the C library, and calls through a pointer."""
    return set().union(*(function.calls | function.tail_calls for function in found.values())) - set(found)


def reached(found, name, seen=frozenset()):
    """The functions that a call of this one can come to, itself among them."""
    seen |= {name}
    for other in (found[name].calls | found[name].tail_calls) & set(found) - seen:
        seen |= reached(found, other, seen)
    return seen


def sections(file):
    """Sizes of the sections that are loaded, by name: the section headers of an ELF file, 64 or 32 bits wide, little-endian."""
    data = file.read_bytes()
    number = lambda at, width: int.from_bytes(data[at:at + width], "little")
    word, table, each, tail = (8, 0x28, 64, 0x3C) if data[4] == 2 else (4, 0x20, 40, 0x30)
    heads = [number(table, word) + i * each for i in range(number(tail, 2))]
    flags, _, offset, size = (lambda head, k=k: number(head + 8 + k * word, word) for k in range(4))
    names = offset(heads[number(tail + 2, 2)])
    name = lambda head: data[names + number(head, 4):].split(b"\0", 1)[0].decode()
    return {name(head): size(head) for head in heads if flags(head) & 2}
