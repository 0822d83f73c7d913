"""The machine that reads byte by byte: a walk over a text by `step`, and `step` by itself."""
import functools

import graph
from lexers import STEP, program, walk
from machines import M4, X86, run
from speed import KINDS_OF_TEXT, cost, length, tokens, total


def starts_and_lengths(machine, lexer, name):
    return [token[1:] for token in tokens(machine, lexer, name)]


def same_lexemes():
    """The walk finds List's lexemes, or what it costs would say nothing."""
    for machine in X86, M4:
        for name in KINDS_OF_TEXT:
            for lexer in "walk", "walk:sqlite":
                if starts_and_lengths(machine, lexer, name) != starts_and_lengths(machine, "List", name):
                    raise SystemExit(f"bench: FAIL: the walk by step and List found different lexemes in the text {name}")
    print(f"the walk by `step` found List's lexemes in {len(KINDS_OF_TEXT)} texts, under both profiles and on both machines")


@functools.cache
def step(machine):
    """Of `step` as a function of its own: its calls, and its instructions in all of them, on the text sync."""
    symbols = [line.split(None, 2) for line in run(machine.nm, "-S", program(machine, "step")).splitlines()]
    start, size = next((int(line[0], 16) & ~1, int(line[1], 16)) for line in symbols if line[-1].endswith(STEP))
    times = cost(machine, "step", "sync")
    return times[start], sum(count for address, count in times.items() if start <= address < start + size)


def a_step(machine):
    calls, instructions = step(machine)
    return round(instructions / calls, 2)


def code(machine):
    """Bytes of the walk, with its constants."""
    return sum(n for name, n in graph.sections(walk(machine)).items() if name.startswith((".text", ".rodata")))


def figures(machine):
    calls, _ = step(machine)
    for lexer in "walk", "walk:sqlite":
        print(f"{lexer:12} {total(machine, lexer, 'sync') / length('sync'):6.2f} a byte, loop and all")
    print(f"{'step':12} {a_step(machine):6.2f} a call as a function of its own, of which there are {calls / length('sync'):.2f} a byte")
    alone = graph.functions(walk(machine, STEP, "s"))[STEP]
    print(f"{'stack':12} {alone.frame + alone.below:6,} bytes of step; code {code(machine):,} bytes, the loop among them")
