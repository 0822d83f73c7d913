"""Lexing packet by packet: a text offered to a stream in parts, and Next walked over it to set beside it."""
from machines import M4, X86
from speed import length, records, tokens, total

SIZES = 1, 20, 244
# None has a lexeme of more than a stream takes; the last three are its dearest.
TEXTS = "sync", "keywords", "names", "floats", "operators", "comments", "digits", "colons"


def a_byte(machine, lexer, name):
    return total(machine, lexer, name) / length(name)


def above(machine, size, name="sync"):
    """What a byte costs more than in a walk of Next."""
    return round(a_byte(machine, f"parts of {size}", name) - a_byte(machine, "next", name), 2)


def same_tokens():
    """However a text is parted, the tokens are those of List, or what it costs would say nothing."""
    for machine in X86, M4:
        for name in TEXTS:
            for lexer in ["next", *(f"parts of {size}" for size in SIZES)]:
                if tokens(machine, lexer, name) != tokens(machine, "List", name):
                    raise SystemExit(f"bench: FAIL: {lexer} and List found different tokens in the text {name}")
        if tokens(machine, "parts of 20:sqlite", "sync") != tokens(machine, "List", "sync"):
            raise SystemExit("bench: FAIL: parts of 20 under sqlite and List found different tokens in the text sync")
    print(f"offered in parts of {', '.join(map(str, SIZES))} bytes, {len(TEXTS)} texts gave List's tokens, on both machines")


def figures(machine):
    lexers = ["next", *(f"parts of {size}" for size in SIZES)]
    print(f"{'text':12}{'records':>8}" + "".join(f"{lexer:>14}" for lexer in lexers))
    for name in TEXTS:
        cells = "".join(f"{a_byte(machine, lexer, name):14.2f}" for lexer in lexers)
        print(f"{name:12}{len(records(machine, 'next', name)):8,}{cells}")
    print(f"under sqlite, sync in parts of 20: {a_byte(machine, 'parts of 20:sqlite', 'sync'):.2f}")
