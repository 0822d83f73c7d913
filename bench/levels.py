"""How many calls of functions that call each other are open at once. Nothing in the code says so; their contracts in the source do, which are
proved: each has a parameter `depth`, requires `depth ≤ N`, and hands on `depth` or `depth + 1`, the latter at least once around."""
import re

from machines import ROOT

FUNCTION = re.compile(r"(?ms)^(?:pub(?:\(\w+\))? )?fn (\w+)\((.*?)\)(.*?)^\{(.*?)^\}")
LIMIT = re.compile(r"requires \{ [^{}]*\(depth ≤ (\d+)\)[^{}]* \}")


def no_bound(why):
    raise SystemExit(f"bench: FAIL: there is no bound on the stack: {why}")


def functions(crate):
    """Parameters, contract and body of each of a crate's functions, by its last name. No crate calls one that is above it, so whatever
    comes to call itself does so within one."""
    found = {}
    for file in sorted((ROOT / "crates" / crate / "src").rglob("*.rt")):
        for name, *parts in FUNCTION.findall(re.sub(r"//.*", "", file.read_text())):
            if name in found:
                no_bound(f"two functions of {crate} are named {name}")
            found[name] = parts
    return found


def split(text):
    """What stands between the commas of a list, brackets within it not looked into."""
    parts, deep = [""], 0
    for letter in text:
        deep += (letter in "([{") - (letter in ")]}")
        if deep < 0:
            break
        parts = [*parts, ""] if letter == "," and deep == 0 else [*parts[:-1], parts[-1] + letter]
    return [" ".join(part.split()) for part in parts if part.strip()]


def calls(found, name):
    """The functions of the crate that one calls, each with its arguments."""
    body = found[name][2]
    return [(call[1], split(body[call.end():])) for call in re.finditer(r"\b(\w+)\(", body) if call[1] in found]


def behind(edges, name, seen=frozenset()):
    """What is come to from a function by one call or more."""
    for other in edges[name] - seen:
        seen |= {other}
        seen |= behind(edges, other, seen)
    return seen


def limit(found, name):
    """The N of a contract, and which of the parameters it speaks of."""
    parameters, contract, body = found[name]
    said = LIMIT.search(contract)
    if not said or "depth: u32" not in split(parameters) or re.search(r"\blet (mut )?depth\b", body):
        no_bound(f"{name} comes to call itself, and its contract says of no `depth` how great it is")
    return int(said[1]), split(parameters).index("depth: u32")


def open_at_once(symbol):
    """The most calls of one function, of those that call each other around this one, that are open at once: one for each depth."""
    names = symbol.split("::")
    found, first = functions(names[0]), names[-1]
    if first not in found:
        no_bound(f"{symbol} comes to call itself, and is not in the source")
    edges = {name: {other for other, _ in calls(found, name)} for name in found}
    around = {name for name in behind(edges, first) if first in behind(edges, name)}
    level = {name: set() for name in around}  # the calls that hand on the depth as it is
    most = 0
    for name in around:
        most = max(most, limit(found, name)[0])
        for other, arguments in calls(found, name):
            if other in around:
                handed = arguments[limit(found, other)[1]]
                if handed == "depth":
                    level[name].add(other)
                elif handed != "depth + 1":
                    no_bound(f"{name} calls {other} with the depth {handed}")
    if not around or any(name in behind(level, name) for name in around):
        no_bound(f"{symbol} comes to call itself at the same depth")
    return most + 1
