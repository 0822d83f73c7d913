#!/usr/bin/env python3
"""bench/exported.py main SOURCE: a main in Rattle that calls the functions which SOURCE exports to C, each once, so that `rt try` compiles
them.
bench/exported.py module SOURCE MODULE: the LLVM module, as text, of a library that was compiled as a program with that main, without it and
with these functions as C calls them."""
import re
import sys

EXPORTED = re.compile(r'#\[unsafe\(no_mangle\)\]\s+pub extern "C" fn (\w+)\((.*?)\)\s*->', re.S)
RECORD = "Record { kind: 0, start: 0, length: 0, line: 0, column: 0 }"


def some(type):
    """A value of a type, whatever it is."""
    if type == "Record":
        return RECORD
    array = re.fullmatch(r"\[(\w+)(?:; (\d+))?\]", type)
    return f"[{some(array[1])}; {array[2] or 1}]" if array else "false" if type == "bool" else f"0{type}"


def calls(source):
    """A slice or a reference is of a variable of its own."""
    body = []
    for name, parameters in EXPORTED.findall(source):
        passed = []
        for parameter in filter(None, map(str.strip, parameters.split(","))):
            type = parameter.split(": ")[1]
            lent = re.fullmatch(r"&(mut )?(.*)", type)
            if lent:
                body.append(f"    let {lent[1] or ''}v{len(body)} = {some(lent[2])};")
                passed.append(f"&{lent[1] or ''}v{len(body) - 1}")
            else:
                passed.append(some(type))
        body.append(f"    let _r{len(body)} = {name}({', '.join(passed)});")
    return "\nfn main() {\n" + "\n".join(body) + "\n}"


def without(code, name):
    return re.sub(rf"(?ms)^define [^\n]*@{re.escape(name)}\(\)[^\n]* \{{\n.*?^\}}\n", "", code)


def exported(code, name):
    """The module with a function in Rattle as one that C calls, under its own name: a slice is two parameters in both."""
    code, found = re.subn(rf'(?m)^define internal (.*)@"\w+::{name}"\(', rf"define \1@{name}(", code)
    if found != 1:
        raise SystemExit(f"exported: the module has {found} functions {name}")
    return re.sub(rf'@"\w+::{name}"\(', f"@{name}(", code)


def main(what, source, *module):
    source = open(source).read()
    if what == "main":
        print(calls(source))
        return
    code = open(*module).read()
    for name in "main", re.search(r'@("\w+::main")\(\)', code)[1]:
        code = without(code, name)
    for name, _ in EXPORTED.findall(source):
        code = exported(code, name)
    print(code)


main(*sys.argv[1:])
