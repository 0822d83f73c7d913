"""The three lexers, each as what a C program links, for each machine."""
import functools
import os
import pathlib
import re
import shutil
import subprocess

from machines import HERE, M4, OUT, ROOT, X86, Missing, compile_c, need, run

KIT = pathlib.Path(run("rt", "doc").strip()).parent / "toolchain/bin"
# What is measured: the proved archive and its module; or, with bench/run --unproved, the module of a source that nothing proves.
UNPROVED = "BENCH_UNPROVED" in os.environ
KEPT = OUT / "unproved" if UNPROVED else OUT
ARCHIVE = OUT / "libcapi.a"
X86_TARGET, UNPACKED = "x86_64-unknown-linux-gnu", OUT / "rustc/usr"  # what bench/setup unpacks
STEP = "steps::step::step"
# How many numbers are written of a token: kind, start and length, and in a list also line and column, which bench's own loops have not.
WIDTH, OWN_WIDTH = 5, 3
OWN_LOOPS = "steps_walk", "next_walk", "stream_parts"
REAL_MEMCHR = pathlib.Path("/usr/share/cargo/registry/memchr-2.5.0/src/lib.rs")
# bench/setup fetches the source, which is compiled for both machines; Debian's library is x86-64 code.
SQLITE_SOURCE, SQLITE_LIBRARY = OUT / "sqlite", pathlib.Path("/usr/lib/x86_64-linux-gnu/libsqlite3.a")
M4_TARGET, M4_LAYOUT = "thumbv7em-none-unknown-eabi", "e-m:e-p:32:32-Fi8-i64:64-v128:64:128-a:0:32-n32-S64"


def kit_flags(machine, kept):
    """The words that the kit's clang was given for a module, but for files; for the M4 without those that name the processor."""
    words = (kept / "flags").read_text().split("\n")
    words = words[:words.index("-c")] + [word for word in words if word in ("-fPIC", "-O3")]
    if machine is X86:
        return words
    words = [word for word in words if not word.startswith(("--target", "-march", "-fPIC", "-Werror"))]
    return words + [f"--target={M4_TARGET}", "-mcpu=cortex-m4", "-mfloat-abi=soft", "-Wno-override-module"]


def module_for(machine, kept, apart):
    """The module that was kept. Made one for the M4 by its head and attributes alone: its usize stays 64 bits wide, for measuring only. And
    with a function that is not to be inlined, where one is to stand apart."""
    if machine is X86 and not apart:
        return kept / "module.bc"
    text = OUT / f"{machine.name}.ll"
    as_it_is = ["-x", "ir", kept / "module.bc", "-O0", "-Xclang", "-disable-llvm-passes"]
    run(KIT / "clang", f"--target={X86_TARGET}", *as_it_is, "-S", "-emit-llvm", "-o", text)
    code = text.read_text()
    if apart:
        code, found = re.subn(rf'(?m)^(define .*@"{apart}"\(.*\)) #', r"\1 noinline #", code)
        if found != 1:
            raise SystemExit(f"bench: FAIL: the module has no function {apart}")
    if machine is M4:
        code = re.sub(r"(?m)^target datalayout.*", f'target datalayout = "{M4_LAYOUT}"', code)
        code = re.sub(r"(?m)^target triple.*", f'target triple = "{M4_TARGET}"', code)
        code = re.sub(r' "(probe-stack|target-cpu)"="[^"]*"', "", code)
        code = code.replace(" ptrtoaddr ptr ", " ptrtoint ptr ")  # which wants a usize as wide as an address
    text.write_text(code)
    return text


def compile_library(machine, output, *flags, kept=KEPT, apart=None):
    """A module, the library's if no other is named, with the kit's clang."""
    run(KIT / "clang", *kit_flags(machine, kept), *(flags or ["-c"]), "-x", "ir", module_for(machine, kept, apart), "-o", output)
    return output


def is_archives(file):
    """Whether an object file is the one in the archive, byte for byte."""
    return subprocess.check_output([KIT / "llvm-ar", "p", ARCHIVE]) == file.read_bytes()


def of_list(machine):
    proved = machine is X86 and not UNPROVED
    return [ARCHIVE if proved else compile_library(machine, OUT / f"capi.{machine.name}.o")]


@functools.cache
def walk_module():
    run(HERE / "walk", OUT / "walk")
    return OUT / "walk"


@functools.cache
def walk(machine, apart=None, form="o"):
    """The walk by `step`, compiled: an object or, with stack sizes, assembly."""
    flags = ["-S", "-fstack-size-section"] if form == "s" else []
    name = "step" if apart else "walk"
    return compile_library(machine, OUT / f"{name}.{machine.name}.{form}", *flags, kept=walk_module(), apart=apart)


@functools.cache
def parts_module():
    run(HERE / "parts", OUT / "parts")
    return OUT / "parts"


@functools.cache
def parts(machine):
    """A text offered to a stream in parts, and a walk by `next`, compiled."""
    return compile_library(machine, OUT / f"parts.{machine.name}.o", kept=parts_module())


def in_parts(size, profile=0):
    return "stream_parts", lambda machine: [parts(machine)], [f"-DPROFILE={2 * size + profile}"]


def has_x86(libraries):
    """Whether a Rust compiler's folder has the core library for x86-64."""
    return any(libraries.glob("libcore-*.rlib"))


def rustc_for(machine):
    """Which compiler builds the Rust: the one on the PATH, or the unpacked one, which the M4 needs."""
    if machine is X86 and shutil.which("rustc"):
        if has_x86(pathlib.Path(run("rustc", "--print", "target-libdir", "--target", X86_TARGET).strip())):
            return "rustc"
    if not (UNPACKED / "bin/rustc").exists():
        raise Missing("no compiler with a core library for this machine is here (bench/setup unpacks one)")
    if machine is X86 and not has_x86(UNPACKED / f"lib/rustlib/{X86_TARGET}/lib"):
        raise Missing(f"neither rustc on the PATH nor the unpacked one has a core library for {X86_TARGET} (bench/setup)")
    return "unpacked"


def build_rust(machine, folder, memchr, flags):
    need("cc", "Debian: gcc")  # links the keyword macro
    os.environ["RUSTC"] = rustc_for(machine)
    try:
        run(HERE / "rust/build", OUT / folder, machine.name, memchr, *flags)
    except SystemExit as why:
        first = next((line for line in str(why).splitlines() if line.startswith("error")), str(why).splitlines()[0])
        raise Missing(f"the Rust for {machine.name} does not build ({first})")
    return [OUT / folder / "liblist.a"]


BUILT = {}  # by folder: what is linked, or why there is none


def rust(machine, folder, memchr, *flags):
    if folder not in BUILT:
        try:
            BUILT[folder] = build_rust(machine, folder, memchr, flags)
        except Missing as why:
            BUILT[folder] = why
    if isinstance(BUILT[folder], Missing):
        raise BUILT[folder]
    return BUILT[folder]


def of_rust(machine):
    return rust(machine, f"rust-{machine.name}", ROOT / "oracle/stand-ins/memchr/src/lib.rs")


def of_rust_with_real_memchr(machine):
    if not REAL_MEMCHR.exists():
        raise Missing("the crate memchr 2.5.0 is not here (Debian: librust-memchr-dev)")
    simd = [word for part in ("simd", "sse2", "sse42", "avx") for word in ("--cfg", f"memchr_runtime_{part}")]
    return rust(machine, "rust-real", REAL_MEMCHR, *simd, "--cfg", 'feature="std"')


def of_sqlite(machine):
    if SQLITE_SOURCE.exists():
        return ["-DFROM_SOURCE", "-I", SQLITE_SOURCE, "-I", SQLITE_SOURCE / "src", HERE / "sqlite.c"]
    if machine is X86 and SQLITE_LIBRARY.exists():
        return [HERE / "sqlite.c", SQLITE_LIBRARY, "-lm", "-ldl", "-lpthread"]
    raise Missing("SQLite's source is not here (bench/setup fetches it)" + (" nor libsqlite3-dev's library" if machine is X86 else ""))


LEXERS = {  # the symbol of List, what is linked, flags of the measuring program
    "List": ("sqllex_list", of_list, ["-DPROFILE=0"]),
    "List:sqlite": ("sqllex_list", of_list, ["-DPROFILE=1"]),  # under the other profile
    "cut": ("sqllex_cut", of_list, ["-DPROFILE=0", "-DCUTS"]),
    "one slice": ("sqllex_list_part", of_list, ["-DPROFILE=0", "-DSLICE=0xffffffff"]),
    "slices of 64": ("sqllex_list_part", of_list, ["-DPROFILE=0", "-DSLICE=64"]),
    "slices of 1,024": ("sqllex_list_part", of_list, ["-DPROFILE=0", "-DSLICE=1024"]),
    "check": ("sqllex_check_list", of_list, ["-DPROFILE=0", "-DCHECKS"]),
    "check:sqlite": ("sqllex_check_list", of_list, ["-DPROFILE=1", "-DCHECKS"]),
    "pair": ("sqllex_pair", of_list, ["-DPROFILE=0", "-DPAIRS"]),
    "reads": ("sqllex_list", of_list, ["-DPROFILE=0", "-DREADS"]),
    "writes": ("sqllex_list", of_list, ["-DPROFILE=0", "-DWRITES"]),
    "walk": ("steps_walk", lambda machine: [walk(machine)], ["-DPROFILE=0"]),
    "walk:sqlite": ("steps_walk", lambda machine: [walk(machine)], ["-DPROFILE=1"]),
    "step": ("steps_walk", lambda machine: [walk(machine, STEP)], ["-DPROFILE=0"]),  # the same, with `step` a function of its own
    "next": ("next_walk", lambda machine: [parts(machine)], ["-DPROFILE=0"]),  # from token to token
    "parts of 1": in_parts(1),
    "parts of 20": in_parts(20),
    "parts of 244": in_parts(244),
    "parts of 20:sqlite": in_parts(20, 1),
    "Rust": ("rust_list", of_rust, []),
    "Rust+": ("rust_list", of_rust_with_real_memchr, []),
    "SQLite": ("sqlite_list", of_sqlite, []),
    "calls": ("sqllex_list", of_list, ["-DPROFILE=0", "-DALL_CALLS"]),
    "nothing": ("nothing", lambda machine: ["-Wl,--defsym=nothing=0"], []),  # what the program has without a lexer
}


def width(lexer):
    return OWN_WIDTH if LEXERS[lexer][0] in OWN_LOOPS else WIDTH


@functools.cache
def program(machine, lexer):
    """The measuring program with one lexer."""
    symbol, parts, flags = LEXERS[lexer]
    output = OUT / f"{lexer}.{machine.name}"
    flags = [f"-DLIST={symbol}", f"-DRECORD_WIDTH={width(lexer)}", *flags]
    compile_c(machine, output, *flags, HERE / "program.c", *machine.extra, *parts(machine))
    return output
