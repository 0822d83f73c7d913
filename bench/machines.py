"""The two machines that are measured: how C is compiled for each, and how a program is run on it. Both are emulated on every host."""
import functools
import os
import pathlib
import shutil
import subprocess

HERE = pathlib.Path(__file__).resolve().parent
ROOT = HERE.parent
# Outside the repository, since `rt ci` refuses one with links in it; bench/run and bench/setup have the same folder.
OUT = pathlib.Path(os.environ.get("XDG_CACHE_HOME") or pathlib.Path.home() / ".cache") / "tsewubrin-bench"


class Missing(Exception):
    """A part can't be measured here: what is missing, and the Debian package that has it."""


def need(command, package):
    if not shutil.which(command):
        raise Missing(f"{command} is not on the PATH ({package})")


def run(*words):
    """What a command prints. Where it fails, so does the whole run, with all that it said."""
    done = subprocess.run([str(word) for word in words], capture_output=True, text=True, timeout=600)
    if done.returncode:
        raise SystemExit(f"bench: status {done.returncode} of {' '.join(map(str, words))}\n{done.stdout[-2000:]}{done.stderr[-4000:]}")
    return done.stdout


class X86:
    name, compiler, emulator = "x86-64", "x86_64-linux-gnu-gcc", "qemu-x86_64"
    compiler_package = "Debian: gcc and libc6-dev"
    emulator_package = "Debian: qemu-user"
    library, flags, extra, nm = "libc.a", ["-static"], [], "x86_64-linux-gnu-nm"
    pushed = 8  # bytes that a call itself puts on the stack

    @staticmethod
    def start(program, words):
        return ["qemu-x86_64", "-cpu", "qemu64", program, *words]


class M4:
    name, compiler, emulator = "Cortex-M4", "arm-none-eabi-gcc", "qemu-system-arm"
    compiler_package = "Debian: gcc-arm-none-eabi and libnewlib-arm-none-eabi"
    emulator_package = "Debian: qemu-system-arm"
    flags = ["-mcpu=cortex-m4", "-mthumb", "-mfloat-abi=soft", "--specs=rdimon.specs", "-T", HERE / "m4.ld", "-Wl,--no-warn-execstack"]
    library, extra, nm = "rdimon.specs", [HERE / "m4.c"], "arm-none-eabi-nm"
    pushed = 0

    @staticmethod
    def start(program, words):
        arguments = ",".join(f"arg={word}" for word in ["program", *words])
        return ["qemu-system-arm", "-M", "mps2-an386", "-nographic", "-monitor", "none", "-serial", "none",
                "-semihosting-config", f"enable=on,target=native,{arguments}", "-kernel", program]


def compile_c(machine, output, *words):
    """What nothing calls is left out, so that SQLite and the Rust need no operating system on the M4."""
    need(machine.compiler, machine.compiler_package)
    if run(machine.compiler, f"-print-file-name={machine.library}").strip() == machine.library:
        raise Missing(f"{machine.compiler} finds no {machine.library} ({machine.compiler_package})")
    run(machine.compiler, "-O3", "-w", *machine.flags, "-ffunction-sections", "-fdata-sections", "-Wl,--gc-sections", *words, "-o", output)


@functools.cache
def counter():
    """The counting plugin, for the emulators of this host."""
    need("gcc", "Debian: gcc")
    run("gcc", "-O2", "-shared", "-fPIC", "-fvisibility=hidden", HERE / "counter.c", "-o", OUT / "counter.so")
    return OUT / "counter.so"


def output_of(machine, program, *words):
    need(machine.emulator, machine.emulator_package)
    return run(*machine.start(program, [str(word) for word in words]))


def counts(machine, program, *words):
    """How often the instruction at each address was run."""
    need(machine.emulator, machine.emulator_package)
    emulator, *rest = machine.start(program, [str(word) for word in words])
    run(emulator, "-plugin", f"{counter()},out={OUT}/counts", *rest)
    times = {}
    for line in open(OUT / "counts"):
        address, count = line.split()
        times[int(address, 16)] = times.get(int(address, 16), 0) + int(count)
    return times


def one_pass(machine, program, text):
    """The same for one pass over a text alone: half of what three passes have more than one."""
    once, thrice = counts(machine, program, text, 1), counts(machine, program, text, 3)
    return {address: (count - once.get(address, 0)) / 2 for address, count in thrice.items()}
