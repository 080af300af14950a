"""The machines on which the texts of dist/ are played: this one, and those that qemu is for another processor, with a system or with none."""

import collections
import shutil

from checks import ROOT, TESTS, WARNINGS, compilers, run

TEXT = ROOT / "dist/asm/ic.S"
# What builds a program, the sources and the words behind it, and what runs it. A board has no system: qemu hands it the words of the command
# line, and prints what it prints.
Machine = collections.namedtuple("Machine", "name compiler more runner is_board")
BOARD = ["-nographic", "-monitor", "none", "-serial", "none"]
CORTEX_M = ["--specs=rdimon.specs", TESTS / "board.c", "-Wl,--section-start=.vectors=0", "-Wl,--no-warn-execstack"]
# The text and the data of a program in the memory of the board `virt`.
VIRT = ["--specs=picolibc.specs", "--oslib=semihost", "--crt0=semihost", "-Wl,--defsym=__flash=0x80000000", "-Wl,--defsym=__flash_size=0x400000",
        "-Wl,--defsym=__ram=0x80400000", "-Wl,--defsym=__ram_size=0x200000"]
OTHERS = [
    Machine("aarch64 in Linux", ["aarch64-linux-gnu-gcc", "-static"], [], ["qemu-aarch64"], False),
    Machine("Thumb of 32 bits in Linux", ["arm-linux-gnueabihf-gcc", "-static", "-mcpu=cortex-a7"], [], ["qemu-arm"], False),
    Machine("Cortex-M4", ["arm-none-eabi-gcc", "-mcpu=cortex-m4"], [*CORTEX_M, "-Wl,--defsym=board_stack=0x20400000"],
            ["qemu-system-arm", "-M", "mps2-an386", *BOARD], True),
    Machine("Cortex-M0", ["arm-none-eabi-gcc", "-mcpu=cortex-m0"], [*CORTEX_M, "-Wl,-Tdata=0x20000000", "-Wl,--defsym=board_stack=0x20004000"],
            ["qemu-system-arm", "-M", "microbit", *BOARD], True),
    Machine("RISC-V of 32 bits", ["riscv64-unknown-elf-gcc", "-march=rv32imac", "-mabi=ilp32"], VIRT,
            ["qemu-system-riscv32", "-M", "virt", "-bios", "none", *BOARD], True),
]


def machines():
    """The machines that can be had here, this one first, and for each of the others what is lacking."""
    here = [Machine("this machine", compilers()[:1], [], [], False)] if compilers() else []
    lacking = {it.name: [tool for tool in (it.compiler[0], it.runner[0]) if not shutil.which(tool)] for it in OTHERS}
    return [*here, *(it for it in OTHERS if not lacking[it.name])], {name: tools for name, tools in lacking.items() if tools}


def build_for(machine, source, target):
    """What is wrong with building the program for the machine."""
    words = [*machine.compiler, "-std=c11", "-O2", *WARNINGS, f"-I{ROOT}/include", source, TEXT, *machine.more, "-o", target]
    return run(words)[1]


def build_in_cpp(machine, source, target):
    """The same of a program in C++ for a board with a Cortex-M, or None where the compiler has no library for it."""
    cross, objects = [machine.compiler[0].replace("gcc", "g++"), *machine.compiler[1:]], [target.with_suffix(".ic.o"), target.with_suffix(".board.o")]
    flags = ["-std=c++17", "-O2", "-fno-exceptions", "-fno-rtti", *WARNINGS, "-Wno-psabi", f"-I{ROOT}/include"]
    if not shutil.which(cross[0]) or run([*cross, *flags, "-fsyntax-only", "-x", "c++", "-include", "map", "/dev/null"])[1]:
        return None
    wrong = ""
    for part, made in zip((TEXT, TESTS / "board.c"), objects):
        wrong = wrong or run([*machine.compiler, "-c", part, "-o", made])[1]
    more = [it for it in machine.more if it != TESTS / "board.c"]
    # The library of C++ would ask a system for random numbers.
    return wrong or run([*cross, *flags, source, *objects, *more, "-Wl,--defsym=getentropy=0", "-o", target])[1]


def run_on(machine, program, *words, **more):
    """What the program prints on the machine, by these words of its command line, and what is wrong with how it ended."""
    if not machine.is_board:
        return run([*machine.runner, program, *words], **more)
    # The C library of RISC-V has a name of its own for the program.
    words = words if "riscv" in machine.compiler[0] else [program.name, *words]
    arguments = ",".join(["enable=on", "target=native", *(f"arg={it}" for it in words)])
    printed, wrong = run([*machine.runner, "-semihosting-config", arguments, "-kernel", program], **more)
    return printed.replace("\r\n", "\n"), wrong
