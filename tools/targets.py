"""Compiles crates/ic_ffi for each processor and system, over the libraries that this checkout has built.

`rattle build` proves the crate for each target of the kit, and has the clang of its toolchain compile the module that comes of it. In the
toolchain that it is handed here, that clang first hardens the module, and keeps it and its assembly text. The kit's clang then compiles a
kept module for each system that the kit has no target for.

What is made for a target of the kit stays in crates/ic_ffi/out/made, and a later build of the same files takes it from there.
"""

import collections
import hashlib
import os
import pathlib
import re
import shutil
import subprocess
import sys

import built
from built import ROOT, kit, run

CRATE = ROOT / "crates/ic_ffi"
HEADER = ROOT / "include/ic.h"

# Clang's triple. The module that it is made of, for a system that the kit doesn't know. What each function gets, and what the module gets,
# which clang calls attributes and module flags. Words for clang. How its assembly text begins a comment.
Target = collections.namedtuple("Target", "triple module attributes flags words comment")
BRANCHES = ("cf-protection-branch", "cf-protection-return")
BARE = ("-ffunction-sections", "-fforce-dwarf-frame")
TARGETS = {
    "x86_64-linux": Target("x86_64-unknown-linux-gnu", None, "noredzone noimplicitfloat uwtable", BRANCHES, (), "#"),
    "aarch64-linux": Target("aarch64-unknown-linux-gnu", None, 'noimplicitfloat uwtable "branch-target-enforcement"',
                            ("branch-target-enforcement",), ("-ffixed-x18",), "//"),
    "wasm64": Target("wasm64-unknown-unknown", None, "", (), (), "#"),
    "x86_64-macos": Target("x86_64-apple-macos11", "x86_64-linux", "noredzone noimplicitfloat uwtable", (), (), "##"),
    "aarch64-macos": Target("arm64-apple-macos11", "aarch64-linux", "noimplicitfloat uwtable", (), (), ";"),
    "x86_64-windows": Target("x86_64-pc-windows-gnu", "x86_64-linux", "noredzone noimplicitfloat", (), (), "#"),
    # The module of wasm64 reads its stack pointer as 64 bits.
    "wasm32": Target("wasm32-unknown-unknown", "x86_64-linux", "", (), (), "#"),
    # Processors of 32 bits, often with no system and no library. Where they stand in a call is told by directives that take no memory there.
    "thumbv7em": Target("thumbv7em-none-eabi", "x86_64-linux", "noimplicitfloat", (), ("-mcpu=cortex-m4", "-mfloat-abi=soft", *BARE), "@"),
    "thumbv6m": Target("thumbv6m-none-eabi", "x86_64-linux", "noimplicitfloat", (), ("-mcpu=cortex-m0", "-mfloat-abi=soft", *BARE), "@"),
    "riscv32imac": Target("riscv32-unknown-elf", "x86_64-linux", "noimplicitfloat", (), ("-march=rv32imac", "-mabi=ilp32", *BARE), "#"),
}
# What tells other tools of the compiler or of one processor, or what the text has besides in a note, and the unwind tables of Arm, which a
# program without exceptions has no use for.
LEFT_OUT = re.compile(r"\s*\.(addrsig|addrsig_sym|ident|file|aeabi_subsection|aeabi_attribute|eabi_attribute|attribute|cpu|fpu"
                      r"|fnstart|fnend|cantunwind|save|pad|setfp)\b")
# Functions that a text has where its processor lacks an instruction. To fill or to copy a few words takes as many stores in place of a call.
HELPERS = ROOT / "tools/helpers.ll"
FEW_STORES = 8
# The processors that divide numbers of 32 bits, and those that write such a number to any address.
DIVIDES, UNALIGNED = {"thumbv7em", "riscv32imac"}, {"thumbv7em"}
# A line of the assembly text that has a string, in which no comment begins and no name stands.
STRING = re.compile(r"\s*\.(ascii|asciz)\s")
# A name in quotes.
QUOTED = re.compile(r'"([^"\n]*::[^"\n]*)"')
# The lines that have a name in what llvm-objdump prints: what stands before it, the name, and what stands behind it.
NAMED = [re.compile(line, re.M) for line in (
    r"^((?:Disassembly|Contents) of section |RELOCATION RECORDS FOR \[)(.+?)(\]?:)$",
    r"^(<)(.+)(>:)$",
    r"^([^<\n]*\s<)(.+?)((?:\+0x[0-9a-f]+)?>)$",
    r"^([0-9a-f]*\s+R_\w+\s+)(.+?)((?:[-+]0x[0-9a-f]+)?)$",
)]
# The sections that a program loads.
LOADED = re.compile(r"\.(rodata|data|tdata|init_array|text)")
# What is kept of a target of the kit.
MADE = ("a", "ll", "s", "words")
STAND_IN = """#!{python} -B
import sys
sys.path.insert(0, {tools!r})
import {module}
{module}.compile_kept({clang!r}, {name!r}, {room!r}, sys.argv[1:])
"""


def clang():
    return kit() / "toolchain/bin/clang"


def calls():
    """The names that the header declares."""
    return set(re.findall(r"^uint32_t (ic_\w+)\(", HEADER.read_text(), re.M))


def version():
    """The version that the header names: three numbers."""
    return re.findall(r"^#define IC_VERSION_(?:MAJOR|MINOR|PATCH) (\d+)$", HEADER.read_text(), re.M)


def version_name():
    """The name that the header refers to, and that each text defines."""
    return "ic_version_" + "_".join(version()[:2])


def rattle_words(crate, triple, toolchain, made):
    """The command that proves the crate over the libraries that are built, and compiles it."""
    # What one target's proof keeps, the next takes. A second job is of use only to a proof from nothing.
    kept = "out/incremental"
    words = [*built.words("build", crate.name), "--links", f"{crate.name}=", "--incremental", kept, "--jobs", "1" if (crate / kept).is_dir() else "2"]
    words += ["--backend", "llvm", *(["--cpu", "x86-64"] if triple.startswith("x86_64") else [])]
    return [*words, "--target", triple, "--toolchain", toolchain, "-o", made]


def stand_in(name, room, module="targets"):
    """A toolchain whose clang is the `compile_kept` of the module of tools/."""
    of, folder = kit() / "toolchain", room / f"toolchain-{name}"
    (folder / "bin").mkdir(parents=True)
    (folder / "lib").symlink_to(of / "lib")
    for tool in (of / "bin").iterdir():
        if tool.name != "clang":
            (folder / "bin" / tool.name).symlink_to(tool)
    script = folder / "bin/clang"
    words = {"python": sys.executable, "tools": str(ROOT / "tools"), "clang": str(of / "bin/clang"), "name": name, "room": str(room), "module": module}
    script.write_text(STAND_IN.format(**words))
    script.chmod(0o755)
    return folder


def compile_kept(clang, name, room, words):
    """What the clang of a stand-in does with its words. It writes ROOM/NAME.ll and NAME.s, and in NAME.words how it made the second."""
    room, target = pathlib.Path(room), TARGETS[name]
    words += target.words
    for at, word in enumerate(words):
        if word.endswith(".bc"):
            (room / f"{name}.ll").write_text(text_of_module(clang, word, target))
            words[at] = str(write_hardened(name, name, room))
    if "-c" in words:
        text = ["-S" if word == "-c" else str(room / f"{name}.s") if before == "-o" else word for before, word in zip(["", *words], words)]
        (room / f"{name}.words").write_text("\n".join(text))
        subprocess.run([clang, *text], check=True)
    os.execv(clang, [clang, *words])


def text_of_module(clang, module, target):
    words = [f"--target={target.triple}", "-x", "ir", "-Wno-override-module", "-Xclang", "-disable-llvm-passes", "-Xclang", "-emit-llvm-uselists"]
    return run([clang, *words, module, "-S", "-emit-llvm", "-o", "-"], stderr=None)


def write_hardened(module, name, room):
    """Writes the module, hardened for the target."""
    text, target = (room / f"{module}.ll").read_text(), TARGETS[name]
    if target.attributes:
        text = re.sub(r"^(attributes #\d+ = \{.*) \}$", rf"\1 {target.attributes} }}", text, flags=re.M)
    if target.flags:
        if "!llvm.module.flags" in text:
            raise ValueError("the kit's module has flags of its own")
        first = 1 + max(map(int, re.findall(r"^!(\d+) =", text, re.M)), default=0)
        text += "".join(f'!{first + at} = !{{i32 8, !"{flag}", i32 1}}\n' for at, flag in enumerate(target.flags))
        text += f"!llvm.module.flags = !{{{', '.join(f'!{first + at}' for at in range(len(target.flags)))}}}\n"
    if not name.startswith("wasm"):
        text = re.sub(r"^(target triple = .*)$", rf'\1\n\nmodule asm ".globl {version_name()}"\nmodule asm "{version_name()} = 1"', text, flags=re.M)
    if name == "wasm32":
        text = re.sub(r'"target-cpu"="[^"]*"', '"target-cpu"="mvp"', text)
    elif is_bare(name):
        text = re.sub(r' "target-cpu"="[^"]*"', "", text).replace(" ptrtoaddr ptr ", " ptrtoint ptr ")
    hardened = room / f"{name}.hardened.ll"
    hardened.write_text(text)
    return hardened


def sum_of_files(crate, tools):
    """A sum of all that a build reads: the kit, the crate, the libraries that are built, whose `format` has a sum of each, and how it is built."""
    found = hashlib.sha256(f"{run(['rt', 'version'])}{version_name()}".encode())
    own = [file for part in ("src", "specs", "proofs") for file in (crate / part).rglob("*") if file.is_file()]
    below = ROOT.glob("crates/*/out/rlib/*.rlib/format")
    for file in sorted([*own, *below, ROOT / "crates.txt", pathlib.Path(built.__file__), pathlib.Path(__file__), *tools]):
        found.update(f"{file.relative_to(ROOT)} {hashlib.sha256(file.read_bytes()).hexdigest()}\n".encode())
    return found.hexdigest()


def make_once(crate, name, endings, room, words, tools=()):
    """Writes ROOM/NAME with each ending, by a build that has these words, and returns the verdict. A build of the same files is not made again."""
    made, sum_now, endings = crate / "out/made" / name, sum_of_files(crate, tools), [*endings, "verdict"]
    if not (made / "sum").is_file() or (made / "sum").read_text() != sum_now:
        said = run(words, cwd=crate)
        (room / f"{name}.verdict").write_text(re.search(r"^logic=proved .*", said, re.M)[0])
        shutil.rmtree(made, ignore_errors=True)
        made.mkdir(parents=True)
        for ending in endings:
            shutil.copyfile(room / f"{name}.{ending}", made / f"{name}.{ending}")
        (made / "sum").write_text(sum_now)
    for ending in endings:
        shutil.copyfile(made / f"{name}.{ending}", room / f"{name}.{ending}")
    return (room / f"{name}.verdict").read_text()


def compile_proved(name, room):
    """Writes ROOM/NAME.a, .ll, .s and .words of a target that the kit has, and returns the verdict."""
    words = rattle_words(CRATE, TARGETS[name].triple, stand_in(name, room), room / f"{name}.a")
    return make_once(CRATE, name, MADE, room, [*words, "--crate-type", "staticlib"])


def is_bare(name):
    """Whether the text is for a processor of 32 bits with no library, so that it has to be complete in itself."""
    return set(BARE) <= set(TARGETS[name].words)


def compile_other(name, room):
    """Writes ROOM/NAME.s, or .o of WebAssembly, of a kept module for a system that the kit doesn't know."""
    target = TARGETS[name]
    words = (room / f"{target.module}.words").read_text().splitlines()
    same = [it for pair in zip(words, words[1:]) if pair[0] == "-mllvm" for it in pair]
    words = [clang(), f"--target={target.triple}", *target.words, *same, "-O3", "--no-default-config", "-Wno-override-module", "-x", "ir"]
    module = write_hardened(target.module, name, room)
    if is_bare(name):
        whole = room / f"{name}.whole.ll"
        run([*words, module, "-S", "-emit-llvm", "-o", whole])
        whole.write_text(with_helpers(whole.read_text(), name))
        words[1:1], module = ["-Xclang", "-disable-llvm-passes"], whole
    run([*words, module, *(["-c", "-o", room / f"{name}.o"] if name == "wasm32" else ["-S", "-o", room / f"{name}.s"])])


def with_helpers(text, name):
    """The optimized module with the functions of tools/helpers.ll that it calls, in place of those that its processor has in a library."""
    def called(it):
        count, aligned = re.search(r", i64 (\d+), i1 false\)$", it[0]), min(map(int, re.findall(r"\balign (\d+)", it[0])), default=1)
        if count and int(count[1]) <= FEW_STORES * (4 if name in UNALIGNED else min(4, aligned)):
            return it[0]
        if "memset" in it[0] and ", i8 0, " not in it[0]:
            raise ValueError(f"no helper writes what {it[0]} does")
        return it[0].replace(it[1], "@ic.clear" if "memset" in it[1] else "@ic.copy")

    remainder = "@ic.remainder.divided" if name in DIVIDES else "@ic.remainder"
    text = re.sub(r"= urem i64 ([^,\n]+), ([^,\n]+)", rf"= call i64 {remainder}(i64 \1, i64 \2)", text)
    text = re.sub(r"call void (@llvm\.mem(?:set\.p0|cpy\.p0\.p0)\.i64)\(.*?, i1 false\)", called, text)
    for function in re.findall(r"^define .*?^}$", HELPERS.read_text(), re.M | re.S):
        if re.search(r"@[\w.]+\(", function)[0] in text:
            text += f"\n{function}\n"
    return text


def needed(name, text, room):
    """The names that the text needs of others."""
    return sorted(set(re.findall(r"^.*\*UND\*\s+\S+ (\S+)$", run(["llvm-objdump", "-t", assembled(name, text, room)], executable=clang()), re.M)))


def compile_all(room, names=TARGETS):
    """Compiles for the targets, and returns what each was made of: the verdict, or the module."""
    made = {}
    for name in names:
        module = TARGETS[name].module
        if module:
            compile_other(name, room)
        made[name] = f"the module of {module}, for {TARGETS[name].triple}" if module else compile_proved(name, room)
        print(f"{name}: {made[name]}", flush=True)
    return made


def link_wasm(name, room, module):
    if name == "wasm64":
        run([kit() / "bin/rattle-link", "--target", TARGETS[name].triple, "--toolchain", kit() / "toolchain", "-o", module, room / f"{name}.a"])
        return
    words = ["wasm-ld", "--no-entry", "--stack-first", "--export=__heap_base", "--strip-all", "-z", "stack-size=65536", "--gc-sections"]
    run([*words, *(f"--export={it}" for it in sorted(calls())), "-o", module, room / f"{name}.o"], executable=clang())


def plain(name):
    """A name of the module as one that needs no quotes."""
    return re.sub(r"[^\w.$]+", ".", name).rstrip(".")


def portable(name, text):
    """The assembly text without comments and what other assemblers don't know, and with names that need no quotes."""
    text = re.sub(r"^\s*\.def\s+@feat\.00;\n(?:.*\n)*?\s*\.endef\n|^.*@feat\.00.*\n", "", text, flags=re.M)
    quoted = {it: plain(it) for line in text.splitlines() if not STRING.match(line) for it in QUOTED.findall(line)}
    if len(set(quoted.values())) < len(quoted):
        raise ValueError("two names of the text are the same without what needs quotes")
    comment, lines = re.compile(rf"\s*{re.escape(TARGETS[name].comment)}+\s.*$"), []
    for line in text.splitlines():
        if not STRING.match(line):
            line = comment.sub("", QUOTED.sub(lambda it: quoted[it[1]], line)).rstrip()
        if line and not LEFT_OUT.match(line) and not (is_bare(name) and ".note.GNU-stack" in line):
            lines.append(line)
    return "".join(f"{line}\n" for line in lines)


def exported(name, text):
    """The names that the text exports, as C writes them."""
    names = {it.strip('"') for it in re.findall(r"^\s*\.globl\s+(\S+)", text, re.M)} - {version_name()}
    return {re.sub("^_", "", it) for it in names} if "macos" in name else names


def has_other_code(name, text, room):
    """Whether the kit's clang assembles the text to other instructions than those of the kit's archive, but for how padding is written."""
    theirs = room / f"{name}.of-archive.o"
    member = run(["llvm-ar", "t", room / f"{name}.a"], executable=clang()).split()[0]
    theirs.write_bytes(subprocess.run(["llvm-ar", "p", room / f"{name}.a", member], executable=clang(), check=True, stdout=subprocess.PIPE).stdout)
    return instructions(assembled(name, text, room)) != instructions(theirs)


def assembled(name, text, room):
    """The object file that the kit's clang makes of the text."""
    made = room / f"{name}.of-text.o"
    words = [it for it in TARGETS[name].words if it.startswith("-m")]
    run([clang(), f"--target={TARGETS[name].triple}", *words, "-c", text, "-o", made])
    return made


def dumped(file, *words):
    """What llvm-objdump prints of an object file, with names as `plain` writes them."""
    text = run(["llvm-objdump", *words, file], executable=clang())
    for line in NAMED:
        text = line.sub(lambda it: f"{it[1]}{plain(it[2])}{it[3]}", text)
    return text


def instructions(file):
    """What each section of an object file has: instructions, their bytes, and relocations."""
    text = dumped(file, "-dr", "--no-leading-addr")
    text = re.sub(r"^ +[0-9a-f]{2}(?: [0-9a-f]{2})*\s+(?:nop\w?\b|xchgw\s+%ax, %ax).*\n", "", text, flags=re.M)
    return dict(re.findall(r"^Disassembly of section ([^\n]+):\n(.*?)(?=^Disassembly|\Z)", text, re.M | re.S))


def contents(file):
    """What each section of an object file has that a program loads: instructions as above, or bytes, and all relocations."""
    text = dumped(file, "-sr")
    parts = re.findall(r"^(Contents of section|RELOCATION RECORDS FOR) \[?([^\n]+?)\]?:\n(.*?)(?=^Contents|^RELOCATION|\Z)", text, re.M | re.S)
    data = {(kind, name): part.strip() for kind, name, part in parts if LOADED.match(name)}
    return instructions(file), {(kind, name): it for (kind, name), it in data.items() if kind[0] == "R" or not name.startswith(".text")}
