"""The program of dist/: the assembly texts of the proved crates/ic_main, what they were made from, and how `cc` makes a program of one.

A text has what the kit's clang compiles for Linux, with nothing added. The C library has all that a text refers to, but for what
dist/program/system.c defines.
"""

import hashlib
import os
import pathlib
import platform
import re
import shutil
import subprocess
import tempfile

import built
import targets
from built import ROOT

CRATE = ROOT / "crates/ic_main"
# The library that the program's `main` calls.
BELOW = ROOT / "crates/ic_program"
FOLDER = ROOT / "dist/program"
SYSTEM, SOURCES = FOLDER / "system.c", FOLDER / "SOURCES"
# What stands beside the texts in dist/.
BESIDE = ["program/SOURCES", "program/system.c"]
MACHINES = ("x86_64", "aarch64")
HEAD = """/* The command program: numbered objects and collections at the command line, for Linux on {machine}.
   {verdict}
   Licensed under Apache 2.0 or MIT. Made by tools/build-library: do not edit. */
"""
STAMP = """# What the texts beside this file were made from: the kit, a sum of all sources, and one of each crate's. Made by tools/build-library.
kit: {kit}
all: {all}
"""


def text_of(machine, folder=FOLDER):
    return folder / f"ic_main-{machine}-linux.s"


def compile_kept(clang, name, room, words):
    """What the clang of a stand-in does with its words. It writes the assembly text besides, as ROOM/NAME.s."""
    if "-c" in words:
        text = ["-S" if word == "-c" else f"{room}/{name}.s" if before == "-o" else word for before, word in zip(["", *words], words)]
        subprocess.run([clang, *text], check=True)
    os.execv(clang, [clang, *words])


def compile_for(machine, room):
    """Writes ROOM/program-MACHINE.o and .s, and returns the verdict."""
    name, triple = f"program-{machine}", targets.TARGETS[f"{machine}-linux"].triple
    words = targets.rattle_words(CRATE, triple, targets.stand_in(name, room, "program"), room / f"{name}.o")
    return targets.make_once(CRATE, name, ("o", "s"), room, words, [pathlib.Path(__file__)])


def write_dist(folder, room):
    """Writes the texts and what they were made from, and returns what each was made of, and whether a text is other code than the kit's."""
    folder.mkdir(parents=True, exist_ok=True)
    made, wrong, before = {}, False, built.sums_of_sources(CRATE.name)
    for machine in MACHINES:
        text, verdict = text_of(machine, folder), compile_for(machine, room)
        print(f"{text.name}: {verdict}", flush=True)
        portable = targets.portable(f"{machine}-linux", (room / f"program-{machine}.s").read_text())
        text.write_text(HEAD.format(machine=machine, verdict=verdict) + portable)
        if targets.contents(targets.assembled(f"{machine}-linux", text, room)) != targets.contents(room / f"program-{machine}.o"):
            print(f"{text.name}: the text is not what the kit compiles")
            wrong = True
        made[f"program/{text.name}"] = verdict
    if built.sums_of_sources(CRATE.name) != before:
        raise SystemExit("a source of the program has changed meanwhile: make dist/ again")
    (folder / SOURCES.name).write_text(stamp(before, built.kit_name()))
    if folder != FOLDER:
        shutil.copyfile(SYSTEM, folder / SYSTEM.name)
    return made, wrong


def stamp(sums, kit):
    """The text of the file SOURCES."""
    lines = "".join(f"{crate}: {it}\n" for crate, it in sums.items())
    return STAMP.format(kit=kit, all=hashlib.sha256(lines.encode()).hexdigest()) + lines


def made_from():
    """What the file SOURCES says: the kit, the sum of all sources, and the sum of each crate's."""
    words = dict(line.split(": ") for line in SOURCES.read_text().splitlines() if not line.startswith("#"))
    return words.pop("kit"), words.pop("all"), words


def other_crates():
    """The crates whose sources are other than those that the texts were made from, or that were not there, or are no more."""
    then, now = made_from()[2], built.sums_of_sources(CRATE.name)
    return sorted(name for name in {*then, *now} if then.get(name) != now.get(name))


def compiler():
    """The C compiler that makes a program of a text, or None if there is none, or no text for this machine."""
    named = [os.environ["CC"]] if os.environ.get("CC") else ["cc", "gcc", "clang"]
    is_known = platform.system() == "Linux" and platform.machine() in MACHINES
    return next(filter(shutil.which, named), None) if is_known else None


def words_to_build(compiler, machine, program):
    """The command that builds the program. The compiler is a list of words."""
    return [*compiler, "-O2", "-pthread", text_of(machine), SYSTEM, "-o", program]


def build():
    """The path of the program of dist/ for this machine, which the compiler makes unless it has made it of the same files."""
    machine, folder = platform.machine(), ROOT / "out/program"
    data = b"".join(file.read_bytes() for file in (text_of(machine), SYSTEM))
    program = folder / f"ic_main-{hashlib.sha256(data).hexdigest()[:16]}"
    if not program.exists():
        folder.mkdir(parents=True, exist_ok=True)
        with tempfile.TemporaryDirectory(dir=folder) as room:
            made = pathlib.Path(room) / "ic_main"
            built.run(words_to_build([compiler()], machine, made))
            made.replace(program)
        for old in {*folder.glob("ic_main-*")} - {program}:
            old.unlink(missing_ok=True)
    return program
