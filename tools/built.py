"""What this checkout has built: how tools call the kit's prover on one crate over its libraries, which `rt` would prove anew, and whether a
program is of the sources that stand here now."""

import hashlib
import pathlib
import shutil
import subprocess

ROOT = pathlib.Path(__file__).resolve().parent.parent


def run(words, **more):
    """Runs a command, which has to succeed, and returns what it prints."""
    how = {"stdout": subprocess.PIPE, "stderr": subprocess.STDOUT, "stdin": subprocess.DEVNULL, **more}
    return subprocess.run(list(map(str, words)), check=True, text=True, errors="replace", **how).stdout


def kit():
    """The kit's folder, or None if there is no kit."""
    found = shutil.which("rt")
    folders = pathlib.Path(run([found, "doc"]).strip()).parents if found else []
    return next((folder for folder in folders if (folder / "bin/rattle").exists()), None)


def listed():
    """What each crate of crates.txt stands on, libraries of the kit among them."""
    lines = [line.partition("#")[0].partition(":") for line in (ROOT / "crates.txt").read_text().splitlines()]
    return {head.split()[0]: rest.split() for head, _, rest in lines if head.strip()}


def crates_below(name, of):
    """The repository's crates that one stands on, lowest first."""
    found = []
    for crate in filter(of.__contains__, of[name]):
        found += [it for it in [*crates_below(crate, of), crate] if it not in found]
    return found


def words(verb, crate):
    """The command of the kit, `build` or `check`, on the crate in whose folder it is run."""
    of, folder = listed(), kit()
    rlib = {name: ROOT / "crates" / name / "out/rlib" for name in of}
    root = "src/main.rt" if (ROOT / "crates" / crate / "src/main.rt").exists() else "src/lib.rt"
    found = [folder / "bin/rattle", verb, "--crate-name", crate, root, "--extern", f"std={folder}/rlibs/std.rlib"]
    for name in of[crate]:
        found += ["--extern", f"{name}={rlib.get(name, folder / 'rlibs')}/{name}.rlib"]
    for below in [folder / "rlibs", *(rlib[name] for name in crates_below(crate, of))]:
        found += ["-L", f"dependency={below}"]
    return [*found, "--antt-project", folder / "rattle/logic/antt-project.json", "--logic-built", folder / "logic_built"]


def kit_name():
    """What the kit calls itself, or None if there is no kit."""
    return run(["rt", "version"]).strip() if shutil.which("rt") else None


def sums_of_sources(crate):
    """For the crate and each that it stands on, lowest first, a sum of its sources and of what it stands on."""
    sums, of = {}, listed()
    for name in [*crates_below(crate, of), crate]:
        found = hashlib.sha256(f"{name}: {of[name]}\n".encode())
        files = (it for part in ("src", "specs", "proofs") for it in (ROOT / "crates" / name / part).rglob("*") if it.is_file())
        for file in sorted(files):
            found.update(f"{file.relative_to(ROOT)} {hashlib.sha256(file.read_bytes()).hexdigest()}\n".encode())
        sums[name] = found.hexdigest()
    return sums


def sum_of_sources(crate):
    """A sum of all that a proof and a build of the crate read: the kit, and the sources of it and of all that it stands on."""
    return hashlib.sha256(f"{kit_name()} {sums_of_sources(crate)}".encode()).hexdigest()


def stamp_of(crate):
    """The file in which the sum of the sources stands that the crate's program was proved and built from."""
    return ROOT / "crates" / crate / "out" / f"{crate}.sources"


def stamp(crate, sum_before):
    """Notes that the crate's program was proved and built from the sources of this sum, which was taken before, if they are still the same."""
    if sum_of_sources(crate) == sum_before:
        stamp_of(crate).write_text(sum_before)


def program_of(crate):
    """The path of the crate's program."""
    return ROOT / "crates" / crate / "out" / crate


def is_current(crate):
    """Whether the crate's program was proved and built from the sources that stand here now."""
    stamp = stamp_of(crate)
    return program_of(crate).is_file() and stamp.is_file() and stamp.read_text() == sum_of_sources(crate)


def proved_program(crate):
    """The path of the crate's program, which `rt run` proves and builds first unless it is current."""
    if not is_current(crate):
        sum_before = sum_of_sources(crate)
        run(["rt", "run"], cwd=ROOT / "crates" / crate)
        stamp(crate, sum_before)
    return program_of(crate)
