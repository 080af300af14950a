"""Our programs that bench/ measures: templates, which are proved in a repository of their own.

`bench` is the one among those that bench/run measures, and `width_bench` the one that bench/count-widths does."""

import pathlib
import shutil
import subprocess
import tempfile

from checks import ROOT, Tally
from vendoring import Folder, files_of

# Those that `bench/run --check` runs without a proof. That of `width_bench` would take minutes, so its checksums are compared where it is proved.
CRATES = ("bench",)


def beside(crate):
    """The repository in which it is proved. It is beside this one, since `rt ci` refuses sources of other crates anywhere inside."""
    return ROOT.with_name(f"{ROOT.name}-{crate}")


def copied(folder, crate):
    """Copies the crate and all that it stands on into the folder, or renews them there, and returns the crate's folder."""
    folder.mkdir(exist_ok=True)
    copy = Folder(folder)
    copy.renew([crate])
    if copy.kept:
        raise SystemExit(f"changed by hand in {folder}: {' '.join(copy.kept)}")
    # with other handles `rt ci` would prove the crates below anew
    shutil.copyfile(ROOT / "HANDLES", folder / "HANDLES")
    return folder / "crates" / crate


def proved(crate="bench"):
    """Proves the program, over what the gate has proved of the crates below, and returns the path of what is built."""
    folder = copied(beside(crate), crate)
    subprocess.run(["rt", "ci"], cwd=beside(crate), check=True, stdin=subprocess.DEVNULL, stdout=subprocess.PIPE, stderr=subprocess.STDOUT, text=True)
    return folder / "out" / crate


def check_checksums(tally, crate):
    """Runs the program without a proof: once, since the interpreter of `rt try` would not come to an end. On a busy machine it takes minutes."""
    ran = subprocess.run(["rt", "try", "--steps", "1", "--seconds", "600"], cwd=crate, stdin=subprocess.DEVNULL, capture_output=True, text=True)
    wanted = (crate / "stdout").read_text()
    differ = sorted({*ran.stdout.splitlines()} ^ {*wanted.splitlines()})
    tally.check(f"{crate.name}, run without a proof", ran.returncode and f"ended with {ran.returncode}\n{ran.stderr}")
    tally.check(f"the checksums of {crate.name}", differ and "\n".join(["differ:", *differ]))


def check_layout(tally, crate):
    """Has `rt fmt` lay out the files, which has to change none."""
    subprocess.run(["rt", "fmt"], cwd=crate, check=True, stdin=subprocess.DEVNULL, stdout=subprocess.DEVNULL)
    top = crate.parent.parent
    differ = [path for path, data in files_of(crate.name).items() if (top / path).read_bytes() != data]
    tally.check(f"the layout of {crate.name}", differ and f"is not that of `rt fmt`: {' '.join(differ)}")


def check():
    """Puts the programs together in a temporary folder, and returns whether something is wrong with one that no proof is needed to find."""
    tally = Tally()
    with tempfile.TemporaryDirectory(prefix="bench-") as room:
        for name in CRATES:
            crate = copied(pathlib.Path(room), name)
            for part in (check_checksums, check_layout):
                part(tally, crate)
    print(f"{tally.passed} passed, {tally.failed} failed")
    return 1 if tally.failed else 0
