"""What the tests of the library share: a tally of them, commands, C compilers, and the examples."""

import os
import pathlib
import shutil
import subprocess

ROOT = pathlib.Path(__file__).resolve().parent.parent
TESTS = ROOT / "tests/library"
# The examples that need POSIX and robust locks, which tell that their holder has died.
POSIX = {"shared.c"}
WARNINGS = ["-Wall", "-Wextra", "-Wpedantic", "-Wshadow", "-Wconversion", "-Werror"]


class Tally:
    def __init__(self):
        self.passed = self.failed = 0

    def count(self, name, passed, failed, seconds=None):
        self.passed += passed
        self.failed += failed
        print(f"{name}: {passed} passed, {failed} failed" + (f", {seconds:.1f} seconds" if seconds is not None else ""), flush=True)

    def check(self, name, wrong):
        """Counts one test, which failed if anything is wrong."""
        self.passed += not wrong
        self.failed += bool(wrong)
        if wrong:
            print(f"{name}: {wrong}", flush=True)


def run(words, **more):
    """What the program prints, and what is wrong with how it ended."""
    try:
        done = subprocess.run(words, stdin=subprocess.DEVNULL, stdout=subprocess.PIPE, stderr=subprocess.STDOUT, text=True, errors="replace", **more)
    except subprocess.TimeoutExpired:
        return "", f"did not end within {more['timeout']} seconds"
    return done.stdout, f"ended with {done.returncode}\n{done.stdout[-2000:]}" if done.returncode else ""


def compilers():
    """A command for each compiler that is there: the one that CC names, or gcc and clang."""
    named = [os.environ["CC"]] if "CC" in os.environ else ["gcc", "clang"]
    return [name for name in named if shutil.which(name)] or [name for name in ["cc"] if shutil.which(name)]


def cpp_compilers():
    """The same for C++."""
    named = [os.environ["CXX"]] if "CXX" in os.environ else ["g++", "clang++"]
    return [name for name in named if shutil.which(name)] or [name for name in ["c++"] if shutil.which(name)]


def node():
    """How to run a script in node, and the modules of dist/wasm that it can run: none if there is no node."""
    if not shutil.which("node"):
        return [], []
    probe = f"import('{ROOT}/dist/wasm/ic.mjs').then((it) => process.exit(it.hasMemory64() ? 0 : 1))"
    flags = next((it for it in ([], ["--experimental-wasm-memory64"]) if not run(["node", *it, "-e", probe])[1]), None)
    return ["node", "--no-warnings", *(flags or [])], ["ic32.wasm"] if flags is None else ["ic.wasm", "ic32.wasm"]


def build(compiler, source, target, code, include=ROOT / "include"):
    """What is wrong with building the program with the library's code. The compiler is a list of words."""
    threads = ["-pthread"] if source.name in POSIX else []
    return run([*compiler, "-std=c11", "-O2", *WARNINGS, *threads, f"-I{include}", source, code, "-o", target])[1]


def runs(program, source, runner=()):
    """What is wrong with what an example prints."""
    printed, wrong = run([*runner, program], timeout=60)
    return wrong or (printed.replace("\r\n", "\n") != source.with_suffix(".stdout").read_text() and f"printed\n{printed}")


def examples(posix=True):
    """The examples in C, with those that need POSIX or without them."""
    return [source for source in sorted((ROOT / "examples").glob("*.c")) if posix or source.name not in POSIX]
