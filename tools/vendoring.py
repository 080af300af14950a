"""What tools/vendor does: copies crates of this repository into another one, and renews them there."""

import hashlib
import re

from checks import ROOT

VERSION = (ROOT / "VERSION").read_text().strip()
NAME, LOCK = "fasciahyssop", "fasciahyssop.lock"
# The crate that --new begins with.
OWN = "job_queue"
PARTS = ("src", "specs", "proofs")
# Crates that stand as templates, each in its folder, and not in crates/, where the gate would prove them. Each file of a template has `.txt` behind
# its name, since `rt ci` refuses any source outside the crates of crates.txt. LINE is the crate's own line there.
TEMPLATES = {
    "bench": ROOT / "bench/rattle",
    "width_bench": ROOT / "bench/widths",
    "intrusive_collections": ROOT / "tools/intrusive_collections",
}
LINE = "crate-line.txt"
# The README of a new repository.
PAGE = """# {name}

A repository of proved Rattle, which begins with copies of crates of Fasciahyssop, a library of proved intrusive collections.

| Part | What it is |
|---|---|
| [`crates/{own}`](crates/{own}/README.md) | the crate that is yours to change |
| the other crates | copies of version {version}, which a later run of `tools/vendor` renews |
| [`crates.txt`](crates.txt) | each crate with the crates that it uses, lowest first. Your own lines are outside the two comments |
| [`HANDLES`](HANDLES) | which handles a program may have: threads, and to wait for them |
| [`fasciahyssop.lock`](fasciahyssop.lock) | the version, the crates that were named, and the checksum of each file that was copied |
| [`licenses`](licenses) | the licenses of the copies |

## Work

In `crates/{own}`:

```sh
rt try --test # compiles, runs the tests, and proves nothing
rt check      # proves the crate, and at first the crates that it uses
```

At the top, `rt ci` is the gate. It proves all crates from nothing, and runs all tests.

## A crate of your own

Write its code in `crates/NAME/src/lib.rt`, or in `src/main.rt` if it is a program, and give it a line in `crates.txt`:

```text
NAME: ic_unsafe_ref ic_link_ops ic_pool
```

A crate uses those that its line names, and no other one. `rt check --start FUNCTION --allow-holes` writes the file of a proof, and prints the goals that
are left.

## The copies

| Crate that was named | What it is |
|---|---|
{rows}
The crates that these stand on were copied, too. In a checkout of Fasciahyssop `tools/vendor CRATE FOLDER` copies one more into this folder, and
`tools/vendor FOLDER` renews all. A copy that you have changed is named, and kept.
"""
BLOCK = re.compile(rf"^# {NAME} \S+: begin\n(.*?)^# {NAME} \S+: end\n\n?", re.M | re.S)
ASKED = re.compile(r"^# Crates: ?(.*)$", re.M)
LINES = re.compile(r"^# crates\.txt: (\w{64})$", re.M)
# A line of the lock; no path leads out of the folder.
SUM = re.compile(r"^(\w{64})  ((?:crates|licenses)/(?!.*\.\.).+)$", re.M)


class Refused(Exception):
    """Nothing was written."""


def sum_of(data):
    return hashlib.sha256(data).hexdigest()


def crate_lines(text):
    """Each crate of a crates.txt with its line and what it stands on, in the order of the lines."""
    found = {}
    for line in text.splitlines():
        said, colon, below = line.partition("#")[0].partition(":")
        if colon:
            found[said.split()[0]] = line.strip(), below.split()
    return found


def all_lines():
    """The lines of all crates of this repository, lowest first, and then those of the templates."""
    return crate_lines("".join(it.read_text() for it in (ROOT / "crates.txt", *(folder / LINE for folder in TEMPLATES.values()))))


def with_all_below(names):
    """The crates, and those of this repository that they stand on, lowest first, each with its line."""
    lines = all_lines()
    unknown = [it for it in names if it not in TEMPLATES and (it not in lines or not (ROOT / "crates" / it / "src/lib.rt").is_file())]
    if unknown:
        raise Refused(f"no library of {ROOT / 'crates.txt'}: {' '.join(unknown)}")
    needed, left = set(), list(names)
    while left:
        crate = left.pop()
        if crate not in needed:
            needed.add(crate)
            left += [it for it in lines[crate][1] if it in lines]
    return {crate: line for crate, (line, _) in lines.items() if crate in needed}


def template_of(crate):
    """The files of a template, by their paths where it is copied to."""
    folder = TEMPLATES[crate]
    files = (it for it in sorted(folder.rglob("*.txt")) if it.name != LINE)
    return {f"crates/{crate}/{it.relative_to(folder).as_posix().removesuffix('.txt')}": it.read_bytes() for it in files}


def files_of(crate, root=ROOT):
    """The files of a crate that are copied, by their paths."""
    if root == ROOT and crate in TEMPLATES:
        return template_of(crate)
    folder = root / "crates" / crate
    files = [folder / "README.md", *(it for part in PARTS for it in sorted((folder / part).rglob("*")))]
    return {it.relative_to(root).as_posix(): it.read_bytes() for it in files if it.is_file()}


class Folder:
    """The repository that is copied into, and what its lock says."""

    def __init__(self, path):
        self.path = path
        lock = self.text(LOCK)
        self.sums = {path: sum for sum, path in SUM.findall(lock)}
        self.asked = " ".join(ASKED.findall(lock)).split()
        self.lines_sum = "".join(LINES.findall(lock))
        self.written, self.removed, self.kept, self.overwritten = 0, 0, [], []

    def text(self, name):
        file = self.path / name
        return file.read_text() if file.is_file() else ""

    def put(self, path, new, force):
        """Writes or removes a file, unless it was changed by hand."""
        file = self.path / path
        now = file.read_bytes() if file.is_file() else None
        if now == new:
            return
        if now is not None and sum_of(now) != self.sums.get(path):
            (self.overwritten if force else self.kept).append(path)
            if not force:
                return
        if new is None:
            file.unlink()
            self.removed += 1
            while not any(file.parent.iterdir()):
                file = file.parent
                file.rmdir()
        else:
            file.parent.mkdir(parents=True, exist_ok=True)
            file.write_bytes(new)
            self.written += 1

    def renew(self, names, force=False):
        """Copies the crates named now and before, with what they stand on."""
        if not names and not self.asked:
            raise Refused(f"no crate is named, and there is no {self.path / LOCK}")
        asked = [*self.asked, *(it for it in names if it not in self.asked)]
        lines = with_all_below(asked)
        block, own = BLOCK.search(self.text("crates.txt")), BLOCK.sub("", self.text("crates.txt"))
        twice = [it for it in crate_lines(own) if it in lines]
        if twice:
            raise Refused(f"{self.path / 'crates.txt'} has a line of its own for {' '.join(twice)}: take it out first")
        wanted = {f"licenses/{NAME}/{it}": (ROOT / it).read_bytes() for it in ("LICENSE-APACHE", "LICENSE-MIT")}
        for crate in lines:
            wanted.update(files_of(crate))
        for path in sorted({*wanted, *self.sums}):
            self.put(path, wanted.get(path), force)
        self.kept += [it for crate in lines for it in files_of(crate, self.path) if it not in wanted and it not in self.kept]
        text = "".join(f"{line}\n" for line in lines.values())
        if block and sum_of(block[1].encode()) != self.lines_sum:
            print(f"changed by hand, and written anew: the lines of {NAME} in crates.txt")
        (self.path / "crates.txt").write_text(f"# {NAME} {VERSION}: begin\n{text}# {NAME} {VERSION}: end\n\n{own}")
        head = f"# {NAME} {VERSION}, copied by its tools/vendor.\n# Crates: {' '.join(asked)}\n# crates.txt: {sum_of(text.encode())}\n"
        (self.path / LOCK).write_text(head + "".join(f"{sum_of(wanted[path])}  {path}\n" for path in sorted(wanted)))
        return lines


def vendor(path, names, force=False):
    """Copies or renews, and says what came of it."""
    if not path.is_dir():
        raise Refused(f"no folder: {path}")
    folder = Folder(path)
    crates = folder.renew(names, force)
    for how in ("kept", "overwritten"):
        for it in getattr(folder, how):
            print(f"changed by hand, and {how}: {it}")
    print(f"{NAME} {VERSION}: {len(crates)} crates, {folder.written} files written, {folder.removed} removed")
    return 1 if folder.kept else 0


def line_of(crate):
    """A crate's own line, of a program too, and what it stands on here."""
    if crate in TEMPLATES or crate not in all_lines():
        raise Refused(f"no crate of {ROOT / 'crates.txt'}: {crate}")
    line, below = all_lines()[crate]
    return line, [it for it in below if (ROOT / "crates" / it).is_dir()]


def handles_of(lines):
    """What the crates of these lines may do: `may_wait` in a line is for a program or a library, and `tests_may` for tests."""
    said = " ".join(line.partition(":")[0] for line in lines)
    handles = [name for name, words in (("Threads", ("may_wait", "Threads")), ("Wait", ("may_wait", "Wait"))) if any(it in said for it in words)]
    return f"Handles allowed: {', '.join(handles) or 'none'}.\n"


def sentence_of(crate):
    """The first sentence of a crate's page, without its links."""
    page = next(data for path, data in files_of(crate).items() if path.endswith("README.md")).decode()
    text = re.sub(r"\[([^]]*)\]\([^)]*\)", r"\1", " ".join(page.split("\n\n")[1].split()))
    return re.split(r"(?<=\.)\s|:$", text, maxsplit=1)[0].rstrip(":")


def page_of(path, own, asked):
    """The README of a new repository."""
    rows = "".join(f"| [`{it}`](crates/{it}/README.md) | {sentence_of(it)} |\n" for it in asked)
    return PAGE.format(name=path.resolve().name, own=own, version=VERSION, rows=rows)


def begin(path, names=(), own=OWN):
    """Makes a repository with the crate to begin with, and copies of what it stands on and of the crates that are named."""
    if path.exists() and any(it.name != ".git" for it in path.iterdir()):
        raise Refused(f"not empty: {path}")
    line, below = line_of(own)
    if own in with_all_below([*below, *names]):
        raise Refused(f"{own} is the crate of your own, and a named crate stands on it")
    asked = [*below, *(it for it in names if it not in below)]
    texts = {
        "HANDLES": handles_of([line, *with_all_below(asked).values()]),
        ".gitignore": "crates/*/out/\n",
        "crates.txt": f"# your own\n{line}\n",
        "README.md": page_of(path, own, asked),
    }
    for name, data in [*((name, text.encode()) for name, text in texts.items()), *files_of(own).items()]:
        (path / name).parent.mkdir(parents=True, exist_ok=True)
        (path / name).write_bytes(data)
    vendor(path, asked)
    print(f"Your own crate is {path}/crates/{own}. `rt try` there runs it, with `--test` its tests, and `rt check` proves it. `rt ci` at the top is the gate.")
    return 0
