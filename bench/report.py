"""The page and the plot that bench/run writes."""

import dataclasses
import math

# Workloads for which there are programs of their own: their tables have other columns.
OF_FEW = ("sort", "insert-counts", "remove-counts", "fresh", "fresh-ends", "hash_find")
PAGE, PLOT = "beside-peers.md", "beside-peers.svg"
OURS, OTHER, ENDS, RUST = "ours", "ours, other", "ours, kept ends", "Rust crate"
PEERS = [RUST, "Boost", "BSD", "list_sort", "uthash"]  # those that no check makes slower, and that are as their users get them


@dataclasses.dataclass
class Figures:
    workloads: dict  # what each workload does, and how many operations a run has
    options: object  # sizes, rounds, and the workloads that were run
    programs: list  # the names of those that were run
    times: dict  # (workload, members, program) -> the quartiles of nanoseconds per operation
    counts: dict  # (workload, program) -> instructions per operation
    machine: list
    left_out: list
    comparisons: dict = dataclasses.field(default_factory=dict)  # (program, members) -> how often a sort compares two values
    program: dict = dataclasses.field(default_factory=dict)  # (stream, run) -> the quartiles of nanoseconds, and instructions, per line

    def ratio(self, workload, members, ours):
        """How many times the Rust crate's median ours is."""
        mine, theirs = (self.times.get((workload, members, name)) for name in (ours, RUST))
        return mine[1] / theirs[1] if mine and theirs else None

    def beside_best(self, workload, members):
        """How many times the best peer's median that of our fastest form is, and which peer that is."""
        def fastest(names):
            return min(((found[1], name) for name in names if (found := self.times.get((workload, members, name)))), default=None)

        mine, best = fastest([OURS, OTHER, ENDS]), fastest(PEERS)
        return (mine[0] / best[0], best[1]) if mine and best else None


def without_empty(head, rows, fixed):
    """The head and the rows without those columns after the first `fixed` ones in which no row has a figure."""
    kept = [at for at in range(len(head)) if at < fixed or any(row[at] != "-" for row in rows)]
    return [head[at] for at in kept], [[row[at] for at in kept] for row in rows]


def parts(figures, rows):
    """The rows of the workloads that peers of several kinds have, and those of the ones that some libraries have by themselves."""
    names = {figures.workloads[workload][0] for workload in OF_FEW if workload in figures.workloads}
    return [part for part in ([row for row in rows if (row[0] in names) == few] for few in (False, True)) if part]


def table(head, rows):
    lines = [head, ["---"] + ["---:"] * (len(head) - 1), *rows]
    return ["| " + " | ".join(line) + " |" for line in lines] + [""]


def shown(value, form="{:.2f}"):
    return "-" if value is None else form.format(value)


def beside_best(figures):
    """For each workload and size the ratio, and the peer."""
    for workload in figures.options.only:
        found = [figures.beside_best(workload, members) for members in figures.options.sizes]
        if any(found):
            yield [figures.workloads[workload][0], *("-" if not of else f"{of[0]:.2f} ({of[1]})" for of in found)]


def beside_rust(figures):
    """Ratios at each size, and the instructions of each program."""
    ours = [name for name in (OURS, OTHER) if name in figures.programs]
    head = ["", *(f"{members:,}" for members in figures.options.sizes), *(f"instructions: {name}" for name in figures.programs)]
    for workload in figures.options.only:
        ratios = (" / ".join(shown(ratio) for name in ours if (ratio := figures.ratio(workload, members, name))) or "-"
                  for members in figures.options.sizes)
        counts = (shown(figures.counts.get((workload, name)), "{:.0f}") for name in figures.programs)
        yield head, [figures.workloads[workload][0], *ratios, *counts]


def nanoseconds(figures, members):
    """Medians, and the quartiles, of all programs at one size."""
    for workload in figures.options.only:
        found = (figures.times.get((workload, members, name)) for name in figures.programs)
        yield [figures.workloads[workload][0], *("-" if not of else f"{of[1]:.1f} ({of[0]:.1f}–{of[2]:.1f})" for of in found)]


def page(figures):
    lines = [
        "# The collections beside their peers",
        "",
        "`bench/run` wrote this page. `bench/README.md` says what each program and each workload is, and how to repeat it.",
        "",
        "Measured on:",
        "",
        *(f"- {line}" for line in figures.machine),
        *(f"- left out: {line}" for line in figures.left_out),
        "",
        f"Each program was run {figures.options.rounds} times, in turn with the others, and five times as often with 1,000 members. The figures are "
        "of one operation. Instructions are exact. Nanoseconds vary with whatever else runs on the machine, of which the load tells.",
        "",
    ]
    best = list(beside_best(figures))
    if best:
        lines += [
            "## Beside the best peer",
            "",
            "How many times the time of the fastest peer ours takes, in the fastest of our forms, by the number of members. The name after "
            "the ratio is that of the fastest peer: the Rust crate, Boost, BSD, uthash, or the model of Linux's list_sort that calls its comparison. Below 1 "
            "ours is the fastest of all.",
            "",
            *table(["", *(f"{members:,}" for members in figures.options.sizes)], best),
            f"![The time of each program beside that of the fastest peer, as a plot]({PLOT})",
            "",
        ]
    rows = [row for _head, row in beside_rust(figures)]
    if rows:
        lines += [
            "## Beside the Rust crate",
            "",
            "How many times the Rust crate's time ours takes, by the number of members: over the table that is handed in, and after the "
            "stroke in another form. That is a lent table for lists, and for trees a table with the keys beside the links. A hash table has the keys beside the "
            "links in the first form, and in the slab in the other one. Below 1 ours is faster. Then come the instructions of one operation with 1,000 members.",
            "",
            *(line for part in parts(figures, rows) for line in table(*without_empty(next(beside_rust(figures))[0], part, 1))),
        ]
        for members in figures.options.sizes:
            lines += [f"## Nanoseconds, {members:,} members", "", "The median, and the quartiles.", ""]
            for part in parts(figures, list(nanoseconds(figures, members))):
                lines += table(*without_empty(["", *figures.programs], part, 1))
    if figures.comparisons:
        names = list(dict.fromkeys(name for name, _members in figures.comparisons))
        lines += ["## Comparisons of a sort", "", "How often a sort compares two values.", ""]
        lines += table(["members", *names], ([f"{members:,}", *(f"{figures.comparisons[name, members]:,}" for name in names)]
                                             for members in figures.options.sizes))
    if figures.program:
        lines += [
            "## The program",
            "",
            f"`ic_main` on {1_000_000 // figures.options.divide:,} commands over all pairs of kind and table, beside a loop in Rust that prints each line again "
            "(`bench/rust/src/bin/echo.rs`). The figures are of one line.",
            "",
            *table(["commands", "nanoseconds: ours", "echo", "instructions: ours", "echo"], program_rows(figures.program)),
        ]
    return "\n".join(lines).rstrip() + "\n"


def program_rows(program):
    for stream in dict.fromkeys(stream for stream, _run in program):
        runs = [program[stream, run] for run in ("ours", "echo")]
        yield [stream, *(f"{median:.0f} ({low:.0f}–{high:.0f})" for (low, median, high), _count in runs), *(f"{count:.0f}" for _, count in runs)]


class Plot:
    """A row for each workload, and a panel for each size. A mark for each program stands at how many times the fastest peer's time its own is,
    on a log axis. Programs differ in the shape of their marks, and in color."""

    LEFT, TOP, ROW, PANEL, GAP, SIZE = 292, 96, 30, 250, 24, 5
    # The shape of each program's marks around (0, 0), and their color. Ours is the fastest of our forms.
    MARKS = {
        OURS: ("circle", "#1b7837"),
        "C library": ("square", "#762a83"),
        RUST: ("triangle", "#b2182b"),
        "Boost": ("diamond", "#2166ac"),
        "BSD": ("cross", "#8c510a"),
        "list_sort": ("pentagon", "#35978f"),
        "uthash": ("hourglass", "#4d4d4d"),
    }
    SHAPES = {"square": "-5,-5 5,-5 5,5 -5,5", "triangle": "0,-6 6,5 -6,5", "diamond": "0,-7 7,0 0,7 -7,0", "pentagon": "0,-6 6,-1 4,6 -4,6 -6,-1",
              "hourglass": "-5,-6 5,-6 -5,6 5,6"}

    def __init__(self, figures):
        self.figures, self.sizes = figures, figures.options.sizes
        self.ratios = {
            (workload, members, name): ratio
            for workload in figures.options.only for members in self.sizes for name in self.MARKS
            if (ratio := self.ratio(workload, members, name))
        }
        self.shown = [workload for workload in figures.options.only if any(workload == key[0] for key in self.ratios)]
        self.low = min([0.5, *self.ratios.values()]) / 1.1
        self.high = max([2, *self.ratios.values()]) * 1.1
        self.width = self.LEFT + len(self.sizes) * (self.PANEL + self.GAP)
        self.height = self.TOP + self.ROW * len(self.shown) + 44

    def ratio(self, workload, members, name):
        found = [self.figures.times.get((workload, members, form)) for form in ([OURS, OTHER, ENDS] if name == OURS else [name])]
        peers = [of[1] for peer in PEERS if (of := self.figures.times.get((workload, members, peer)))]
        mine = [of[1] for of in found if of]
        return min(mine) / min(peers) if mine and peers else None

    def x(self, panel, ratio):
        share = math.log(ratio / self.low) / math.log(self.high / self.low)
        return self.LEFT + panel * (self.PANEL + self.GAP) + share * self.PANEL

    def mark(self, x, y, name):
        shape, color = self.MARKS[name]
        paint = f'fill="{color if name == OURS else "white"}" fill-opacity="0.9" stroke="{color}" stroke-width="2"'
        if shape == "circle":
            return f'<circle cx="{x:.1f}" cy="{y:.1f}" r="{self.SIZE}" {paint}/>'
        place = f'transform="translate({x:.1f} {y:.1f})"'
        if shape == "cross":
            return f'<path d="M-5,-5 5,5 M-5,5 5,-5" {place} stroke="{color}" stroke-width="2"/>'
        return f'<polygon points="{self.SHAPES[shape]}" {place} {paint}/>'

    @staticmethod
    def text(x, y, words, anchor="start", more=""):
        return f'<text x="{x:.1f}" y="{y:.1f}" text-anchor="{anchor}"{more}>{words}</text>'

    def axis(self, panel, members):
        bottom, one = self.height - 34, self.x(panel, 1)
        for ratio in (0.125, 0.25, 0.5, 1, 2, 4, 8, 16):
            if self.low <= ratio <= self.high:
                line = 'stroke="#333" stroke-width="2"' if ratio == 1 else 'stroke="#ccc"'
                yield f'<line x1="{self.x(panel, ratio):.1f}" y1="{self.TOP - 8}" x2="{self.x(panel, ratio):.1f}" y2="{bottom}" {line}/>'
                yield self.text(self.x(panel, ratio), bottom + 16, f"{ratio:g}", "middle")
        yield self.text(one, self.TOP - 14, f"{members:,} members", "middle", ' font-weight="bold"')

    def legend(self):
        at = self.LEFT
        for name in self.MARKS:
            if any(name == key[2] for key in self.ratios):
                label = "Fasciahyssop" if name == OURS else name
                yield self.mark(at, 46, name)
                yield self.text(at + 12, 50, label)
                at += 40 + 8 * len(label)

    def rows(self):
        for row, workload in enumerate(self.shown):
            y = self.TOP + self.ROW * (row + 0.5)
            if row % 2 == 0:
                yield f'<rect x="0" y="{y - self.ROW / 2}" width="{self.width}" height="{self.ROW}" fill="#f6f6f6"/>'
            yield self.text(self.LEFT - 14, y + 4, self.figures.workloads[workload][0], "end")
        for panel, members in enumerate(self.sizes):
            yield from self.axis(panel, members)
        for name in reversed(self.MARKS):  # ours last, above the others
            for (workload, members, program), ratio in self.ratios.items():
                if program == name:
                    yield self.mark(self.x(self.sizes.index(members), ratio), self.TOP + self.ROW * (self.shown.index(workload) + 0.5), name)

    def svg(self):
        yield f'<svg xmlns="http://www.w3.org/2000/svg" viewBox="0 0 {self.width} {self.height}" width="{self.width}" height="{self.height}" font-family="sans-serif" font-size="13">'
        yield f'<rect width="{self.width}" height="{self.height}" fill="white"/>'
        yield self.text(14, 26, "Time of one operation, beside the fastest peer's", more=' font-size="16" font-weight="bold"')
        yield self.text(14, 50, "left of 1: faster than all peers", more=' fill="#444"')
        yield from self.legend()
        yield from self.rows()
        yield "</svg>"


def write(figures):
    figures.options.folder.mkdir(parents=True, exist_ok=True)
    (figures.options.folder / PAGE).write_text(page(figures))
    plot = Plot(figures)
    if plot.ratios:
        (figures.options.folder / PLOT).write_text("\n".join(plot.svg()) + "\n")
