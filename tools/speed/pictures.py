#!/usr/bin/env python3
"""usage: pictures.py FOLDER MEASURED..
Draws pictures of what was measured: of lines `SYSTEM WORKLOAD ENTRIES THREADS NANOSECONDS` in these
files, of which the median of each kind counts, and of what hit_ratio wrote in a file *.csv. In
FOLDER:
speed-threads.svg  the time of a call of read_mostly by the number of threads
speed-blocks.svg   the same in C, C++ and Rust, with caches that have the interface of RocksDB's
speed-entries.svg  the time of a hit and of a miss by the number of entries, of one thread
speed-hits.svg     the time of a call of read_mostly by the hit ratio, in a chart for each capacity:
                   of four threads at the largest, and of one thread at the others
speed-orders.svg   the hit ratio of each order by the capacity, in a chart for each of two traces
What was measured at one number of threads or of entries alone has no picture, and speed-threads.svg
shows the largest capacity. Hit ratios are those of lines `# hits SYSTEM WORKLOAD ENTRIES THREADS
RATIO`; of several of one kind the last counts."""
import collections
import csv
import math
import sys
from html import escape
from pathlib import Path
from typing import NamedTuple

sys.dont_write_bytecode = True
from measured import median_times, ratios_of  # noqa: E402

# The width of a picture, of the numbers left of its lines, and of the labels right of them.
WIDTH, LEFT, RIGHT = 860, 64, 270

# The heights of the titles, of a chart with its title, and of what is above and below its lines.
HEAD, CHART, ABOVE, BELOW = 74, 480, 16, 72

THREADS = {1: "one thread", 4: "four threads"}

# How near a label may be to the next one.
STEP = 17

# The colours of a system, on light and on dark paper.
COLOURS = {
    "port-unsharded": ("#00707c", "#4fd0de"),
    "port-sharded": ("#0b62c4", "#6cb6ff"),
    "port-sharded-64": ("#2f3fb8", "#98a8ff"),
    "port-sharded-256": ("#6a2bb8", "#c09cf5"),
    "port-clock": ("#0a7a4b", "#5fd6a3"),
    "port-clock-1": ("#0a7a4b", "#5fd6a3"),
    "port-clock-64": ("#3d6b00", "#a5d66a"),
    "orig-unsharded": ("#b4470f", "#ff9d5c"),
    "orig-sharded": ("#b4470f", "#ff9d5c"),
    "leveldb-sharded": ("#2e7d32", "#7bc67e"),
    "rocksdb-unsharded": ("#846400", "#e0c04a"),
    "rocksdb-sharded": ("#846400", "#e0c04a"),
    "rocksdb-hyper": ("#a0267a", "#f08fd0"),
    "rocksdb9-hyper": ("#7a4a68", "#d9b3cb"),
    "tbb": ("#566b1e", "#b9cf70"),
    "caffeine": ("#8b1a1a", "#f28b82"),
    "block-clock": ("#0a7a4b", "#5fd6a3"),
    "block-exact": ("#0b62c4", "#6cb6ff"),
    "c-clock": ("#3d6b00", "#a5d66a"),
    "cpp-clock": ("#00707c", "#4fd0de"),
    "cpp-sharded": ("#6a2bb8", "#c09cf5"),
    "rust-clock": ("#b4470f", "#ff9d5c"),
    "rust-sharded": ("#566b1e", "#b9cf70"),
    "mutex-lru": ("#8b1a1a", "#f28b82"),
    "exact": ("#0b62c4", "#6cb6ff"),
    "clock": ("#0a7a4b", "#5fd6a3"),
}

# What the picture of caches in C, C++ and Rust shows.
OUTSIDE_RATTLE = {
    "c-clock",
    "cpp-clock",
    "cpp-sharded",
    "block-clock",
    "block-exact",
    "rust-clock",
    "rust-sharded",
    "mutex-lru",
    "rocksdb-hyper",
    "rocksdb-sharded",
}

OTHER_COLOURS = ("#5a5a5a", "#b4b4b4")

# What the pictures of read_mostly leave out, since its lines run close to those of others.
CLOSE = {
    "port-clock-64",
    "port-sharded-256",
    "port-sharded-256-read",
    "port-sharded-read",
    "port-unsharded-read",
}

# What the picture by entries leaves out, since it makes the same calls as another.
SAME = {"port-clock-1-read"}

# What the name of a system ends with if it is another one, asked by `read` or with room reserved.
VARIANTS = ("read", "reserved")

# The labels of the parts of a system's name. A number in a name is a number of shards.
CALLED = {
    "port": "this cache",
    "orig": "original",
    "leveldb": "LevelDB",
    "rocksdb": "RocksDB",
    "rocksdb9": "RocksDB 9.10",
    "tbb": "oneTBB",
    "caffeine": "Caffeine",
    "unsharded": "one lock",
    "sharded": "16 shards",
    "port-clock": "lru_clock",
    "port-clock-1": "lru_clock, one shard",
    "c-clock": "clock in C, lru.h",
    "cpp-clock": "lru::ClockCache",
    "cpp-sharded": "lru::ShardedCache",
    "block-clock": "NewRocksDBClockCache",
    "block-exact": "NewRocksDBBlockCache",
    "rust-clock": "clock::Cache in Rust",
    "rust-sharded": "sharded::LruCache in Rust",
    "mutex-lru": "Mutex<lru::LruCache> in Rust",
    "hyper": "HyperClock",
    "reserved": "room reserved",
    "exact": "exact order",
}

# The traces of speed-orders.svg: on one the clock hits more often, on the other also less often.
ORDERED = ("LevelDB", "RocksDB")


class Point(NamedTuple):
    """What was measured, mostly nanoseconds: across is the number of threads or of entries, the hit
    ratio, or the capacity."""

    across: float
    value: float


class Times(NamedTuple):
    """A logarithmic scale of nanoseconds."""

    low: float
    high: float

    def part(self, ns):
        """How far up a time is, from 0 to 1."""
        return math.log(ns / self.low) / math.log(self.high / self.low)

    @property
    def ticks(self):
        """Round numbers on the scale, with their text."""
        factors = (1, 2, 5) if self.high / self.low > 4 else (1, 2, 3, 4, 5, 6, 8)
        steps = [factor * 10**power for power in range(7) for factor in factors]
        return {step: f"{step:,}" for step in steps if self.low <= step <= self.high}

    @staticmethod
    def text(ns):
        return f"{ns:,.0f}"


class Ratios:
    """The linear scale of hit ratios, from 0 to 1."""

    ticks = {fifths / 5: f"{fifths / 5:.1f}" for fifths in range(6)}

    @staticmethod
    def part(ratio):
        return ratio

    @staticmethod
    def text(ratio):
        return f"{ratio:.3f}"


class Chart(NamedTuple):
    """Lines over one axis: of each system its points in order."""

    title: str
    axis: str
    lines: dict
    # What labels leave out.
    common: str
    # What the axis shows, if it is not where something was measured.
    shown: tuple = ()
    # Whether the values are hit ratios.
    of_ratios: bool = False

    @property
    def points(self):
        return [point for line in self.lines.values() for point in line]

    @property
    def marks(self):
        """What the axis shows."""
        return list(self.shown) or sorted({point.across for point in self.points})

    @property
    def scale(self):
        """A scale that has all points."""
        if self.of_ratios:
            return Ratios()
        times = [point.value for point in self.points]
        return Times(min(times) / 1.2, max(times) * 1.2)


class Frame(NamedTuple):
    """Where the points of a chart are in the picture."""

    top: float
    marks: list
    scale: Times | Ratios

    @property
    def bottom(self):
        return self.top + CHART - ABOVE - BELOW

    def x(self, across):
        part = math.log(across / self.marks[0]) / math.log(self.marks[-1] / self.marks[0])
        return LEFT + part * (WIDTH - LEFT - RIGHT)

    def y(self, value):
        return self.bottom - self.scale.part(value) * (self.bottom - self.top)


def lines_in(paths):
    """The lines of these files, each as its words."""
    for path in paths:
        for line in path.read_text("utf-8").splitlines():
            yield line.split()


def rows_in(paths):
    """The rows of these files of CSV, each by the names of its columns."""
    for path in paths:
        yield from csv.DictReader(path.read_text("utf-8").splitlines())


def lines_of(points):
    """The points (system, across, value) by system, each in order."""
    lines = collections.defaultdict(list)
    for system, across, value in sorted(points):
        lines[system].append(Point(across, value))
    return dict(lines)


def capacities(times):
    """The capacities of read_mostly, the largest first."""
    return sorted({kind[2] for kind in times if kind[1] == "read_mostly"}, reverse=True)


def by_threads(times):
    """The chart of read_mostly at its largest capacity, by threads."""
    largest = next(iter(capacities(times)), None)
    points = [
        (system, threads, ns)
        for (system, work, entries, threads), ns in times.items()
        if work == "read_mostly" and entries == largest and system not in CLOSE
    ]
    return Chart("read_mostly", "threads", lines_of(points), "")


def outside_by_threads(times):
    """The chart of read_mostly in C, C++ and Rust, by threads."""
    points = [
        (system, threads, ns)
        for (system, work, _, threads), ns in times.items()
        if work == "read_mostly_16" and system in OUTSIDE_RATTLE
    ]
    return Chart("read_mostly", "threads", lines_of(points), "")


def by_entries(times, title, works):
    """A chart of one thread on one lock, by entries. Of each workload the systems get an ending."""
    points = [
        (system + works[work], entries, ns)
        for (system, work, entries, threads), ns in times.items()
        if work in works and threads == 1 and system + works[work] not in SAME
    ]
    return Chart(title, "entries", lines_of(points), "one lock")


def hundredths(ratios):
    """Marks of an axis on which all these ratios are, at most nine."""
    low, high = min(ratios, default=0) * 100, max(ratios, default=0) * 100
    for step in (1, 2, 5, 10, 20):
        first, last = math.floor(low / step), math.ceil(high / step)
        if last - first <= 8:
            break
    return tuple(number * step / 100 for number in range(first, last + 1))


def by_hits(times, ratios, capacity, threads):
    """The chart of read_mostly at a capacity, by hit ratios, of so many threads."""
    kinds = ("read_mostly", capacity, threads)
    points = [
        (kind[0], ratios[kind], ns)
        for kind, ns in times.items()
        if kind in ratios and kind[1:] == kinds and kind[0] not in CLOSE
    ]
    shown = hundredths([ratio for _, ratio, _ in points])
    title = f"read_mostly, capacity {capacity:,}, {THREADS[threads]}"
    return Chart(title, "hit ratio", lines_of(points), "", shown)


def every_by_hits(times, ratios):
    """A chart by hit ratios for each capacity: of four threads at the largest, and of one thread at
    the others, since with several the hit ratio of a short trace depends on how far they are apart
    in it."""
    first, *others = capacities(times) or [0]
    charts = [by_hits(times, ratios, first, 4)]
    return charts + [by_hits(times, ratios, capacity, 1) for capacity in others]


def by_capacity(rows, trace):
    """The chart of the hit ratios of a trace by capacities, from rows of the CSV of hit_ratio."""
    points = [
        (order, int(row["percent"]), float(row[order]))
        for row in rows
        for order in ("exact", "clock", "caffeine", "optimum")
        if row["trace"] == trace and row[order]
    ]
    axis = "capacity, in percent of the keys, on a logarithmic scale"
    return Chart(f"{trace} trace", axis, lines_of(points), "", of_ratios=True)


def split(system):
    """A system's name without the ending of a variant, and that ending, empty if it has none."""
    name, variant = system, ""
    for ending in VARIANTS:
        if name.endswith(f"-{ending}"):
            name, variant = name.removesuffix(f"-{ending}"), ending
    return name, variant


def label(system, common):
    """What a system is called, without what all are."""
    name, variant = split(system)
    name, *parts = [name] if name in CALLED else name.split("-")
    if any(part.isdigit() for part in parts):
        parts.remove("sharded")
    words = [CALLED.get(name, name)]
    words += [f"{part} shards" if part.isdigit() else CALLED.get(part, part) for part in parts]
    if variant:
        words.append(CALLED.get(variant, variant))
    return ", ".join(word for word in words if word != common)


def is_variant(system):
    """Whether a system is another one, asked by `read` or with room reserved."""
    return split(system)[1] != ""


def colours(system):
    return COLOURS.get(split(system)[0], OTHER_COLOURS)


def apart(wanted, top, bottom):
    """Places as near to these wanted ones as can be, a step from each other and within bounds.
    The wanted ones are in order. Each block of places that would overlap is round its own mean."""
    blocks = []
    for number, place in enumerate(wanted):
        blocks.append([place - number * STEP, 1])
        while len(blocks) > 1 and blocks[-2][0] > blocks[-1][0]:
            (mean, count), (more, others) = blocks[-2:]
            blocks[-2:] = [[(mean * count + more * others) / (count + others), count + others]]
    starts = [mean for mean, count in blocks for _ in range(count)]
    last = bottom - (len(wanted) - 1) * STEP
    return [max(top, min(start, last)) + number * STEP for number, start in enumerate(starts)]


def text(x, y, words, kind="plain"):
    return f'<text class="{kind}" x="{x:.1f}" y="{y:.1f}">{escape(words, quote=False)}</text>'


def level(y, kind):
    """A line over the whole chart."""
    return f'<path class="{kind}" d="M{LEFT} {y:.1f}H{WIDTH - RIGHT}"/>'


def axes(chart, frame):
    out = [text(LEFT, frame.top - ABOVE - 2, chart.title, kind="strong")]
    for tick, shown in frame.scale.ticks.items():
        y = frame.y(tick)
        out += [level(y, "grid"), text(LEFT - 8, y + 4, shown, kind="right")]
    out.append(level(frame.bottom, "axis"))
    for mark in frame.marks:
        shown = f"{mark:.2f}" if chart.shown else f"{mark:,}"
        out.append(text(frame.x(mark), frame.bottom + 20, shown, kind="middle"))
    middle = (LEFT + WIDTH - RIGHT) / 2
    return out + [text(middle, frame.bottom + 40, chart.axis, kind="middle")]


def drawn(system, line, frame, place, common):
    """A line with its points, and the label at its end, at this height."""
    ends = [(frame.x(point.across), frame.y(point.value)) for point in line]
    (x, y), beside = ends[-1], WIDTH - RIGHT + 26
    kind = system + (" dashed" if is_variant(system) else "")
    path = "M" + "L".join(f"{x:.1f} {y:.1f}" for x, y in ends)
    out = [f'<path class="line {kind}" d="{path}"/>']
    out += [f'<circle class="{system}" cx="{x:.1f}" cy="{y:.1f}" r="3"/>' for x, y in ends]
    out.append(f'<path class="leader {system}" d="M{x + 5:.1f} {y:.1f}L{beside - 5} {place:.1f}"/>')
    words = f"{label(system, common)}: {frame.scale.text(line[-1].value)}"
    return out + [text(beside, place + 4.5, words, kind=system)]


def panel(chart, top):
    """The chart, this far down."""
    frame = Frame(top + ABOVE, chart.marks, chart.scale)
    lines = sorted(chart.lines.items(), key=lambda item: frame.y(item[1][-1].value))
    wanted = [frame.y(line[-1].value) for _, line in lines]
    places = apart(wanted, frame.top, frame.bottom)
    out = axes(chart, frame)
    for (system, line), place in zip(lines, places):
        out += drawn(system, line, frame, place, chart.common)
    return out


def rules(systems, shade, paper, ink, grid):
    """The colours on light (0) or dark (1) paper."""
    out = [f".paper {{ fill: {paper} }}", f"text {{ fill: {ink} }}", f".grid {{ stroke: {grid} }}"]
    for system in sorted(systems):
        colour = colours(system)[shade]
        out.append(f"path.{system} {{ stroke: {colour} }}")
        out.append(f"text.{system}, circle.{system} {{ fill: {colour} }}")
    return out


def picture(title, charts):
    """An SVG of one chart, or of some below each other."""
    shown = "nanoseconds per call, on a logarithmic scale: lower is faster"
    if charts[0].of_ratios:
        shown = "the fraction of uses that hit: higher is better"
    systems = {system for chart in charts for system in chart.lines}
    height = HEAD + CHART * len(charts)
    tops = range(HEAD, height, CHART)
    body = [line for chart, top in zip(charts, tops) for line in panel(chart, top)]
    return "\n".join([
        f'<svg xmlns="http://www.w3.org/2000/svg" viewBox="0 0 {WIDTH} {height}" role="img">',
        f"<title>{escape(title)}</title>",
        "<style>",
        "text { font: 13px system-ui, sans-serif } .strong, .title { font-weight: 600 }",
        ".title { font-size: 17px } .middle { text-anchor: middle } .right { text-anchor: end }",
        "path { fill: none } .line { stroke-width: 2 } .dashed { stroke-dasharray: 6 4 }",
        ".leader { stroke-width: 1; opacity: 0.5 } .axis { stroke: #888888 }",
        *rules(systems, 0, "#ffffff", "#1a1a1a", "#e0e0e0"),
        "@media (prefers-color-scheme: dark) {",
        *rules(systems, 1, "#14171c", "#e8e8e8", "#333a44"),
        "}",
        "</style>",
        f'<rect class="paper" width="{WIDTH}" height="{height}"/>',
        text(LEFT, 26, title, kind="title"),
        text(LEFT, 46, shown),
        *body,
        "</svg>",
    ]) + "\n"


def main():
    if len(sys.argv) < 3:
        sys.exit(__doc__)
    folder, files = Path(sys.argv[1]), [Path(name) for name in sys.argv[2:]]
    lines = list(lines_in(file for file in files if file.suffix != ".csv"))
    rows = list(rows_in(file for file in files if file.suffix == ".csv"))
    times, ratios = median_times(lines), ratios_of(lines)
    pictures = {
        "speed-threads.svg": ("Time of a call by threads", [by_threads(times)]),
        "speed-blocks.svg": (
            "Time of a call by threads, in C, C++ and Rust", [outside_by_threads(times)]
        ),
        "speed-entries.svg": ("Time of a call by entries, with one thread and one lock", [
            by_entries(times, "Hit", {"hit_get": "", "hit_read": "-read"}),
            by_entries(times, "Miss that evicts an entry", {"miss_evict": ""}),
        ]),
        "speed-hits.svg": ("Time of a call and hit ratio", every_by_hits(times, ratios)),
        "speed-orders.svg": (
            "Hit ratio by capacity", [by_capacity(rows, trace) for trace in ORDERED]
        ),
    }
    for name, (title, charts) in pictures.items():
        if charts and all(len(chart.marks) > 1 for chart in charts):
            (folder / name).write_text(picture(title, charts), encoding="utf-8")
        else:
            print(f"{name} is not drawn: too few lines of it", file=sys.stderr)


if __name__ == "__main__":
    main()
