#!/usr/bin/env python3
"""Measures the store, prints each figure next to the last one, and writes the generated part of docs/PERFORMANCE.md (from GENERATED to
BY_HAND) and docs/performance.svg. Needs a built blobctl, what bench/ordinary.py needs, and Debian's `time`; and bench/reads.py for the
reads under leases. bench/figures.json keeps the figures.

    bench/performance.py [--runs N] [--without-reads]
"""
import argparse
import json
import os
import statistics
import subprocess
import tempfile

import growth
import ordinary
import reads
import threads
from play import PROGRAM, times

TOP = os.path.join(os.path.dirname(os.path.abspath(__file__)), "..")
FIGURES = f"{TOP}/bench/figures.json"
DOCUMENT = f"{TOP}/docs/PERFORMANCE.md"
PICTURE = f"{TOP}/docs/performance.svg"
GENERATED = "## Next to an ordinary program\n"
BY_HAND = "\n## The registry\n"
PARTS = (8, 4, 2, 1)
WORKERS = (1, 2, 4, 8)


def peak(program, words, script):
    """Returns the peak memory of a run of a program, in MiB. `time` measures it, so that Python's own memory does not count."""
    with tempfile.NamedTemporaryFile(suffix=".csv") as file, tempfile.NamedTemporaryFile("r") as measured:
        file.write(script)
        file.flush()
        command = ["/usr/bin/time", "-f", "%M", "-o", measured.name, program, *words]
        subprocess.run(command, stdin=open(file.name), stdout=subprocess.DEVNULL, check=True)
        return int(measured.read()) / 1024


def next_to_ordinary(runs):
    """Returns for each workload: the processor time in milliseconds of blobctl and of the ordinary program, the ratio of the
    least times, and the peak of memory of each in MiB."""
    ordinary.build()
    found = {}
    for name, make in ordinary.WORKLOADS.items():
        words, script = make()
        runs_of_both = ordinary.Figures(words, script, runs)
        time, least = runs_of_both.medians(), runs_of_both.least()
        memory = [peak(program, words, script) for program in (PROGRAM, ordinary.ORDINARY)]
        found[name] = {"ms": time, "least": least, "mib": memory}
        print(f"  {name}: {time[0]:.1f} and {time[1]:.1f} ms, {memory[0]:.0f} and {memory[1]:.0f} MiB", flush=True)
    return found


def by_size(runs):
    """Returns for each workload of bench/growth.py: the microseconds of a row by the number of rows."""
    found = {}
    for name, (make, full) in growth.WORKLOADS.items():
        rows = [[len("".join(make(full // part)[1]).splitlines()), growth.microseconds(make, full // part, runs)] for part in PARTS]
        found[name] = rows
        print(f"  {name}: " + ", ".join(f"{time:.2f} of {count}" for count, time in rows), flush=True)
    return found


def by_workers(runs):
    """Returns for uploads and small commands: the wall time and the processor time in milliseconds by the number of workers."""
    limits = ["--slots", "65536", "--max-blob", str(1 << 30), *(f"{tenant}={1 << 40}" for tenant in threads.TENANTS)]
    found = {}
    for name, make in (("160 MiB of uploads", lambda: threads.uploads(160)), ("65,000 small rows", lambda: threads.small(65000))):
        script = make().encode()
        took = {workers: [] for workers in WORKERS}
        for _ in range(runs):
            for workers in WORKERS:
                took[workers] += times(["--workers", str(workers), *limits], script, 1)
        found[name] = [[workers, *(statistics.median(run[kind] for run in took[workers]) * 1000 for kind in (0, 1))] for workers in WORKERS]
        print(f"  {name}: " + ", ".join(f"{wall:.0f} ms by {workers}" for workers, wall, _ in found[name]), flush=True)
    return found


def by_readers(runs):
    """Returns the wall time in milliseconds of reading 8 GiB under leases, by the number of threads."""
    with tempfile.TemporaryDirectory() as copy:
        program = reads.build(copy)
        found = [reads.times(program) for _ in range(runs)]
    return [[count, min(run[count] for run in found)] for count in found[0]]


def with_last(now, before, places=1):
    """Returns a figure as text, and the last one in brackets if it differs."""
    text = f"{now:,.{places}f}"
    return text if before is None or f"{before:,.{places}f}" == text else f"{text} ({before:,.{places}f})"


def last(before, *path):
    """Returns a figure of the last time, if there was one."""
    for name in path:
        try:
            before = before[name]
        except (KeyError, IndexError, TypeError):
            return None
    return before


class Chart:
    """A line chart in an SVG, 330 points wide, with its left edge at `left`."""

    COLOURS = ("#4e79a7", "#f28e2b", "#e15759", "#76b7b2", "#59a14f", "#edc948", "#b07aa1", "#9c755f")

    def __init__(self, left, title, x_axis, y_axis):
        self.left, self.parts = left, []
        self.parts.append(f'<text x="{left + 150}" y="20" class="title">{title}</text>')
        self.parts.append(f'<text x="{left + 170}" y="290" class="axis">{x_axis}</text>')
        self.parts.append(f'<text x="{left + 12}" y="150" class="axis" transform="rotate(-90 {left + 12} 150)">{y_axis}</text>')

    def draw(self, lines):
        xs = sorted({x for points in lines.values() for x, _ in points})
        top = max(y for points in lines.values() for _, y in points) * 1.1
        place_x = lambda x: self.left + 55 + 250 * (x - xs[0]) / (xs[-1] - xs[0])
        place_y = lambda y: 255 - 220 * y / top
        for n in range(5):
            y = place_y(top * n / 4)
            self.parts.append(f'<line x1="{self.left + 55}" x2="{self.left + 305}" y1="{y:.1f}" y2="{y:.1f}" class="grid"/>')
            self.parts.append(f'<text x="{self.left + 51}" y="{y + 3:.1f}" class="tick">{top * n / 4:,.{0 if top > 20 else 1}f}</text>')
        for x in xs if len(xs) < 6 else (xs[0], xs[-1]):
            self.parts.append(f'<text x="{place_x(x):.1f}" y="270" class="under">{x:,}</text>')
        for n, (name, points) in enumerate(lines.items()):
            colour = self.COLOURS[n]
            path = " ".join(f"{place_x(x):.1f},{place_y(y):.1f}" for x, y in sorted(points))
            self.parts.append(f'<polyline points="{path}" fill="none" stroke="{colour}" stroke-width="2"/>')
            self.parts.append(f'<text x="{self.left + 60}" y="{305 + 13 * n}" style="fill:{colour}">{name}</text>')


def picture(figures):
    size = Chart(0, "A row, as the store grows", "rows of the script", "microseconds")
    size.draw({name: points for name, points in figures["by_size"].items()})
    workers = Chart(330, "By workers", "workers", "milliseconds of wall time")
    workers.draw({name: [[count, wall] for count, wall, _ in points] for name, points in figures["by_workers"].items()})
    charts = [size, workers]
    if figures.get("by_readers"):
        readers = Chart(660, "8 GiB read under leases", "threads", "milliseconds")
        readers.draw({"pieces of 64 KiB": figures["by_readers"]})
        charts.append(readers)
    style = ("text{font:11px sans-serif;fill:#444}.title{font-weight:bold;text-anchor:middle}.axis,.under{text-anchor:middle}"
             ".tick{text-anchor:end}.grid{stroke:#ddd}")
    body = "\n".join(part for chart in charts for part in chart.parts)
    return f'<svg xmlns="http://www.w3.org/2000/svg" width="{330 * len(charts)}" height="410">\n<style>{style}</style>\n<rect width="100%" height="100%" fill="#fff"/>\n{body}\n</svg>\n'


def document(figures, before):
    lines = [GENERATED, "This section and the next three are written by `bench/performance.py`. Machine: " + figures["machine"] + ".",
             "In brackets: the figures of the commit before, if they differ. Each figure is a median of runs taken in turn.", "",
             "![Time by size, workers and readers](performance.svg)", "",
             "`bench/ordinary` is a program in ordinary Rust that follows the same rules with maps, a mutex and atomics. Its output is the same",
             "byte for byte. Processor time in milliseconds, with the ratio of the medians and that of the minima, and peak memory in MiB:", "",
             "| Script | blobctl | ordinary | ratio | of the minima | memory | ordinary | ratio |", "|---|---|---|---|---|---|---|---|"]
    for name, found in figures["next_to_ordinary"].items():
        (ours, theirs), (mine, its) = found["ms"], found["mib"]
        old = last(before, "next_to_ordinary", name, "ms")
        lines.append(f"| {name} | {with_last(ours, old and old[0])} | {theirs:,.1f} | {with_last(ours / theirs, old and old[0] / old[1], 2)} | {found['least']:.2f} | {mine:,.0f} | {its:,.0f} | {mine / its:.2f} |")
    lines += ["", "## As the store grows", "", "Microseconds of processor time a row, of scripts of an eighth of 65,536 rows to all of them (`bench/growth.py`):", "",
              "| Script | eighth | quarter | half | full |", "|---|---|---|---|---|"]
    for name, points in figures["by_size"].items():
        row = [with_last(time, last(before, "by_size", name, n, 1), 2) for n, (_, time) in enumerate(points)]
        lines.append(f"| {name} | " + " | ".join(row) + " |")
    lines += ["", "## By workers", "", "Wall time and processor time in milliseconds, over four lanes of a tenant each (`bench/threads.py`):", "",
              "| Script | " + " | ".join(f"{n} worker{'s' * (n > 1)}" for n in WORKERS) + " |", "|---" * (len(WORKERS) + 1) + "|"]
    for name, points in figures["by_workers"].items():
        row = [f"{with_last(wall, last(before, 'by_workers', name, n, 1), 0)}, {cpu:,.0f}" for n, (_, wall, cpu) in enumerate(points)]
        lines.append(f"| {name} | " + " | ".join(row) + " |")
    if figures.get("by_readers"):
        lines += ["", "## Reads under leases", "", "8 GiB in pieces of 64 KiB, without the lock (`bench/reads.py`): "
                  + ", ".join(f"{with_last(took, last(before, 'by_readers', n, 1), 0)} ms by {count}" for n, (count, took) in enumerate(figures["by_readers"])) + "."]
    return "\n".join(lines) + "\n"


def machine():
    with open("/proc/cpuinfo") as file:
        name = next(line.split(":", 1)[1].strip() for line in file if line.startswith("model name"))
    return f"{os.cpu_count()} processors ({name})"


def main():
    words = argparse.ArgumentParser(description=__doc__, formatter_class=argparse.RawDescriptionHelpFormatter)
    words.add_argument("--runs", type=int, default=11, help="runs of each workload (11)")
    words.add_argument("--without-reads", action="store_true", help="keep the last figures of reads under leases")
    options = words.parse_args()
    before = {}
    if os.path.exists(FIGURES):
        with open(FIGURES) as file:
            before = json.load(file)
    figures = {"machine": machine()}
    figures["next_to_ordinary"] = next_to_ordinary(options.runs)
    figures["by_size"] = by_size(options.runs)
    figures["by_workers"] = by_workers(options.runs)
    figures["by_readers"] = before.get("by_readers") if options.without_reads else by_readers(options.runs)
    with open(DOCUMENT) as file:
        text = file.read()
    with open(DOCUMENT, "w") as file:
        file.write(text[:text.index(GENERATED)] + document(figures, before) + text[text.index(BY_HAND):])
    with open(PICTURE, "w") as file:
        file.write(picture(figures))
    with open(FIGURES, "w") as file:
        json.dump(figures, file, indent=1)


if __name__ == "__main__":
    main()
