#!/usr/bin/env python3
"""Draws what sweeps count, as SVG, by Python's standard library alone.

  plot.py LOCKUP FOLDER     runs the program LOCKUP, and writes a picture of each of these into FOLDER, which it makes

- sweep_ways: misses against ways, for each replacement policy (ways.txt, 20 seeds, the mean).
- sweep_cores: false sharing against cores that count into words of one line (20 seeds, the mean).
- sweep_registers: accesses that stall against miss registers, with one target each and with two, and with an inverted
  file (registers.txt, 20 seeds, the mean).
"""
import csv
import io
import os
import subprocess
import sys
import tempfile
from collections import defaultdict

HERE = os.path.dirname(os.path.realpath(__file__))
SEEDS = ["--seeds", "1..20", "--csv"]
COLORS = ["#1b6ca8", "#c4572b", "#3c8a4e"]
REGISTERS = ["--set", "mshrs=1,2,3,4,5,6,8"]
WIDTH, HEIGHT, EDGE, NAMES = 480, 300, 50, 90


def rows_of(lockup, text, *words):
    ran = subprocess.run([lockup, "run", text, *words, *SEEDS], capture_output=True, text=True, check=True)
    return list(csv.DictReader(io.StringIO(ran.stdout)))


def means(rows, along, count, apart=None):
    """Returns, for each value of `apart`, the mean of a count at each value of `along`."""
    found = defaultdict(lambda: defaultdict(list))
    for row in rows:
        found[row[apart] if apart else ""][int(row[along])].append(int(row[count]))
    return {name: [(x, sum(all) / len(all)) for x, all in sorted(points.items())] for name, points in found.items()}


def svg(title, along, curves):
    xs = sorted({x for points in curves.values() for x, _ in points})
    top = max(y for points in curves.values() for _, y in points) or 1

    def at(x, y):
        step = (WIDTH - EDGE - NAMES) / max(1, len(xs) - 1)
        return EDGE + xs.index(x) * step, HEIGHT - EDGE - y / top * (HEIGHT - 2 * EDGE)

    lines = [f'<svg xmlns="http://www.w3.org/2000/svg" viewBox="0 0 {WIDTH} {HEIGHT}" font-family="sans-serif" font-size="12">']
    lines.append(f'<rect width="{WIDTH}" height="{HEIGHT}" fill="#fff"/><text x="{EDGE}" y="24" font-size="14">{title}</text>')
    lines.append(f'<path d="M{EDGE} {EDGE}V{HEIGHT - EDGE}H{WIDTH - NAMES}" fill="none" stroke="#888"/>')
    lines.append(f'<text x="{WIDTH / 2}" y="{HEIGHT - 12}" text-anchor="middle">{along}</text>')
    for y in (0, top / 2, top):
        lines.append(f'<text x="{EDGE - 6}" y="{at(xs[0], y)[1] + 4:.0f}" text-anchor="end">{y:.0f}</text>')
    for x in xs:
        lines.append(f'<text x="{at(x, 0)[0]:.0f}" y="{HEIGHT - EDGE + 16}" text-anchor="middle">{x}</text>')
    free = HEIGHT
    for (name, points), color in sorted(zip(curves.items(), COLORS), key=lambda it: it[0][1][-1][1]):
        path = " ".join(f"{at(x, y)[0]:.1f},{at(x, y)[1]:.1f}" for x, y in points)
        lines.append(f'<polyline points="{path}" fill="none" stroke="{color}" stroke-width="2"/>')
        x, y = at(*points[-1])
        # names stand apart where curves end together
        free = min(y + 4, free - 14)
        lines.append(f'<text x="{x + 6:.0f}" y="{free:.0f}" fill="{color}">{name}</text>')
    return "\n".join([*lines, "</svg>"]) + "\n"


def counters(cores):
    """Returns programs of cores that each add to a word of their own, all in one line."""
    programs = "".join(f"core {core}\nrepeat 50\n  add {core} 1\nend\n" for core in range(cores))
    return f"cores {cores}\n{programs}"


def stalls(lockup):
    """Returns, for each kind of miss file, how many accesses stall with so many registers."""
    kinds = {"one target": ["targets=1"], "two targets": ["targets=2"], "inverted": ["misses=inverted"]}
    return {
        name: means(rows_of(lockup, f"{HERE}/registers.txt", *REGISTERS, "--set", *kind), "mshrs", "stalls")[""]
        for name, kind in kinds.items()
    }


def main(words):
    if len(words) != 2:
        print(__doc__, end="")
        return 2
    lockup, folder = words
    os.makedirs(folder, exist_ok=True)
    rows = rows_of(lockup, f"{HERE}/ways.txt", "--set", "ways=1,2,3,4", "--set", "policy=lru,fifo,random 1")
    drawn = {"sweep_ways": svg("Misses against ways", "ways", means(rows, "ways", "misses", "policy"))}
    rows = []
    with tempfile.TemporaryDirectory() as room:
        for cores in (1, 2, 4, 8):
            text = f"{room}/text"
            with open(text, "w", encoding="utf-8") as it:
                it.write(counters(cores))
            rows += [{**row, "cores": cores} for row in rows_of(lockup, text)]
    drawn["sweep_cores"] = svg("False sharing against cores", "cores", means(rows, "cores", "misses_false_sharing"))
    drawn["sweep_registers"] = svg("Accesses that stall against miss registers", "miss registers", stalls(lockup))
    for name, picture in drawn.items():
        with open(f"{folder}/{name}.svg", "w", encoding="utf-8") as it:
            it.write(picture)
    return 0


if __name__ == "__main__":
    try:
        sys.exit(main(sys.argv[1:]))
    except subprocess.CalledProcessError as error:
        sys.exit(f"plot.py: {error.stderr.strip()}")
    except OSError as error:
        sys.exit(f"plot.py: {error}")
