#!/usr/bin/env python3
"""Times whole runs of `build` and `query` and prints tables: how time and memory grow with the list, and what settings cost.

usage: builds.py growth PROGRAM PLOT COUNT ..         a row for each count of keys, with one worker and with 64 partitions and 4; PLOT is an SVG
       builds.py settings PROGRAM COUNT               a row for each encoding and for values of `c`, `alpha`, `parts` and `workers`
       builds.py workers PROGRAM COUNT [SETTING ..]   a row for each number of workers and each search, all in turns
       builds.py peers PROGRAM PEERS COUNT ..         rows for BBHash and cmph in memory (PEERS is bench/peers.cpp, built) and for whole runs of ours

The keys are of 16 hexadecimal digits. Each figure is the least of three runs, of one where a list has above 10,000,000 keys. A peak
below that of Python itself (about 15 MB) can't be seen.
"""
import math
import os
import pathlib
import random
import subprocess
import sys
import tempfile
import time

USUAL = ("parts=1", "workers=1")
WIDE = ("parts=64", "workers=4")
CODES = ("c", "pc", "d", "ef")


class Run:
    """Wall clock, processor time and peak of one process."""

    def __init__(self, words, output):
        with open(output, "wb") as out:
            start = time.monotonic()
            child = subprocess.Popen(words, stdout=out)
            _, status, usage = os.wait4(child.pid, 0)
            self.seconds = time.monotonic() - start
        self.processor_seconds = usage.ru_utime + usage.ru_stime
        child.returncode = os.waitstatus_to_exitcode(status)
        self.bytes = usage.ru_maxrss * 1024
        self.is_done = child.returncode == 0


def write_keys(path, count):
    numbers = random.Random(count)
    with open(path, "w") as out:
        for at in range(0, count, 100_000):
            size = min(100_000, count - at)
            out.write("".join(f"{numbers.getrandbits(64):016x}\n" for _ in range(size)))


def least(words, output, runs):
    """The least seconds and the greatest peak of so many runs, or `None` where one gave up."""
    tried = [Run(words, output) for _ in range(runs)]
    if not all(run.is_done for run in tried):
        return None
    return min(run.seconds for run in tried), max(run.bytes for run in tried)


def growth(program, plot, counts):
    print("| keys | settings | build | a key | peak | a key | index, bits a key |")
    print("|---|---|---|---|---|---|---|")
    lines = {USUAL: [], WIDE: []}
    with tempfile.TemporaryDirectory() as room:
        keys, index, text = (f"{room}/{name}" for name in ("keys", "index", "text"))
        for count in counts:
            write_keys(keys, count)
            for words in lines:
                found = least([program, "build", keys, index, *words], text, 1 if count > 10_000_000 else 3)
                if found is None:
                    print(f"| {count:,} | {' '.join(words)} | gave up | | | | |", flush=True)
                    continue
                seconds, peak = found
                bits = os.path.getsize(index) * 8 / count
                lines[words].append((count, seconds / count * 1e9, peak / count))
                print(f"| {count:,} | {' '.join(words)} | {seconds:.3f} s | {seconds / count * 1e9:.0f} ns | {peak / 1e6:.1f} MB "
                      f"| {peak / count:.1f} bytes | {bits:.3f} |", flush=True)
    pathlib.Path(plot).write_text(svg_of(lines))


def svg_of(lines):
    """Two panels over the number of keys, each a line for each choice of settings."""
    panels = [("nanoseconds a key", 1), ("bytes of memory a key", 2)]
    out = ['<svg xmlns="http://www.w3.org/2000/svg" width="760" height="320" font-family="sans-serif" font-size="12">',
           '<rect width="760" height="320" fill="white"/>']
    for at, (title, column) in enumerate(panels):
        out += panel(60 + at * 370, title, {words: [(row[0], row[column]) for row in rows] for words, rows in lines.items() if rows})
    return "\n".join([*out, "</svg>", ""])


def panel(left, title, lines):
    """One panel: a linear axis from 0 upward, and powers of ten to the right."""
    width, top, height = 280, 40, 220
    most = max(value for rows in lines.values() for _, value in rows) * 1.1
    powers = [math.log10(count) for rows in lines.values() for count, _ in rows]
    first, last = math.floor(min(powers)), math.ceil(max(powers))

    def place(count, value):
        return left + (math.log10(count) - first) / max(1, last - first) * width, top + height - value / most * height

    out = [f'<text x="{left}" y="24" font-weight="bold">{title}</text>']
    for step in range(5):
        value = most * step / 4
        y = place(10**first, value)[1]
        out.append(f'<line x1="{left}" y1="{y:.1f}" x2="{left + width}" y2="{y:.1f}" stroke="#ddd"/>')
        out.append(f'<text x="{left - 6}" y="{y + 4:.1f}" text-anchor="end">{value:.0f}</text>')
    for power in range(first, last + 1):
        x = place(10**power, 0)[0]
        out.append(f'<text x="{x:.1f}" y="{top + height + 18}" text-anchor="middle">10<tspan dy="-5" font-size="9">{power}</tspan></text>')
    for number, (words, rows) in enumerate(lines.items()):
        colour = ("#1f5fa8", "#c0562a")[number]
        points = " ".join("{:.1f},{:.1f}".format(*place(*row)) for row in rows)
        out.append(f'<polyline points="{points}" fill="none" stroke="{colour}" stroke-width="2"/>')
        out.append(f'<text x="{left}" y="{top + height + 36 + 14 * number}" fill="{colour}">{" ".join(words)}</text>')
    return out


def settings(program, count):
    """What each encoding costs, and each of the other settings beside the usual ones."""
    encodings = [f"enc={code}" for code in CODES] + [f"enc={front}-{back}" for front in CODES for back in CODES]
    rows = [[], *([it] for it in encodings), *([f"c={c}"] for c in (300, 400, 500, 900, 1100)), *([f"alpha={a}"] for a in (90, 94, 99)),
            *([f"parts={parts}"] for parts in (4, 16, 64, 256, 1024)), ["map=uniform"], ["parts=64", "workers=4"]]
    print(f"| {count:,} keys | build | query | index, bits a key |")
    print("|---|---|---|---|")
    with tempfile.TemporaryDirectory() as room:
        keys, index, text = (f"{room}/{name}" for name in ("keys", "index", "text"))
        write_keys(keys, count)
        for words in rows:
            full = [*words, *(it for it in USUAL if not any(word.split("=")[0] == it.split("=")[0] for word in words))]
            built = least([program, "build", keys, index, *full], text, 3)
            asked = built and least([program, "query", index, keys], text, 3)
            if asked:
                print(f"| {' '.join(words) or 'no words'} | {built[0]:.3f} s | {asked[0]:.3f} s | {os.path.getsize(index) * 8 / count:.3f} |", flush=True)
            else:
                print(f"| {' '.join(words) or 'no words'} | gave up | | |", flush=True)


def workers(program, count, usual):
    """Time by the clock and processor time, beside one worker; the indexes must be the same."""
    rows = [["workers=1"], *(["search=" + search, f"workers={number}"] for search in ("turns", "rounds") for number in (2, 4))]
    with tempfile.TemporaryDirectory() as room:
        keys, index, text = (f"{room}/{name}" for name in ("keys", "index", "text"))
        write_keys(keys, count)
        tried = {tuple(words): [] for words in rows}
        indexes = set()
        for _ in range(3):
            for words in rows:
                run = Run([program, "build", keys, index, *usual, *words], text)
                if not run.is_done:
                    sys.exit(f"{' '.join(words)}: gave up")
                tried[tuple(words)].append(run)
                indexes.add(pathlib.Path(index).read_bytes())
    if len(indexes) != 1:
        sys.exit("the indexes differ")
    print(f"| {count:,} keys, {' '.join(usual) or 'no other words'} | by the clock | beside one worker | processor time |")
    print("|---|---|---|---|")
    alone = min(run.seconds for run in tried[tuple(rows[0])])
    for words, runs in tried.items():
        seconds = min(run.seconds for run in runs)
        print(f"| {' '.join(words)} | {seconds:.3f} s | {seconds / alone:.2f} | {min(run.processor_seconds for run in runs):.3f} s |")


def peers(program, others, counts):
    """Other perfect hashes beside ours. Theirs are timed in memory, ours from file to file, with reading and printing."""
    print("| keys | method | build | bits a key | lookup | peak |")
    print("|---|---|---|---|---|---|")
    with tempfile.TemporaryDirectory() as room:
        keys, index, text = (f"{room}/{name}" for name in ("keys", "index", "text"))
        for count in counts:
            write_keys(keys, count)
            for name in ("bbhash", "chd", "bdz"):
                runs = [subprocess.run([others, name, keys], capture_output=True, text=True, check=True).stdout.split() for _ in range(3)]
                built, bits, lookup, peak = (min(float(run[at]) for run in runs) for at in range(4))
                print(f"| {count:,} | {name} | {built:.3f} s | {bits:.2f} | {lookup:.0f} ns | {peak:.1f} MiB |", flush=True)
            for words in (["workers=1"], ["workers=1", "enc=ef"], ["parts=64", "workers=4"]):
                built = least([program, "build", keys, index, *words], text, 3)
                asked = least([program, "query", index, keys], text, 3)
                bits = os.path.getsize(index) * 8 / count
                print(f"| {count:,} | ours, {' '.join(words)} | {built[0]:.3f} s | {bits:.2f} | {asked[0] / count * 1e9:.0f} ns "
                      f"| {built[1] / 2**20:.1f} MiB |", flush=True)


def main():
    if len(sys.argv) > 4 and sys.argv[1] == "growth":
        growth(sys.argv[2], sys.argv[3], [int(it) for it in sys.argv[4:]])
    elif len(sys.argv) > 3 and sys.argv[1] == "workers":
        workers(sys.argv[2], int(sys.argv[3]), sys.argv[4:])
    elif len(sys.argv) > 4 and sys.argv[1] == "peers":
        peers(sys.argv[2], sys.argv[3], [int(it) for it in sys.argv[4:]])
    elif len(sys.argv) == 4 and sys.argv[1] == "settings":
        settings(sys.argv[2], int(sys.argv[3]))
    else:
        sys.exit(__doc__)


if __name__ == "__main__":
    main()
