#!/usr/bin/env python3
"""Times two builds of the machine in turn, and prints the medians.

    python3 bench/compare.py OLD NEW [TIMES]

OLD and NEW are out/bench of two checkouts, built by bench/run.sh; each is run ten times, or TIMES, one after the other. A build from
before this script ignores `time`: it compares random runs too, and its figure is the median of five rounds. Each figure is a median, with
the least and the largest in brackets: nanoseconds of processor time for a step of the proved machine, then its ratio to the plain one.
"""
import re
import statistics
import subprocess
import sys

LINE = re.compile(r"(.+?) +proved ([\d.]+) ns a step, plain ([\d.]+)")


def timed(binary):
    out = subprocess.run([binary, "time"], check=True, capture_output=True, text=True).stdout
    return {match[1]: (float(match[2]), float(match[3])) for match in map(LINE.match, out.splitlines()) if match}


def figure(values):
    return f"{statistics.median(values):.2f} ({min(values):.2f} to {max(values):.2f})"


def main(old, new, times):
    rounds = [(timed(old), timed(new)) for _ in range(times)]
    for program in rounds[0][0]:
        steps, ratios = [], []
        for build in (0, 1):
            figures = [one[build][program] for one in rounds]
            steps.append([ours for ours, _ in figures])
            ratios.append([ours / plain for ours, plain in figures])
        change = statistics.median(steps[1]) / statistics.median(steps[0]) - 1
        print(f"{program:16} old {figure(steps[0])}, new {figure(steps[1])} ns a step, {100 * change:+.1f} percent")
        print(f"{'':16} against plain: old {figure(ratios[0])}, new {figure(ratios[1])}")


if len(sys.argv) not in (3, 4):
    sys.exit(__doc__)
main(sys.argv[1], sys.argv[2], int(sys.argv[3]) if len(sys.argv) == 4 else 10)
