#!/usr/bin/env python3
"""bench.py [--runs N] [--folder FOLDER] [--table] [FILE..]: bin/mdrender beside cmark-gfm and md4c, where these are installed.

Each program renders each file: instructions (valgrind, steady from run to run), the least processor time of N runs in turns (7; 0: none), and the most memory it
held. Without files the texts are those of bench_texts.py, in a folder that goes at the end, or in FOLDER if one is named. A figure in brackets is the ratio to
cmark-gfm's. --table writes the rows as a table of Markdown. What is missing is said, and left out."""
import argparse
import glob
import math
import os
import re
import resource
import shutil
import subprocess
import sys
import tempfile

import bench_texts

HERE = os.path.dirname(os.path.abspath(__file__))
OURS, THEIRS = "mdrender", "cmark-gfm"
TIME = "/usr/bin/time"


def compiled(folder):
    """A driver of md4c, if it can be built."""
    driver = os.path.join(folder, "md4c")
    made = shutil.which("gcc") and subprocess.run(
        ["gcc", "-O2", "-o", driver, os.path.join(HERE, "bench_md4c.c"), "-lmd4c-html", "-lmd4c"], capture_output=True)
    return driver if made and made.returncode == 0 else None


def programs(folder):
    """The programs that are there, and the names of those that are not."""
    found = {OURS: [os.path.join(HERE, "..", "bin", "mdrender"), "--unsafe"]}
    missing = []
    if shutil.which("cmark-gfm"):
        found[THEIRS] = ["cmark-gfm", "--unsafe", "-e", "table", "-e", "strikethrough", "-e", "tasklist"]
    else:
        missing.append("cmark-gfm")
    driver = compiled(folder)
    if driver:
        found["md4c"] = [driver]
    else:
        missing.append("md4c (gcc, libmd4c-dev and libmd4c-html0-dev)")
    if not shutil.which("valgrind"):
        missing.append("valgrind (no instructions are counted)")
    if not os.path.exists(TIME):
        missing.append("time (no memory is measured)")
    return found, missing


def instructions(command, name, may_refuse=False):
    counted = subprocess.run(["valgrind", "--tool=callgrind", "--callgrind-out-file=/dev/null"] + command + [name],
                             stdout=subprocess.DEVNULL, stderr=subprocess.PIPE, text=True, check=not may_refuse)
    return int(re.search(r"refs:\s+([0-9,]+)", counted.stderr).group(1).replace(",", ""))


def seconds(command, name):
    """The processor time of one run."""
    before = resource.getrusage(resource.RUSAGE_CHILDREN)
    subprocess.run(command + [name], stdout=subprocess.DEVNULL, check=True)
    after = resource.getrusage(resource.RUSAGE_CHILDREN)
    return after.ru_utime + after.ru_stime - before.ru_utime - before.ru_stime


def megabytes(command, name):
    """The most memory that one run held; measured by a small program, since a child of this one begins with its memory."""
    said = subprocess.run([TIME, "-f", "%M"] + command + [name], stdout=subprocess.DEVNULL, stderr=subprocess.PIPE, text=True, check=True).stderr
    return int(said.split()[-1]) / 1000


def measured(found, name, runs):
    """What each program takes for a file, by measure and program."""
    figures = {}
    if shutil.which("valgrind"):
        size = max(1, os.path.getsize(name))
        figures["instructions a byte"] = {who: instructions(command, name) / size for who, command in found.items()}
    if runs:
        least = {who: float("inf") for who in found}
        for _ in range(runs):
            for who, command in found.items():
                least[who] = min(least[who], seconds(command, name))
        figures["milliseconds"] = {who: 1000 * time for who, time in least.items()}
    if os.path.exists(TIME):
        figures["megabytes"] = {who: megabytes(command, name) for who, command in found.items()}
    return figures


def shown(values):
    """The figure of each program, with its ratio to cmark-gfm's."""
    parts = []
    for who, value in values.items():
        ratio = f" ({value / values[THEIRS]:.2f})" if THEIRS in values and who != THEIRS else ""
        parts.append(f"{value:.1f}{ratio}")
    return parts


def summary(ratios):
    for (measure, who), them in ratios.items():
        mean = math.exp(sum(map(math.log, them)) / len(them))
        print(f"{measure}, {who} to {THEIRS}: geometric mean {mean:.2f}, worst {max(them):.2f}, below 1 on {sum(x < 1 for x in them)} of {len(them)}")


def compare(found, files, runs, table):
    ratios, headed = {}, False
    for name in files:
        figures = measured(found, name, runs)
        if table and not headed:
            heads = [f"{measure}: {who}" for measure in figures for who in found]
            print("| Text | " + " | ".join(heads) + " |\n|---|" + "--:|" * len(heads))
            headed = True
        kind = os.path.splitext(os.path.basename(name))[0]
        if table:
            print(f"| {kind} | " + " | ".join(part for values in figures.values() for part in shown(values)) + " |", flush=True)
        else:
            print(kind.ljust(16) + "; ".join(f"{measure} " + ", ".join(f"{who} {part}" for who, part in zip(values, shown(values))) for measure, values in figures.items()), flush=True)
        for measure, values in figures.items():
            for who in values:
                if THEIRS in values and who != THEIRS:
                    ratios.setdefault((measure, who), []).append(values[who] / max(values[THEIRS], 1e-9))
    summary(ratios)


def main():
    parser = argparse.ArgumentParser(description=__doc__, formatter_class=argparse.RawDescriptionHelpFormatter)
    parser.add_argument("files", nargs="*")
    parser.add_argument("--runs", type=int, default=7)
    parser.add_argument("--folder")
    parser.add_argument("--table", action="store_true")
    words = parser.parse_args()
    scratch = tempfile.mkdtemp()
    try:
        found, missing = programs(scratch)
        for name in missing:
            print(f"missing: {name}")
        files = words.files
        if not files:
            folder = words.folder or os.path.join(scratch, "texts")
            bench_texts.write_all(folder, 1)
            files = sorted(glob.glob(os.path.join(folder, "*.md")))
        compare(found, files, words.runs, words.table)
    finally:
        shutil.rmtree(scratch)


if __name__ == "__main__":
    main()
