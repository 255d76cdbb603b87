#!/usr/bin/env python3
"""fuzz.py [--seconds N] [--seed S] [--bin DIR]: random bytes through bin/mdrender and bin/mdpreview for N seconds (60), under a limit on memory (`ulimit -v`).

The bytes are a text, a prelude, an entity file, a script, the lines of a script's edits, or a script with bytes changed. Some runs have memory enough, and some
hardly more than a program takes to begin. Each run must end by itself with status 0, 1 or 2; with 0 it says nothing on standard error, else one line with the
program's name; a text that mdrender refuses leaves nothing on standard output. Prints how the runs ended. A failure leaves its bytes in out/. The last line is
'N passed, M failed'."""
import argparse
import os
import random
import resource
import subprocess
import sys
import tempfile
import time

ROOT = os.path.abspath(os.path.join(os.path.dirname(__file__), ".."))
AMPLE = 1 << 30
SECONDS = 20
MARKS = b"*_~[]()!<>&\\`-+#|:=\n\n \t>.\"'019a"
PARTS = [
    b"edit 0 0 1\n", b"html\n", b"prelude 1\n", b"edit 0 1 0\n", b'{"&a;":{"characters":"x"}}',
    "ẞé\u2028\u0301".encode(), b"[a]: /u\n", b"\r\n", b"\r", b"\0",
]
WORDS = [[], ["--unsafe"], ["--hardbreaks"], ["--max-containers", "256", "--max-spans", "256"], ["--max-spans", "1"]]


class Chance(random.Random):
    """The chance of one run, which may be one with hardly any memory."""

    def __init__(self, seed):
        super().__init__(seed)
        self.tight = self.random() < 0.4

    def size(self):
        """Mostly short, and now and then up to a megabyte; longer where there is hardly any memory."""
        return int(2 ** self.uniform(0, 18 if self.tight else 12 if self.random() < 0.95 else 20))

    def memory(self, least):
        """How much memory a program has that needs so much to begin."""
        return least + int(2 ** self.uniform(12, 22)) & ~4095 if self.tight else AMPLE


def some_bytes(rand):
    count, kind = rand.size(), rand.randrange(6)
    if kind == 0:
        return rand.randbytes(count)
    if kind == 1:
        return bytes(rand.choices(MARKS, k=count))
    if kind == 2:
        return (rand.randbytes(1) * count)
    if kind == 3:
        return (rand.randbytes(rand.randint(2, 5)) * (count // 2 + 1))[:count]
    if kind == 4:
        return b"".join(rand.choice(PARTS) if rand.random() < 0.3 else rand.randbytes(rand.randint(0, 9)) for _ in range(count // 8 + 1))
    return bytes(byte & 0x7F for byte in rand.randbytes(count))


def edits(rand):
    """A script whose lines are random bytes."""
    script, held = [], 0
    for _ in range(rand.randint(1, 8)):
        lines = some_bytes(rand).split(b"\n")
        if rand.random() < 0.2:
            script += [b"prelude %d" % len(lines), *lines]
            continue
        at = rand.randint(0, held)
        gone = rand.randint(0, held - at + (rand.random() < 0.1))
        held = max(0, held + len(lines) - gone)
        script += [b"edit %d %d %d" % (at, gone, len(lines)), *lines]
        if rand.random() < 0.5:
            script.append(b"html")
    return b"".join(line + b"\n" for line in script)


def changed(rand, data):
    """Bytes with some of them put otherwise."""
    data = bytearray(data)
    for _ in range(rand.randint(1, 6)):
        at = rand.randint(0, len(data))
        data[at:at + rand.randint(0, 3)] = rand.randbytes(rand.randint(0, 3))
    return bytes(data)


def limited(most):
    def set_limit():
        resource.setrlimit(resource.RLIMIT_AS, (most, most))
        resource.setrlimit(resource.RLIMIT_CORE, (0, 0))
    return set_limit


def run(program, words, data, most):
    return subprocess.run([program, *words], input=data, capture_output=True, timeout=SECONDS, preexec_fn=limited(most))


def least_memory(program):
    """The bytes of address space with which a program can begin."""
    low, high = 0, AMPLE
    while high - low > 4096:
        middle = (low + high) // 2 & ~4095
        if run(program, ["--help"], b"", middle).returncode == 0:
            high = middle
        else:
            low = middle
    return high


class Case:
    """One run: a program with its words, and the bytes of standard input and of files."""

    def __init__(self, rand, folder):
        self.name = rand.choice(["mdrender", "mdpreview"])
        self.words, self.files = rand.choice(WORDS), {}
        self.data = self.standard_input(rand)
        for option in ("--entities", "--prelude"):
            if rand.random() < 0.15:
                self.put(folder, option[2:], some_bytes(rand) if rand.random() < 0.7 else rand.choice(PARTS))
                self.words = [*self.words, option, os.path.join(folder, option[2:])]
        if rand.random() < 0.3:
            self.put(folder, "file", self.data)
            self.words, self.data = [*self.words, os.path.join(folder, "file")], b""

    def standard_input(self, rand):
        if self.name == "mdrender":
            return some_bytes(rand)
        kind = rand.randrange(3)
        return some_bytes(rand) if kind == 0 else edits(rand) if kind == 1 else changed(rand, edits(rand))

    def put(self, folder, name, data):
        self.files[name] = data
        with open(os.path.join(folder, name), "wb") as file:
            file.write(data)

    def fault(self, ran):
        """What is wrong with how a run ended, or nothing."""
        said = ran.stderr.decode("utf-8", "replace")
        if ran.returncode not in (0, 1, 2):
            return f"status {ran.returncode}: {said[:200]!r}"
        if ran.returncode == 0:
            return f"status 0, and said {said[:200]!r}" if said else None
        if not said.startswith(self.name + ": ") or said.count("\n") != 1 or not said.endswith("\n"):
            return f"status {ran.returncode}, and said {said[:200]!r}"
        return "something was written" if self.name == "mdrender" and ran.stdout else None

    def keep(self, folder, number):
        """Leaves the bytes of a run."""
        os.makedirs(folder, exist_ok=True)
        for name, data in [("input", self.data), *self.files.items()]:
            with open(os.path.join(folder, f"fuzz-{number}-{name}"), "wb") as file:
                file.write(data)


def ending(case, ran):
    """How a run ended, without what differs from text to text."""
    words = ran.stderr.decode("utf-8", "replace").strip().split(": ", 1)
    what = words[1] if len(words) > 1 else "done"
    parts = what.split(" ")
    what = " ".join(parts[:2]) if parts[0] == "refused" else what.rstrip("0123456789").strip()
    return f"{case.name}: {what}"


def main():
    parser = argparse.ArgumentParser(description="Random bytes through both programs.")
    parser.add_argument("--seconds", type=float, default=60)
    parser.add_argument("--seed", type=int, default=1)
    parser.add_argument("--bin", default=os.path.join(ROOT, "bin"))
    options = parser.parse_args()
    programs = {name: os.path.join(options.bin, name) for name in ("mdrender", "mdpreview")}
    least = {name: least_memory(program) for name, program in programs.items()}
    passed = failed = number = 0
    ends, began = {}, time.time()
    with tempfile.TemporaryDirectory() as folder:
        while time.time() - began < options.seconds:
            rand = Chance(f"{options.seed}:{number}")
            case = Case(rand, folder)
            most = rand.memory(least[case.name])
            try:
                ran = run(programs[case.name], case.words, case.data, most)
                wrong = case.fault(ran)
                ends[ending(case, ran)] = ends.get(ending(case, ran), 0) + 1
            except subprocess.TimeoutExpired:
                wrong = f"no end after {SECONDS} s"
            if wrong:
                case.keep(os.path.join(ROOT, "out"), number)
                print(f"FAILED run {number} of seed {options.seed}: {case.name} {' '.join(case.words)}", end="")
                print(f" with {most} bytes of memory: {wrong}", flush=True)
            passed, failed, number = passed + (not wrong), failed + bool(wrong), number + 1
    print(f"seed {options.seed}: {number} runs in {time.time() - began:.0f} s")
    for end, count in sorted(ends.items()):
        print(f"{count:8} {end}")
    print(f"{passed} passed, {failed} failed")
    return failed > 0


if __name__ == "__main__":
    sys.exit(main())
