#!/usr/bin/env python3
"""memory.py [--scripts N] [--edits N] [--seed S] [--bin DIR]: each growth of memory refused in turn, in bin/refused_growths, bin/mdrender and bin/mdpreview.

A program runs as often as it asks for memory; in each run one of these growths is refused, by a library that is loaded before C's (refuse_memory.c; a C compiler is
needed). refused_growths makes the calls of the libraries that take memory: it must write what it always does, and where the growth was refused inside a call a line
more, that all was as before. Then come the examples' texts and scripts, two edits of a few bytes beside a long unit, and N random scripts of edits (3, of 40 edits each). mdpreview must
answer `refused NoMemory 0` to one command, and all others as if that command had not been sent; or end with status 1 and `no memory`, with a beginning of its replies
written; or go on as ever. An edit of a few bytes, beside a long unit or in its place, must be done though a large block of memory is refused. mdrender must write all
or nothing, and say `no memory`. The last line is 'N passed, M failed', over the growths."""
import argparse
import concurrent.futures
import glob
import os
import random
import subprocess
import sys
import tempfile

import soak

ROOT = soak.ROOT
NO_MEMORY = b"refused NoMemory 0\n"
LARGE = 1 << 18
AS_BEFORE = b"refused, and all is as before\n"


def library(folder):
    """The library that refuses a growth."""
    made = os.path.join(folder, "refuse_memory.so")
    source = os.path.join(os.path.dirname(os.path.abspath(__file__)), "refuse_memory.c")
    subprocess.run([os.environ.get("CC", "cc"), "-shared", "-fPIC", "-O1", "-o", made, source, "-ldl"], check=True)
    return made


def run(program, data, loaded, number, counts=None, least=0):
    env = dict(os.environ, LD_PRELOAD=loaded, REFUSED_GROWTH=str(number), LEAST_GROWTH=str(least), **({"GROWTHS_FILE": counts} if counts else {}))
    ran = subprocess.run(program, input=data, capture_output=True, env=env, timeout=60)
    return ran.returncode, ran.stdout, ran.stderr


def commands_of(script):
    """The commands of a script, each with its lines."""
    lines, commands, at = script.splitlines(keepends=True), [], 0
    while at < len(lines):
        words = lines[at].split()
        size = 1 + (int(words[-1]) if words[0] in (b"edit", b"prelude") else 0)
        commands.append(b"".join(lines[at:at + size]))
        at += size
    return commands


def replies_of(out):
    """The replies that a program wrote, of which the last may be a beginning."""
    replies, at = [], 0
    while at < len(out):
        begin, head = at, out[at:].split(b"\n", 1)[0]
        at += len(head) + 1
        words = head.split()
        if words[:1] == [b"html"] and len(words) == 2:
            at += int(words[1])
        elif words[:1] == [b"ok"] and len(words) == 5:
            for _ in range(int(words[3]) + int(words[4])):
                piece = out[at:].split(b"\n", 1)[0]
                at += len(piece) + 1 + (int(piece.split()[2]) if len(piece.split()) == 3 else 0)
        replies.append(out[begin:at])
    return replies


class Preview:
    """A script through mdpreview, with what it answers where a command is left out."""

    least = 0

    def __init__(self, programs, words, script, loaded):
        self.program, self.loaded = [os.path.join(programs, "mdpreview"), *words], loaded
        self.script, self.commands, self.without = script, commands_of(script), {}
        self.whole = run(self.program, script, loaded, 0)[1]

    def answers_without(self, place):
        """The replies where one command is not sent, and refused in its place."""
        if place not in self.without:
            left = self.commands[:place] + self.commands[place + 1:]
            replies = replies_of(run(self.program, b"".join(left), self.loaded, 0)[1])
            self.without[place] = b"".join(replies[:place] + [NO_MEMORY] + replies[place:])
        return self.without[place]

    def judge(self, status, out, error):
        """How a run ended, and whether it may."""
        if status == 1:
            return "it ends, with a beginning of the replies", error == b"mdpreview: no memory\n" and self.is_beginning(out)
        if (status, error) != (0, b""):
            return f"status {status}, {error!r}", False
        if out == self.whole:
            return "it goes on as ever", True
        return "one command is refused, and it goes on", out == self.refused_once(out)

    def refused_once(self, out):
        """The replies where the first command that is refused for want of memory was not sent."""
        replies = replies_of(out)
        return self.answers_without(replies.index(NO_MEMORY)) if NO_MEMORY in replies else None

    def is_beginning(self, out):
        return self.whole.startswith(out) or (self.refused_once(out) or b"").startswith(out)


class ShortEdit(Preview):
    """A script that ends with an edit of a few bytes, beside a long unit or in its place. Only large growths are refused, and this edit asks for none."""

    least = LARGE

    def judge(self, status, out, error):
        if status == 1 or out.startswith(NO_MEMORY):
            return "the long unit is refused", error in (b"", b"mdpreview: no memory\n")
        return "the short edit is done", (status, error) == (0, b"") and replies_of(out)[-1] == replies_of(self.whole)[-1]


class Render:
    """A text through mdrender."""

    least = 0

    def __init__(self, programs, words, text, loaded):
        self.program, self.script, self.loaded = [os.path.join(programs, "mdrender"), *words], text, loaded
        self.whole = run(self.program, text, loaded, 0)[1]

    def judge(self, status, out, error):
        if status == 1:
            return "it ends, with nothing written", (out, error) == (b"", b"mdrender: no memory\n")
        return "it goes on as ever", (status, out, error) == (0, self.whole, b"")


class Calls:
    """The program that makes the calls, and makes one again where it was refused."""

    least = 0

    def __init__(self, programs, loaded):
        self.program, self.script, self.loaded = [os.path.join(programs, "refused_growths")], b"", loaded
        self.whole = run(self.program, b"", loaded, 0)[1]

    def judge(self, status, out, error):
        if out == self.whole:
            return "outside of the calls", (status, error) == (0, b"")
        return "one call is refused, and all is as before", (status, error) == (0, b"") and out.replace(AS_BEFORE, b"", 1) == self.whole


def random_script(seed, edits):
    """A script of random edits of the repository's own texts, with the whole HTML now and then."""
    rand = random.Random(seed)
    texts = [text[:60] for text in soak.own_texts()]
    writer, lines, script = soak.Writer(rand, texts), [], []
    for step in range(edits):
        if rand.random() < 0.1:
            add = writer.prelude()
            script.append(b"prelude %d\n" % len(add) + b"".join(line + b"\n" for line in add))
            continue
        at, gone, add = writer.edit(lines) if step else (0, 0, rand.choice(texts))
        script.append(b"edit %d %d %d\n" % (at, gone, len(add)) + b"".join(line + b"\n" for line in add))
        # What is refused is no matter here: where the lines are is a guess then, and so are later edits.
        if at + gone <= len(lines):
            lines[at:at + gone] = add
        if rand.random() < 0.2:
            script.append(b"html\n")
    return b"".join(script)


def edit(at, gone, add):
    """The command that puts lines in the place of so many others."""
    return b"edit %d %d %d\n" % (at, gone, len(add)) + b"".join(line + b"\n" for line in add)


def short_edits():
    """Scripts that end with an edit of a few bytes: in front of a long fence, and one that leaves the first item of a long list. At the second change of an item
    it is known where the items end."""
    size = 40_000
    yield "a line in front of a long fence", edit(0, 0, [b"```"] + [b"a line of code"] * size) + edit(0, 0, [b"y", b""])
    changes = b"".join(edit(1, 1, [item]) for item in (b"- b", b"- c", b"- d"))
    yield "a long list cut to an item", edit(0, 0, [b"- an item"] * size) + changes + edit(1, size - 1, [])


def subjects(options, loaded):
    """What is run: a name and a program with its input."""
    yield "each call", Calls(options.bin, loaded)
    for name in sorted(glob.glob(os.path.join(ROOT, "examples", "*.script"))):
        if not os.path.exists(name.removesuffix(".script") + ".status"):
            with open(name, "rb") as file:
                yield os.path.relpath(name, ROOT), Preview(options.bin, [], file.read(), loaded)
    for name, script in short_edits():
        yield name, ShortEdit(options.bin, [], script, loaded)
    for number in range(options.scripts):
        yield f"random script {number}", Preview(options.bin, [], random_script(f"{options.seed}:{number}", options.edits), loaded)
    for name in sorted(glob.glob(os.path.join(ROOT, "examples", "*.md"))):
        with open(name, "rb") as file:
            yield os.path.relpath(name, ROOT), Render(options.bin, ["--unsafe"], file.read(), loaded)


def growths(subject, folder):
    """How many growths a run asks for."""
    counts = os.path.join(folder, "growths")
    run(subject.program, subject.script, subject.loaded, 0, counts, subject.least)
    with open(counts, encoding="utf-8") as file:
        return int(file.read())


def main():
    parser = argparse.ArgumentParser(description="Each growth of memory refused in turn.")
    parser.add_argument("--scripts", type=int, default=3)
    parser.add_argument("--edits", type=int, default=40)
    parser.add_argument("--seed", type=int, default=1)
    parser.add_argument("--jobs", type=int, default=2, help="how many runs side by side")
    parser.add_argument("--bin", default=os.path.join(ROOT, "bin"))
    options = parser.parse_args()
    passed = failed = 0
    with tempfile.TemporaryDirectory() as folder, concurrent.futures.ThreadPoolExecutor(options.jobs) as pool:
        for name, subject in subjects(options, library(folder)):
            ends = {}
            numbers = range(1, growths(subject, folder) + 1)
            if not numbers:
                failed += 1
                print(f"FAILED {name}: it asks for no memory, so nothing was refused", flush=True)
            runs = pool.map(lambda number: run(subject.program, subject.script, subject.loaded, number, None, subject.least), numbers)
            for number, (status, out, error) in zip(numbers, runs):
                end, good = subject.judge(status, out, error)
                ends[end] = ends.get(end, 0) + 1
                passed, failed = passed + good, failed + (not good)
                if not good:
                    print(f"FAILED {name}, growth {number}: {end}; {error!r}", flush=True)
            print(f"{name}: {len(numbers)} growths; " + "; ".join(f"{count}: {end}" for end, count in sorted(ends.items())), flush=True)
    print(f"{passed} passed, {failed} failed")
    return failed > 0


if __name__ == "__main__":
    sys.exit(main())
