#!/usr/bin/env python3
"""soak.py [--seconds N] [--seed S] [--every K] [--bin DIR]: random edits of the repository's own texts through bin/mdpreview, for N seconds (60).

Each document is one run of mdpreview with some options, 400 edits and preludes long. The pieces are kept as a client keeps them, in every second document with
the lines on which they begin (--lines). After every K edits (10), and at the end, they must be what `html` answers and what bin/mdrender writes for the whole text,
and begin where a preview of the whole text says. A refusal must be the one that is due: of a line out of
range or with CR as the client counts it, else the one that mdrender gives for that text. Prints how many edits were done, and the seed; a failure leaves its
script in out/. The last line is 'N passed, M failed', over the documents."""
import argparse
import glob
import os
import random
import subprocess
import sys
import tempfile
import time

ROOT = os.path.abspath(os.path.join(os.path.dirname(__file__), ".."))
EDITS, MOST_LINES = 400, 3000
MARKS = "*_~[]()!<>&\\`-+#|:=\"'. \t0123"
WORDS = [
    [], [], ["--unsafe"], ["--hardbreaks"], ["--nobreaks", "--unsafe", "--github-pre-lang", "--full-info-string", "--table-prefer-style-attributes", "--strikethrough-double-tilde"],
    ["--max-containers", "2", "--max-spans", "1"], ["--max-containers", "256", "--max-spans", "256"],
]
OTHERS = [b"a\rb", b"\xff\xfe\x80", b"a\x00b", b"\xe2\x82", b"> " * 65 + b"a", b"- " * 70 + b"a", b"*a " * 70 + b"b" + b" a*" * 70]


class Failed(Exception):
    pass


def own_texts():
    """The lines of each text of the repository that a person wrote as text."""
    names = ["README.md", "CHANGELOG.md", *glob.glob("docs/*.md"), *glob.glob("examples/*.*"), *glob.glob("crates/*/src/*.rt")[:20]]
    texts = []
    for name in sorted(names):
        with open(os.path.join(ROOT, name), "rb") as file:
            texts.append(file.read().replace(b"\r", b"").removeprefix(b"\xef\xbb\xbf").split(b"\n"))
    return texts


class Session:
    """An mdpreview, with the lines, the prelude and the pieces that it should hold."""

    def __init__(self, programs, words, scratch, has_lines):
        self.render = [os.path.join(programs, "mdrender"), *words]
        self.preview = [os.path.join(programs, "mdpreview"), *words, *(["--lines"] if has_lines else [])]
        pipe = subprocess.PIPE
        self.child = subprocess.Popen(self.preview, stdin=pipe, stdout=pipe, stderr=pipe)
        self.begins = [] if has_lines else None
        self.prelude_file = os.path.join(scratch, "prelude")
        self.lines, self.prelude, self.pieces, self.script = [], [], [], []

    def ask(self, command, lines=()):
        """Sends a command, and answers the words of its reply."""
        sent = b"".join(line + b"\n" for line in [command.encode(), *lines])
        self.script.append(sent)
        self.child.stdin.write(sent)
        self.child.stdin.flush()
        reply = self.child.stdout.readline().decode().split()
        if not reply:
            raise Failed(f"no reply to {command}; it ended with {self.child.wait()}: {self.child.stderr.read()!r}")
        return reply

    def take_pieces(self, reply):
        """Keeps the pieces that come with a reply."""
        first, removed, added, again = map(int, reply[1:])
        self.pieces[first:first + removed] = [b""] * added
        if self.begins is not None:
            _, behind, by = self.child.stdout.readline().split()
            self.begins[first:first + removed] = [None] * added
            self.begins[int(behind):] = [line + int(by) for line in self.begins[int(behind):]]
        for _ in range(added + again):
            _, number, size, *line = self.child.stdout.readline().split()
            self.pieces[int(number)] = self.child.stdout.read(int(size))
            if self.begins is not None:
                self.begins[int(number)] = int(line[0])

    def rendered(self, lines, prelude):
        """What mdrender writes for a text: its status, its HTML and its line on standard error."""
        words = self.render
        if prelude:
            with open(self.prelude_file, "wb") as file:
                file.write(b"".join(line + b"\n" for line in prelude))
            words = [*words, "--prelude", self.prelude_file]
        ran = subprocess.run(words, input=b"".join(line + b"\n" for line in lines), capture_output=True)
        return ran.returncode, ran.stdout, ran.stderr.decode()

    def check(self):
        """The pieces that are kept, the reply to `html` and mdrender's HTML are the same bytes."""
        reply = self.ask("html")
        html = self.child.stdout.read(int(reply[1]))
        if html != b"".join(self.pieces):
            raise Failed("the pieces are not what `html` answers")
        status, whole, said = self.rendered(self.lines, self.prelude)
        if (status, whole) != (0, html):
            raise Failed(f"mdrender writes something else: status {status}, {said!r}")

    def check_lines(self):
        """The pieces begin where those of a preview begin that is given the whole text."""
        if self.begins is None:
            return
        sent = b"".join(line + b"\n" for line in [b"edit 0 0 %d" % len(self.lines), *self.lines])
        ran = subprocess.run(self.preview, input=sent, capture_output=True)
        rest, begins = ran.stdout.split(b"\n", 2)[2], []
        while rest:
            head, _, rest = rest.partition(b"\n")
            _, _, size, line = head.split()
            begins.append(int(line))
            rest = rest[int(size):]
        if begins != self.begins:
            raise Failed(f"the pieces are told to begin on other lines: {self.begins}, and {begins}")

    def refusal_is_due(self, said, due, lines, prelude):
        """A refusal is the one that the client counts, else the one that mdrender names for the text."""
        if due:
            if said != due:
                raise Failed(f"answered {said}, and {due} was due")
            return
        status, _, error = self.rendered(lines, prelude)
        wanted = f"mdrender: refused {said}\n"
        if status != 1 or error != wanted:
            raise Failed(f"answered refused {said}, and mdrender ends with {status}: {error!r}")

    def done(self, reply, due, lines, prelude):
        """Takes the reply to an edit or a prelude that leaves these lines and that prelude. Answers the refusal's name, or nothing."""
        if reply[0] == "refused":
            self.refusal_is_due(" ".join(reply[1:]), due, lines, prelude)
            return reply[1]
        if due:
            raise Failed(f"done, though {due} was due")
        self.take_pieces(reply)
        self.lines, self.prelude = lines, prelude
        return None

    def edit(self, at, gone, add):
        due = due_break(add)
        if at + gone > len(self.lines):
            due = f"OutOfRange {len(self.lines)}"
        return self.done(self.ask(f"edit {at} {gone} {len(add)}", add), due, self.lines[:at] + add + self.lines[at + gone:], self.prelude)

    def set_prelude(self, add):
        return self.done(self.ask(f"prelude {len(add)}", add), due_break(add), self.lines, add)

    def memory(self):
        """The most memory that the child held, in kilobytes."""
        with open(f"/proc/{self.child.pid}/status", encoding="utf-8") as file:
            return next(int(line.split()[1]) for line in file if line.startswith("VmHWM"))

    def end(self):
        """The end of the script is a proper end."""
        self.child.stdin.close()
        status = self.child.wait()
        if status != 0 or self.child.stdout.read() or self.child.stderr.read():
            raise Failed(f"ended with status {status}")

    def stop(self):
        if self.child.poll() is None:
            self.child.kill()
            self.child.wait()


def due_break(add):
    """The refusal of lines with CR."""
    return next((f"BreakInLine {place}" for place, line in enumerate(add) if b"\r" in line), None)


class Writer:
    """Somebody who edits a text by chance."""

    def __init__(self, rand, texts):
        self.rand, self.texts = rand, texts

    def some_lines(self, most):
        """Lines that stand together in one of the texts."""
        text = self.rand.choice(self.texts)
        first = self.rand.randrange(len(text))
        return text[first:first + self.rand.randint(1, most)]

    def typed(self, line):
        """A line with a few characters changed."""
        text = line.decode("utf-8", "replace")
        for _ in range(self.rand.randint(1, 3)):
            at = self.rand.randint(0, len(text))
            gone = self.rand.choice([0, 0, 0, 1, 2])
            text = text[:at] + self.rand.choice(["", self.rand.choice(MARKS), self.rand.choice(MARKS) * 3, "é", "word"]) + text[at + gone:]
        return text.encode()

    def moved(self, lines):
        """Lines further in or out, or in a quote or an item."""
        front = self.rand.choice([b"  ", b"    ", b"\t", b"> ", b"- ", b"1. ", None])
        if front is None:
            return [line[self.rand.randint(1, 4):] for line in lines]
        if front in (b"- ", b"1. "):
            return [front + lines[0]] + [b" " * len(front) + line for line in lines[1:]]
        return [front + line for line in lines]

    def definition(self, lines):
        """A definition of a label that the text may ask for."""
        words = b" ".join(lines[:40]).split()
        label = self.rand.choice(words) if words and self.rand.random() < 0.7 else b"foo"
        return b"[" + label.strip(b"[]()*_`\\\r") [:60] + b"]: /" + str(self.rand.randrange(9)).encode()

    def edit(self, lines):
        """A random edit: where, how many lines go, and which come."""
        rand = self.rand
        at = rand.randint(0, len(lines))
        gone = min(len(lines) - at, rand.choice([0, 1, 1, 2, 5]))
        kind = rand.random()
        if len(lines) > MOST_LINES or kind < 0.08:
            return at // 2, min(len(lines) - at // 2, rand.choice([1, 3, 30, len(lines) // 2])), []
        if kind < 0.40 and gone:
            return at, gone, [self.typed(line) for line in lines[at:at + gone]]
        if kind < 0.50 and gone:
            return at, gone, self.moved(lines[at:at + gone])
        if kind < 0.60:
            return at, gone, [self.definition(lines[at:])]
        if kind < 0.68:
            return at, gone, [b""] * rand.randint(0, 2)
        if kind < 0.71:
            return at, gone, [rand.choice(OTHERS)]
        if kind < 0.73:
            return at + rand.randint(1, 9), len(lines), self.some_lines(3)
        if kind < 0.735:
            return 0, len(lines), list(rand.choice(self.texts))
        return at, gone, self.some_lines(12)

    def prelude(self):
        lines = [self.definition(self.some_lines(4)) for _ in range(self.rand.randint(0, 3))]
        if self.rand.random() < 0.1:
            lines += self.some_lines(2)
        return lines


def document(number, options, texts, scratch, counts):
    """One document from its first edit to its end."""
    rand = random.Random(f"{options.seed}:{number}")
    words = rand.choice(WORDS)
    writer, session = Writer(rand, texts), Session(options.bin, words, scratch, number % 2 == 1)
    try:
        for step in range(EDITS):
            if rand.random() < 0.04:
                end = session.set_prelude(writer.prelude()) or "done"
            else:
                end = session.edit(*writer.edit(session.lines)) or "done"
            counts[end] = counts.get(end, 0) + 1
            if step % options.every == 0:
                session.check()
                session.check_lines()
        session.check()
        session.check_lines()
        counts["most memory"] = max(counts.get("most memory", 0), session.memory())
        session.end()
    except (Failed, OSError, ValueError, IndexError) as fault:
        name = os.path.join(ROOT, "out", f"soak-{options.seed}-{number}.script")
        os.makedirs(os.path.dirname(name), exist_ok=True)
        with open(name, "wb") as file:
            file.write(b"".join(session.script))
        print(f"FAILED document {number} of seed {options.seed}, with {' '.join(words) or 'no words'}: {fault}", flush=True)
        print(f"its script is {name}", flush=True)
        return False
    finally:
        session.stop()
    return True


def main():
    parser = argparse.ArgumentParser(description="Random edits of the repository's own texts through mdpreview.")
    parser.add_argument("--seconds", type=float, default=60)
    parser.add_argument("--seed", type=int, default=1)
    parser.add_argument("--every", type=int, default=10)
    parser.add_argument("--bin", default=os.path.join(ROOT, "bin"))
    options = parser.parse_args()
    texts, counts, passed, failed, number = own_texts(), {}, 0, 0, 0
    began = time.time()
    with tempfile.TemporaryDirectory() as scratch:
        while time.time() - began < options.seconds:
            good = document(number, options, texts, scratch, counts)
            passed, failed, number = passed + good, failed + (not good), number + 1
    memory = counts.pop("most memory", 0)
    edits = sum(counts.values())
    print(f"seed {options.seed}: {edits} edits and preludes in {time.time() - began:.0f} s")
    for end, count in sorted(counts.items()):
        print(f"{count:8} {end}")
    print(f"the most memory that one mdpreview held: {memory / 1000:.1f} MB")
    print(f"{passed} passed, {failed} failed")
    return failed > 0


if __name__ == "__main__":
    sys.exit(main())
