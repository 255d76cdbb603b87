#!/usr/bin/env python3
"""Counts the instructions of mdrender on hostile texts at two sizes, the second twice the first, and says where the count more than doubles. Then each mark of
Markdown 100,000 times, alone, behind a letter, and by turns with each other mark; and some large texts: none may take a second, or end but as it should. At last texts
that are as large as they may be.

usage: tools/hostile.py [FOLDER OF THE PROGRAMS]
"""
import itertools
import os
import resource
import subprocess
import sys
import tempfile

import bench

# More than this many times the instructions for twice the text is not linear.
MOST = 2.3
# What a text may take, in seconds of the processor's time, and what one may that is as large as a text may be.
LONGEST, LONGEST_OF_LARGEST = 1.0, 15.0
MARKS = "*_~[]()!<>&\\`-+#|:="
# The C library copies some sizes by one instruction that moves many bytes, on some processors. Then copies of other sizes would count for much more: so it does not.
WORD_BY_WORD = {"GLIBC_TUNABLES": "glibc.cpu.x86_rep_movsb_threshold=1000000000"}
# How often a mark stands in a text, and in those whose instructions are counted.
OFTEN, LESS_OFTEN = 100_000, 5_000


def backticks(size):
    """Runs of backticks of all lengths, some of which no other closes."""
    text, length = [], 1
    while size > 0:
        text.append("`" * length + "a")
        size -= length + 1
        length += 1
    return "".join(text) + "\n"


def definitions(count):
    return "".join(f"[l{n}]: /u{n}\n" for n in range(count)) + "\n"


KINDS = [
    ("prose", "bytes", 400_000, lambda n: ("Some words of plain text, one after the other, in a line.\n" * 9 + "\n") * (n // 523)),
    ("one paragraph", "lines", 10_000, lambda n: "some words of a line\n" * n),
    ("60 quotes, then lazy lines", "lines", 4_000, lambda n: "> " * 60 + "a\n" + "a\n" * n),
    ("a tight list", "items", 10_000, lambda n: "- an item\n" * n),
    ("a loose list", "items", 10_000, lambda n: "- an item\n\n" * n),
    ("blank lines in a list", "lines", 40_000, lambda n: "- a\n" + "\n" * n + "  b\n"),
    ("64 nested items, then blank lines", "lines", 5_000, lambda n: "- " * 64 + "a\n" + "\n" * n + "b\n"),
    ("definitions", "definitions", 10_000, definitions),
    ("definitions of one label", "definitions", 10_000, lambda n: "[a]: /u\n" * n + "\n[a]\n"),
    ("rows of a table", "rows", 5_000, lambda n: "a|b\n-|-\n" + "1|2\n" * n),
    ("cells of one row", "cells", 10_000, lambda n: "a|b\n-|-\n" + "1|" * n + "\n"),
    ("a fence that is not closed", "lines", 20_000, lambda n: "```\n" + "some code\n" * n),
    ("blank lines", "lines", 100_000, lambda n: "\n" * n),
    ("`[`, each opening nothing", "characters", 50_000, lambda n: "[" * n + "\n"),
    ("`![`", "characters", 50_000, lambda n: "![" * (n // 2) + "\n"),
    ("`](`", "characters", 50_000, lambda n: "](" * (n // 2) + "\n"),
    ("`[a](`", "times", 10_000, lambda n: "[a](" * n + "\n"),
    ("`[a][`", "times", 10_000, lambda n: "[a][" * n + "\n"),
    ("`a**b` and `c* `", "times", 10_000, lambda n: "a**b" + "c* " * n + "\n"),
    ("`*a **a `", "times", 10_000, lambda n: "*a **a " * n + "\n"),
    ("`*a ` and then `a_ `", "times", 10_000, lambda n: "*a " * n + "a_ " * n + "\n"),
    ("`*_` alternating", "times", 20_000, lambda n: "*_" * n + "a\n"),
    ("backticks of all lengths", "characters", 100_000, backticks),
    ("`<`", "characters", 50_000, lambda n: "a" + "<" * n + "\n"),
    ("`<!--` without a close", "times", 10_000, lambda n: "a" + "<!-- " * n + "\n"),
    ("`<?` without a close", "times", 10_000, lambda n: "a" + "<? " * n + "\n"),
    ("`<!a` without a close", "times", 10_000, lambda n: "a" + "<!a " * n + "\n"),
    ("`<![CDATA[` without a close", "times", 10_000, lambda n: "a" + "<![CDATA[ " * n + "\n"),
    ("`<a b=` without a close", "times", 10_000, lambda n: "a" + "<a b=\"" * n + "\n"),
    ("`&`", "characters", 50_000, lambda n: "a" + "&" * n + "\n"),
    ("backslashes", "characters", 50_000, lambda n: "a" + "\\" * n + "\n"),
    ("one line of words", "bytes", 400_000, lambda n: "words " * (n // 6) + "\n"),
]


LARGE = [
    ("definitions of one label", "50,000 definitions", "mdrender", lambda: "[a]: /u\n" * 50_000 + "\n[a]\n", "done"),
    ("a row of a table", "100,000 cells", "mdrender", lambda: "a|b\n-|-\n" + "1|" * 100_000 + "\n", "done"),
    ("64 nested items, then blank lines", "10,000 lines", "mdrender", lambda: "- " * 64 + "a\n" + "\n" * 10_000 + "b\n", "done"),
    ("one line", "16,777,215 letters", "mdrender", lambda: "a" * 16_777_215, "done"),
    ("one line, too long", "16,777,216 letters", "mdrender", lambda: "a" * 16_777_216, "refused TooLarge 0"),
    ("empty lines", "1,000,000 lines", "mdrender", lambda: "\n" * 1_000_000, "done"),
    ("empty lines, too many", "1,000,001 lines", "mdrender", lambda: "\n" * 1_000_001, "refused TooManyLines 0"),
    ("quotes", "100,000 `>`", "mdrender", lambda: ">" * 100_000, "refused NestedTooDeep 0"),
    ("strong emphasis in itself", "129 `*` on either side", "mdrender", lambda: "*" * 129 + "a" + "*" * 129, "refused InlineTooDeep 0"),
    ("an edit that claims lines", "999,999,999 lines", "mdpreview", lambda: "edit 0 0 999999999\na\n", "script ends inside the edit of line 1"),
    ("an edit that takes lines", "999,999,999 lines", "mdpreview", lambda: "edit 0 999999999 0\n", "done"),
]
# Texts as large as they may be: they go through mdrender, and through mdpreview as a first edit, without and with an edit of the line in their middle.
LARGEST = [
    ("one paragraph", "1,000,000 lines", lambda: "a\n" * 1_000_000),
    ("paragraphs", "1,000,000 lines", lambda: "a\n\n" * 500_000),
    ("one list", "1,000,000 lines", lambda: "- a\n" * 1_000_000),
    ("one table", "1,000,000 lines", lambda: "a|b\n-|-\n" + "1|2\n" * 999_998),
    ("definitions of as many labels", "1,000,000 lines", lambda: "".join(f"[l{n}]: /u\n" for n in range(1_000_000))),
    ("one line of words", "16,777,212 bytes", lambda: "word" * 4_194_303 + "\n"),
    ("one line of `*a* `", "16,777,212 bytes", lambda: "*a* " * 4_194_303 + "\n"),
    ("one line of `[`", "16,777,212 bytes", lambda: "[" * 16_777_212 + "\n"),
    ("one line of `<`", "16,777,212 bytes", lambda: "<" * 16_777_212 + "\n"),
]


def marked():
    """The texts of marks: a name, and what makes one of so many characters."""
    for mark in MARKS:
        yield f"`{mark}`", lambda n, mark=mark: mark * n + "\n"
        yield f"`{mark}` behind `a`", lambda n, mark=mark: "a" + mark * n + "\n"
    for pair in itertools.combinations(MARKS, 2):
        yield f"`{pair[0]}` and `{pair[1]}` by turns", lambda n, pair=pair: "".join(pair) * (n // 2) + "\n"


def timed(program, text):
    """The processor's seconds that the program takes for a text, and how it ended."""
    before = resource.getrusage(resource.RUSAGE_CHILDREN)
    ran = subprocess.run([program], input=text.encode(), stdout=subprocess.DEVNULL, stderr=subprocess.PIPE)
    after = resource.getrusage(resource.RUSAGE_CHILDREN)
    said = ran.stderr.decode().strip().removeprefix(os.path.basename(program) + ": ")
    end = "done" if ran.returncode == 0 and not said else said if ran.returncode in (1, 2) else f"status {ran.returncode}"
    return after.ru_utime + after.ru_stime - before.ru_utime - before.ru_stime, end


def counted(program, text):
    """How many instructions the program takes for a text."""
    with tempfile.NamedTemporaryFile("w", suffix=".md") as page:
        page.write(text)
        page.flush()
        return bench.instructions([program], page.name, may_refuse=True)


def two_sizes(program, start):
    """The instructions for each kind of text at both sizes. Answers how many kinds are not linear."""
    failed = 0
    print("| Text | Size | Millions of instructions | Twice the text |")
    print("|---|---|--:|--:|")
    for name, unit, size, make in KINDS:
        one, two = (counted(program, make(n)) - start for n in (size, 2 * size))
        growth = two / max(one, 1)
        end = timed(program, make(size))[1]
        if growth > MOST or end != "done":
            failed += 1
            print(f"FAILED {name}: {end}, {growth:.2f} times the instructions for twice the text", flush=True)
        print(f"| {name} | {size:,}, {2 * size:,} {unit} | {one / 1e6:.1f}, {two / 1e6:.1f} | {growth:.2f} |", flush=True)
    return failed


def marks(program, start):
    """Each text of marks: its time, how it ends, and how its instructions grow. Answers how many are not as they should be, of how many."""
    failed, slowest, steepest, ends, texts = 0, (0, ""), (0, ""), {}, list(marked())
    for name, make in texts:
        seconds, end = timed(program, make(OFTEN))
        one, two = (counted(program, make(n)) - start for n in (LESS_OFTEN, 2 * LESS_OFTEN))
        growth = two / max(one, 1)
        end = end.rsplit(" ", 1)[0] if end.startswith("refused") else end
        ends[end] = ends.get(end, 0) + 1
        slowest, steepest = max(slowest, (seconds, name)), max(steepest, (growth, name))
        if seconds > LONGEST or growth > MOST or end not in ("done", "refused NestedTooDeep", "refused InlineTooDeep"):
            failed += 1
            print(f"FAILED {name}: {seconds:.2f} s, {end}, {growth:.2f} times the instructions for twice the text", flush=True)
    print(f"\n{len(texts)} texts of {OFTEN:,} marks: " + ", ".join(f"{count} {end}" for end, count in sorted(ends.items())))
    print(f"The slowest takes {1000 * slowest[0]:.0f} ms ({slowest[1]}).")
    print(f"Twice the text takes {steepest[0]:.2f} times the instructions at most ({steepest[1]}).")
    return failed, len(texts)


def large(folder):
    """The large texts and edits. Answers how many do not end as they should, or take too long."""
    failed = 0
    print("\n| Text | Size | Milliseconds | How it ended |")
    print("|---|---|--:|---|")
    for name, size, program, make, wanted in LARGE:
        seconds, end = timed(os.path.join(folder, program), make())
        if seconds > LONGEST or end != wanted:
            failed += 1
            print(f"FAILED {name}: {seconds:.2f} s, {end}, wanted {wanted}", flush=True)
        print(f"| {name} | {size} | {1000 * seconds:.0f} | {end} |", flush=True)
    return failed


def largest(folder):
    """The texts that are as large as may be, in milliseconds. Answers how many do not end as they should, or take too long."""
    failed = 0
    print("\n| Text | Size | `mdrender` | a first edit | a first edit and one more |")
    print("|---|---|--:|--:|--:|")
    for name, size, make in LARGEST:
        text = make()
        lines = text.count("\n")
        first = f"edit 0 0 {lines}\n{text}"
        ends = [timed(os.path.join(folder, "mdrender"), text)]
        ends += [timed(os.path.join(folder, "mdpreview"), script) for script in (first, f"{first}edit {lines // 2} 1 1\nb\n")]
        if any(seconds > LONGEST_OF_LARGEST or end != "done" for seconds, end in ends):
            failed += 1
            print(f"FAILED {name}: " + "; ".join(f"{seconds:.2f} s, {end}" for seconds, end in ends), flush=True)
        print(f"| {name} | {size} | " + " | ".join(f"{1000 * seconds:,.0f}" for seconds, _ in ends) + " |", flush=True)
    return failed


def main():
    folder = sys.argv[1] if len(sys.argv) > 1 else "bin"
    program = os.path.join(folder, "mdrender")
    os.environ.update(WORD_BY_WORD)
    # A program that reads nothing has its share in each count.
    start = counted(program, "")
    failed = two_sizes(program, start)
    wrong, texts = marks(program, start)
    failed += wrong + large(folder) + largest(folder)
    print(f"{len(KINDS) + texts + len(LARGE) + len(LARGEST) - failed} passed, {failed} failed")
    return 1 if failed else 0


if __name__ == "__main__":
    sys.exit(main())
