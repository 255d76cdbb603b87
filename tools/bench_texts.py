#!/usr/bin/env python3
"""bench_texts.py FOLDER [SEED]: texts of many kinds, about 1 MB each, into a folder, to measure speed on. The same seed gives the same bytes."""
import os
import random
import sys

SIZE = 1_000_000
NOUNS = "boat sail rope anchor harbour wind tide chart lamp crew deck mast keel rudder storm island buoy pier cargo compass morning night water stone bird".split()
VERBS = "turns holds leaves finds keeps takes gives shows lifts crosses follows meets reaches passes watches".split()
SMALL = "a the of to in and on by at with from over under near past as if when so but not this that each some no our their".split()
FOREIGN = ["Größe", "naïve", "日本語", "Привет", "“quoted”", "λόγος", "год", "🙂", "ẞ", "français", "中文", "ελλάδα"]
REFERENCES = ["&amp;", "&copy;", "&#65;", "&#x263A;", "&nope;", "&lt;", "&quot;", "&AElig;", "A & B", "\\&", "&#0;"]


class Maker:
    """Makes parts of texts by chance."""

    def __init__(self, seed):
        self.random = random.Random(seed)

    def word(self):
        kind = self.random.random()
        return self.random.choice(SMALL if kind < .45 else NOUNS if kind < .8 else VERBS)

    def words(self, count):
        return " ".join(self.word() for _ in range(count))

    def span(self):
        """A few words, sometimes with a mark."""
        kind, words = self.random.random(), self.words(self.random.randint(1, 4))
        if kind < .72:
            return words
        if kind < .86:
            return self.random.choice(["*%s*", "**%s**", "_%s_", "~~%s~~"]) % words
        if kind < .92:
            return "`%s`" % words
        if kind < .96:
            return "[%s](/%s)" % (words, self.word())
        return self.random.choice(["[%s]", "<b>%s</b>", "![%s](/i.png)", "&copy; %s", "\\*%s", "<http://sea.example/%s>"]) % self.random.choice(NOUNS)

    def sentence(self, spans=6):
        text = " ".join(self.span() for _ in range(self.random.randint(2, spans)))
        return text[:1].upper() + text[1:] + "."

    def plain(self):
        return self.words(self.random.randint(6, 14)).capitalize() + "."

    def paragraph(self, sentence, count):
        return wrapped(" ".join(sentence() for _ in range(count)))

    def section(self):
        """A part of a page as people write them."""
        kind = self.random.random()
        if kind < .12:
            return "#" * self.random.randint(1, 4) + " " + self.words(3)
        if kind < .66:
            return self.paragraph(self.sentence, self.random.randint(2, 5))
        if kind < .78:
            return "\n".join("- " + self.sentence(3) for _ in range(self.random.randint(2, 6)))
        if kind < .82:
            return "\n".join("%d. %s" % (i + 1, self.sentence(3)) for i in range(3))
        if kind < .90:
            return "```sh\n%s\n```" % "\n".join("    " * self.random.randint(0, 2) + self.words(4) + " && <x>" for _ in range(6))
        if kind < .94:
            return "\n".join("> " + line for line in self.paragraph(self.plain, 2).split("\n"))
        if kind < .97:
            return "[%s]: /%s \"%s\"" % (self.random.choice(NOUNS), self.word(), self.words(2))
        return "| %s | %s |\n| --- | :-: |\n" % (self.word(), self.word()) + "\n".join("| %s | %s |" % (self.words(2), self.words(2)) for _ in range(4))


def wrapped(text, width=78):
    lines, line = [], ""
    for word in text.split(" "):
        if line and len(line) + 1 + len(word) > width:
            lines.append(line)
            line = word
        else:
            line = line + " " + word if line else word
    return "\n".join(lines + [line])


def enough(part, between="\n\n", size=SIZE):
    """So many parts that the text has about the size."""
    parts, length = [], 0
    while length < size:
        parts.append(part())
        length += len(parts[-1].encode()) + len(between)
    return between.join(parts) + "\n"


def numbered(form, between="\n"):
    """Parts that hold their number."""
    count = iter(range(10 ** 9))
    return enough(lambda: form(next(count)), between)


def references(m):
    count = 9000
    uses = "\n\n".join("See [place %d][], [it][Name  %d] and [name %d]." % tuple(m.random.randrange(count) for _ in range(3)) for _ in range(count))
    return uses + "\n\n" + "\n".join("[%s %d]: /p/%d 'the %s %d'" % (word, i, i, word, i) for i in range(count) for word in ("place", "NAME")) + "\n"


def nested_items(m):
    return "".join("  " * depth + "- " + m.words(2) + "\n" for depth in range(60))


def kinds(m):
    """The texts by name."""
    cell = lambda: m.span().replace("|", "")
    yield "page-10k", enough(m.section, size=10_000)
    yield "page", enough(m.section)
    yield "page-crlf", enough(m.section, size=SIZE // 2).replace("\n", "\r\n")
    yield "plain", enough(lambda: m.paragraph(m.plain, 6))
    yield "short-lines", enough(lambda: m.words(6), "\n")
    yield "one-line", enough(m.sentence, " ")
    yield "headings", enough(lambda: "# " + m.words(3), "\n")
    yield "blank-lines", "\n" * 400_000 + "x\n"
    yield "tight-list", numbered(lambda i: "- item %d %s\n  - %s\n    1. %s" % (i, m.span(), m.words(3), m.words(4)))
    yield "loose-list", numbered(lambda i: "- item %d %s\n\n  %s\n" % (i, m.span(), m.sentence()))
    yield "task-list", enough(lambda: "- [%s] %s" % (m.random.choice(" x"), m.words(5)), "\n")
    yield "nested-items", enough(lambda: nested_items(m), "")
    yield "nested-quotes", enough(lambda: ">" * 60 + " " + m.words(6) + "\n" + ">" * 60, "\n")
    yield "one-table", "| a | b | c | d | e |\n|---|:--|--:|:-:|---|\n" + enough(lambda: "| " + " | ".join(cell() for _ in range(5)) + " |", "\n")
    yield "small-tables", enough(lambda: "| %s | n |\n| --- | --: |\n" % m.word() + "\n".join("| %s | %d |" % (m.words(3), m.random.randrange(999)) for _ in range(5)))
    yield "fenced-code", enough(lambda: "```\n" + "\n".join("  let %s = f(&\"%s\") < 3 && ok;" % (m.word(), m.word()) for _ in range(20)) + "\n```")
    yield "html", enough(lambda: m.random.choice(["<div class=\"%s\">\n%s\n</div>", "<!-- %s -->\n%s", "<i title='%s'>%s</i>", "%s <a href=\"x\"> %s </a> <br/>"]) % (m.words(2), m.words(9)))
    yield "references", references(m)
    yield "emphasis", enough(lambda: wrapped(" ".join(m.random.choice(["*%s*", "**%s**", "***%s***", "_%s_", "__%s__", "~~%s~~", "*%s", "%s**", "%s"]) % m.word() for _ in range(60))))
    yield "nested-spans", enough(lambda: "*a " * 30 + "**b " * 30 + "c" + " b**" * 30 + " a*" * 30)
    yield "entities", enough(lambda: wrapped(" ".join(m.random.choice(REFERENCES) for _ in range(80))))
    yield "many-languages", enough(lambda: wrapped(" ".join(m.random.choice(FOREIGN) for _ in range(70))))


def write_all(folder, seed):
    os.makedirs(folder, exist_ok=True)
    for name, text in kinds(Maker(seed)):
        with open(os.path.join(folder, name + ".md"), "wb") as file:
            file.write(text.encode())


if __name__ == "__main__":
    if len(sys.argv) < 2 or sys.argv[1].startswith("-"):
        sys.exit(__doc__)
    write_all(sys.argv[1], int(sys.argv[2]) if len(sys.argv) > 2 else 1)
