"""An mdpreview as a child, with the lines and the pieces that it holds: a client of the protocol (docs/PROTOCOL.md)."""
import re
import subprocess
import threading

REASONS = {
    "OutOfRange": "The edit names lines that are not there.",
    "BreakInLine": "A line holds a carriage return.",
    "TooManyLines": "The text has more than 1,000,000 lines.",
    "TooLarge": "The text is larger than 16 MB.",
    "NestedTooDeep": "Line {line}: a quote or list item lies in too many others.",
    "InlineTooDeep": "Line {line}: emphasis or a link lies in too many others.",
    "NoMemory": "There is no memory for it.",
}
# What is said in other words of a prelude.
PRELUDE_REASONS = {
    **REASONS,
    "TooManyLines": "The prelude has more than 1,000,000 lines.",
    "TooLarge": "The prelude is larger than 16 MB.",
    "InlineTooDeep": "Line {line}: with the new prelude emphasis or a link lies in too many others.",
    "NotDefinitions": "Line {line} of the prelude: the block that begins here is more than link reference definitions.",
}


class NotBegun(Exception):
    """Why the program can't be used, in a line."""


def lines_of(text):
    """The lines of a text, which ends its lines with LF, CR LF or CR; a byte order mark at its front is dropped."""
    text = text.removeprefix("\ufeff")
    lines = re.split("\r\n|\n|\r", text)
    if lines and lines[-1] == "":
        lines.pop()
    return lines


def change(old, new):
    """What turns the old lines into the new ones: from which line on, how many go, and which come."""
    front = 0
    while front < min(len(old), len(new)) and old[front] == new[front]:
        front += 1
    tail = 0
    while tail < min(len(old), len(new)) - front and old[-1 - tail] == new[-1 - tail]:
        tail += 1
    return front, len(old) - tail - front, new[front:len(new) - tail]


def command(words, lines=()):
    """A command of the protocol, with the lines that belong to it."""
    return ("\n".join([words, *lines]) + "\n").encode("utf-8", "replace")


class Preview:
    """An mdpreview with the prelude, the lines and the pieces that it holds, and the lines on which these begin."""

    def __init__(self, program, words=(), prelude=None):
        self.words = [program, "--lines", "--explain", *words]
        # The lines of the prelude that was taken last.
        self.prelude = []
        # The first child reads the file, and says what is wrong with it; another is told the lines.
        self.start(["--prelude=" + prelude] if prelude else [])

    def start(self, more=()):
        """Starts the program, and sees that it answers: the HTML of the empty text is empty."""
        try:
            self.child = subprocess.Popen([*self.words, *more], stdin=subprocess.PIPE, stdout=subprocess.PIPE, stderr=subprocess.PIPE)
        except OSError as fault:
            raise NotBegun(f"{self.words[0]}: {fault.strerror}; --program names the mdpreview to start") from fault
        self.lines, self.pieces, self.begins = [], [], []
        # Pages still show what another child held.
        self.fresh = True
        asked, wanted, answer = command("html"), [b"html 0\n"], []
        if self.prelude:
            asked, wanted = command(f"prelude {len(self.prelude)}", self.prelude) + asked, [b"ok 0 0 0 0\n", b"moved 0 0\n", *wanted]
        try:
            self.child.stdin.write(asked)
            self.child.stdin.flush()
            answer = [self.child.stdout.readline() for _ in wanted]
        except OSError:
            pass
        if answer != wanted:
            self.child.kill()
            said = self.child.stderr.read().decode(errors="replace").strip().split("\n")
            self.close()
            # The second line of mdpreview says it in plain words, with the file and the line counted from 1.
            explained = len(said) == 2 and said[0].startswith("mdpreview: ")
            raise NotBegun(said[explained] or f"{self.words[0]}: it does not answer as mdpreview does")
        # What it says later is of no use here, and must not fill the pipe.
        threading.Thread(target=self.child.stderr.read, daemon=True).start()

    def edit(self, new):
        """Brings the text to these lines. Answers which pieces changed, or why the text is refused; nothing where no line differs."""
        return self.insist(self.tell_lines, new)

    def define(self, new):
        """Brings the prelude to these lines, and answers as `edit` does."""
        return self.insist(self.tell_prelude, new)

    def insist(self, tell, new):
        """What comes of telling the child these lines. Where it has ended, as it does where there is no memory for a reply, another is told."""
        for _ in range(2):
            try:
                return tell(new)
            except (OSError, ValueError, IndexError):
                self.stop()
                try:
                    self.start()
                except NotBegun as fault:
                    return {"refused": f"The program can't be started again: {fault}"}
        return {"refused": "The program ended twice at this text. There may be no memory for it."}

    def tell_lines(self, new):
        at, gone, lines = change(self.lines, new)
        if not gone and not lines and not self.fresh:
            return None
        answer = self.ask(f"edit {at} {gone} {len(lines)}", lines, REASONS)
        if "refused" not in answer:
            self.lines = new
            answer["fresh"], self.fresh = self.fresh, False
        return answer

    def tell_prelude(self, new):
        if new == self.prelude:
            return None
        answer = self.ask(f"prelude {len(new)}", new, PRELUDE_REASONS)
        if "refused" in answer:
            answer["refused"] += " The definitions that were taken last stay."
        else:
            self.prelude = new
        return answer

    def ask(self, words, lines, reasons):
        """Sends a command, and answers what came of it."""
        self.child.stdin.write(command(words, lines))
        self.child.stdin.flush()
        return self.reply(reasons)

    def reply(self, reasons):
        words = self.child.stdout.readline().decode().split()
        if words[0] == "refused":
            return {"refused": reasons.get(words[1], words[1]).format(line=int(words[2]) + 1)}
        first, removed, added, again = map(int, words[1:])
        behind, by = map(int, self.child.stdout.readline().split()[1:])
        brought = [self.piece() for _ in range(added + again)]
        self.pieces[first:first + removed] = [""] * added
        self.begins[first:first + removed] = [0] * added
        self.begins[behind:] = [line + by for line in self.begins[behind:]]
        for number, html, line in brought:
            self.pieces[number], self.begins[number] = html, line
        return {"first": first, "removed": removed, "added": added, "by": by, "pieces": brought}

    def piece(self):
        """A piece: its number, its HTML, and the line on which it begins."""
        _, number, size, line = self.child.stdout.readline().decode().split()
        return int(number), self.child.stdout.read(int(size)).decode(), int(line)

    def close(self):
        for pipe in (self.child.stdin, self.child.stdout):
            try:
                pipe.close()
            except OSError:
                pass
        self.child.wait()

    def stop(self):
        self.child.terminate()
        self.close()
