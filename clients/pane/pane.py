#!/usr/bin/env python3
"""A preview of a Markdown file in the browser, kept up to date as the file changes.

usage: pane.py [--port N] [--write] [--program PATH] [--unsafe] [--hardbreaks | --nobreaks] [--github-pre-lang] [--full-info-string] [--table-prefer-style-attributes] [--entities FILE | --html-entities] [--strikethrough-double-tilde] [--prelude FILE] FILE

The words behind --program are mdpreview's. One mdpreview holds the text. When FILE changes, the lines that changed are sent to it as one edit, and the page puts in only the pieces that the reply names. A FILE that is gone is told on the page, which keeps the text that was read last.
The file of --prelude is followed in the same way: one that is gone or refused is told on the page, and the definitions that were taken last stay. The file of --entities is read at the start alone, since another table of names would need another mdpreview, and one that is refused would leave none.
With --write the page has a text area beside the preview, for trying, and scrolls with its cursor; FILE is then its first text and is never written.
Images and texts of FILE's folder are served too, so that the page's own pictures are shown and its relative links open beside it; nothing outside of that folder is.
The server listens on the loopback address alone, answers only requests that name it and come from its own page, and writes no file. Ctrl-C ends it and its child.
What can't be begun (a file or a program that is not there, a port that is taken, words that the program refuses) ends it with one line and the status 1.
"""
import argparse
import errno
import http.server
import json
import os
import queue
import re
import secrets
import signal
import stat
import sys
import threading
import time
import urllib.parse
from html import escape

# The compiled module would be a file.
sys.dont_write_bytecode = True
from preview import NotBegun, Preview, lines_of  # noqa: E402

HERE = os.path.dirname(os.path.abspath(__file__))

# What is served of the file's folder, and as what. A picture may hold scripts, which the policy below keeps from running.
KINDS = {
    ".avif": "image/avif", ".bmp": "image/bmp", ".gif": "image/gif", ".ico": "image/x-icon", ".jpeg": "image/jpeg", ".jpg": "image/jpeg", ".png": "image/png",
    ".svg": "image/svg+xml", ".webp": "image/webp", ".markdown": "text/plain; charset=utf-8", ".md": "text/plain; charset=utf-8", ".txt": "text/plain; charset=utf-8",
}


class Pane:
    """The preview, the text and the prelude that it is to show, and the pages that look at it."""

    def __init__(self, preview):
        self.preview = preview
        self.pages = []
        self.lock = threading.Lock()
        # The lines that came last, refused or not.
        self.lines = {"prelude": [], "text": []}
        # What is wrong with each of them and with its file, if anything is: a page that comes later is told too.
        self.wrong = {}

    def show(self, what, lines):
        """Brings the text or the prelude to these lines, and tells every page what changed."""
        with self.lock:
            self.lines[what] = lines
            self.tell(what + " file", {})
            self.bring(what)
            # What is refused of the other may have been so because of this one.
            self.bring("prelude" if what == "text" else "text")
            # A program that died at the prelude was started anew, without the text.
            if self.preview.fresh:
                self.bring("text")

    def bring(self, what):
        call = self.preview.edit if what == "text" else self.preview.define
        self.tell(what, call(self.lines[what]) or {})

    def say(self, what, words):
        """Tells every page why the file of the text or of the prelude can't be read."""
        with self.lock:
            self.tell(what + " file", {"refused": words})

    def tell(self, about, answer):
        """Tells every page what changed and what is wrong, where either is news."""
        words = answer.pop("refused", "")
        if answer or words != self.wrong.get(about, ""):
            self.wrong[about] = words
            for page in self.pages:
                page.put({**answer, "refused": self.said()})

    def said(self):
        """All that is wrong, in words."""
        return " ".join(filter(None, self.wrong.values()))

    def join(self):
        """A new page: it gets all pieces first."""
        page = queue.Queue()
        with self.lock:
            pieces = list(zip(range(len(self.preview.pieces)), self.preview.pieces, self.preview.begins))
            page.put({"first": 0, "removed": 0, "added": len(pieces), "by": 0, "pieces": pieces, "fresh": True, "refused": self.said()})
            self.pages.append(page)
        return page

    def leave(self, page):
        with self.lock:
            self.pages.remove(page)


def shown_name(name):
    """A file's name without its folders, for a page: of bytes that are no UTF-8 it is as a text that has them."""
    return os.fsencode(os.path.basename(name)).decode("utf-8", "replace")


def stamp_of(name):
    """What changes with a file. A program may set the time of its text back, and that of its entry no program can set."""
    stamp = os.stat(name)
    return stamp.st_mtime_ns, stamp.st_ctime_ns, stamp.st_size, stamp.st_ino


def text_of(name):
    """The text of a file. A fault names it, where it comes with a read too. A pipe or a device is none: it has no text to come back to, or no end."""
    try:
        kind = os.stat(name).st_mode
        if not stat.S_ISREG(kind) and not stat.S_ISDIR(kind):
            raise OSError(errno.EINVAL, "It is no regular file")
        with open(name, encoding="utf-8", errors="replace", newline="") as file:
            return file.read()
    except OSError as fault:
        fault.filename = name
        raise


# For how many seconds a file may be gone, or may change, before the page tells it, or shows it as it is.
PATIENCE = 1.0
# What is said of a file that is gone.
STAYS = {"text": "This is the text that was read last.", "prelude": "The definitions that were read last stay."}


def watch(pane, what, name):
    """Shows the file of the text or of the prelude whenever it was changed, once it rests: an editor may still be writing it. One that does not rest is shown each second."""
    seen = None
    there = shown = time.monotonic()
    while True:
        try:
            now = stamp_of(name)
            time.sleep(0.05)
            rests = now == stamp_of(name)
            if now == seen:
                shown = time.monotonic()
            elif rests or time.monotonic() - shown > PATIENCE:
                pane.show(what, lines_of(text_of(name)))
                seen, shown = now, time.monotonic()
            there = time.monotonic()
        except OSError as fault:
            # An editor may take the file away for a moment while it saves.
            time.sleep(0.05)
            seen = None
            if time.monotonic() - there > PATIENCE:
                pane.say(what, f"{shown_name(name)}: {fault.strerror}. {STAYS[what]}")


def served(folder, path):
    """The file of this folder that a request's path names, and its kind; nothing where there is none, or it lies outside, or is neither an image nor a text."""
    path = os.fsdecode(urllib.parse.unquote_to_bytes(path.split("?")[0]))
    if "\0" in path:
        return None
    name = os.path.realpath(os.path.join(folder, path.lstrip("/")))
    kind = KINDS.get(os.path.splitext(name)[1].lower())
    inside = name.startswith(os.path.join(os.path.realpath(folder), ""))
    return (name, kind) if kind and inside and os.path.isfile(name) else None


class Server(http.server.ThreadingHTTPServer):
    """A server whose requests end with it, and which has no word for a browser that goes away in the midst of one."""
    daemon_threads = True

    def handle_error(self, request, client_address):
        if not isinstance(sys.exc_info()[1], OSError):
            super().handle_error(request, client_address)


def handler(pane, options, secret):
    """Answers the requests of the page."""
    folder = os.path.dirname(os.path.abspath(options.file))

    class Handler(http.server.BaseHTTPRequestHandler):
        protocol_version = "HTTP/1.1"

        def allowed(self):
            port = self.server.server_port
            own = [f"{name}:{port}" for name in ("127.0.0.1", "localhost")] + (["127.0.0.1", "localhost"] if port == 80 else [])
            origin = self.headers.get("Origin")
            # What another page shows, a picture say, comes with no origin; a browser tells it so.
            stranger = self.path != "/" and self.headers.get("Sec-Fetch-Site") not in (None, "same-origin", "none")
            if not stranger and self.headers.get("Host") in own and origin in (None, *("http://" + one for one in own)):
                return True
            self.send_error(403)
            return False

        def answer(self, kind, body, policy=None):
            self.send_response(200)
            self.send_header("Content-Type", kind)
            self.send_header("Content-Length", str(len(body)))
            self.send_header("Cache-Control", "no-store")
            # Nothing from elsewhere is run, and no form leaves the page.
            own = f"default-src 'none'; img-src * data:; connect-src 'self'; style-src 'nonce-{secret}'; script-src 'nonce-{secret}'; base-uri 'none'; form-action 'none'; frame-ancestors 'none'"
            self.send_header("Content-Security-Policy", policy or own)
            self.send_header("X-Content-Type-Options", "nosniff")
            self.send_header("Cross-Origin-Resource-Policy", "same-origin")
            self.end_headers()
            self.wfile.write(body)

        def do_GET(self):
            if not self.allowed():
                return
            if self.path == "/":
                with open(os.path.join(HERE, "page.html"), encoding="utf-8") as page:
                    text = page.read()
                first = "\n".join(pane.lines["text"]) if options.write else ""
                filled = {"TITLE": escape(shown_name(options.file)), "NONCE": secret, "WRITE": json.dumps(options.write), "FIRST": json.dumps(first).replace("<", "\\u003c")}
                self.answer("text/html; charset=utf-8", re.sub("|".join(filled), lambda word: filled[word[0]], text).encode())
            elif self.path == "/changes":
                self.changes()
            else:
                self.beside()

        def beside(self):
            """A file beside the one that is shown."""
            found = served(folder, self.path)
            if found is None:
                self.send_error(404)
                return
            try:
                with open(found[0], "rb") as file:
                    body = file.read()
            except OSError:
                self.send_error(404)
                return
            self.answer(found[1], body, "default-src 'none'; style-src 'unsafe-inline'; sandbox")

        def changes(self):
            """Sends each change as an event, until the page goes."""
            self.send_response(200)
            self.send_header("Content-Type", "text/event-stream")
            self.send_header("Cache-Control", "no-store")
            self.send_header("Connection", "close")
            self.end_headers()
            self.close_connection = True
            page = pane.join()
            try:
                while True:
                    try:
                        event = "data: " + json.dumps(page.get(timeout=5)) + "\n\n"
                    except queue.Empty:
                        event = ": still here\n\n"
                    self.wfile.write(event.encode())
                    self.wfile.flush()
            except OSError:
                pass
            finally:
                pane.leave(page)

        def do_POST(self):
            if not self.allowed():
                return
            size = self.headers.get("Content-Length", "")
            if not options.write or self.path != "/text" or self.headers.get("X-Pane") != secret or not size.isdigit() or int(size) > 40_000_000:
                self.close_connection = True
                self.send_error(403)
                return
            text = self.rfile.read(int(size))
            if len(text) < int(size):
                self.close_connection = True
                return
            pane.show("text", lines_of(text.decode("utf-8", "replace")))
            self.answer("text/plain", b"")

        def log_message(self, form, *words):
            pass

    return Handler


def said_of(fault, options):
    """A fault at the beginning, in a line."""
    if isinstance(fault, NotBegun):
        return str(fault)
    if isinstance(fault, OSError) and fault.filename is not None:
        return f"{fault.filename}: {fault.strerror}"
    return f"port {options.port}: {getattr(fault, 'strerror', None) or fault}"


def parsed():
    """The options, and the words for the program but that of the prelude."""
    parser = argparse.ArgumentParser(description="A preview of a Markdown file in the browser. FILE and that of --prelude are followed as they change; that of --entities is read at the start alone.")
    parser.add_argument("--port", type=int, default=0, help="Listen on this port; 0 takes a free one")
    parser.add_argument("--write", action="store_true", help="Put a text area beside the preview; FILE is not watched and never written")
    parser.add_argument("--program", default="mdpreview", help="Start this mdpreview")
    parser.add_argument("--unsafe", action="store_true", help="Write raw HTML and destinations of any scheme as they stand")
    breaks = parser.add_mutually_exclusive_group()
    breaks.add_argument("--hardbreaks", action="store_true", help="Write each line break of a paragraph as <br />")
    breaks.add_argument("--nobreaks", action="store_true", help="Write each line break of a paragraph as a space")
    parser.add_argument("--github-pre-lang", action="store_true", help="Write the language of a code block as <pre lang=\"..\">")
    parser.add_argument("--full-info-string", action="store_true", help="Write what stands behind the language as data-meta=\"..\"")
    parser.add_argument("--table-prefer-style-attributes", action="store_true", help="Write the alignment of a cell as style=\"text-align: ..\"")
    names = parser.add_mutually_exclusive_group()
    names.add_argument("--entities", metavar="FILE", help="Read the names of entities from a JSON file, as HTML's entities.json is")
    names.add_argument("--html-entities", action="store_true", help="Know all 2,125 names of HTML's entities, in place of 23")
    parser.add_argument("--strikethrough-double-tilde", action="store_true", help="Strike through between two tildes alone; one is text")
    parser.add_argument("--prelude", metavar="FILE", help="Read definitions from a file, which count where the text has none of its own")
    parser.add_argument("file", metavar="FILE")
    options = parser.parse_args()
    flags = ("unsafe", "hardbreaks", "nobreaks", "github-pre-lang", "full-info-string", "table-prefer-style-attributes", "html-entities", "strikethrough-double-tilde")
    words = ["--" + name for name in flags if getattr(options, name.replace("-", "_"))]
    return options, words + (["--entities=" + options.entities] if options.entities else [])


def main():
    options, words = parsed()
    preview = None
    try:
        first = lines_of(text_of(options.file))
        for name in filter(None, (options.entities, options.prelude)):
            if any("\ud800" <= mark <= "\udfff" for mark in name):
                raise NotBegun(f"{shown_name(name)}: mdpreview takes no file whose name is not UTF-8")
        preview = Preview(options.program, words, options.prelude)
        pane = Pane(preview)
        if options.prelude:
            pane.show("prelude", lines_of(text_of(options.prelude)))
        pane.show("text", first)
        server = Server(("127.0.0.1", options.port), handler(pane, options, secrets.token_urlsafe(16)))
    except (NotBegun, OSError, OverflowError) as fault:
        if preview is not None:
            preview.stop()
        return "pane: " + said_of(fault, options)
    for what, name in (("text", not options.write and options.file), ("prelude", options.prelude)):
        if name:
            threading.Thread(target=watch, args=(pane, what, name), daemon=True).start()
    # A stop from outside ends as Ctrl-C does.
    signal.signal(signal.SIGTERM, signal.default_int_handler)
    print(f"http://127.0.0.1:{server.server_port}/", flush=True)
    try:
        server.serve_forever()
    except KeyboardInterrupt:
        pass
    finally:
        server.server_close()
        preview.stop()
    return 0


if __name__ == "__main__":
    sys.exit(main())
