#!/usr/bin/env python3
"""Looks at the pane in a headless browser: changes a file, and compares the page with mdrender's HTML and the pieces that were put in with mdpreview's replies.

usage: tools/pane_test.py [--shots FOLDER]
"""
import argparse
import json
import os
import re
import shutil
import signal
import socket
import struct
import subprocess
import sys
import tempfile
import time
import urllib.error
import urllib.parse
import urllib.request

ROOT = os.path.join(os.path.dirname(os.path.abspath(__file__)), "..")
sys.path.insert(0, os.path.join(ROOT, "clients", "pane"))
import pane  # noqa: E402
from browser import Browser  # noqa: E402

BIN = os.path.join(ROOT, "bin")
BROWSERS = ("chromium", "chromium-browser", "google-chrome")
PIECES = "[...document.getElementById('pieces').children]"


def texts():
    """The texts of a file, one after the other: a letter, a heading, a fence opened and closed, a definition, a long list."""
    lines = ["# Log", "", "See the [chart][] and the [plan].", "", "- sails", "- ropes", "", "Some *words* to the end.", "", "[chart]: /chart"]
    yield lines
    for place, line in [(7, "Some *words* to the End."), (0, "# Log of the day"), (0, "## Log of the day"), (2, "See the [chart], and the [plan]."), (4, "- sails and masts")]:
        lines = lines[:place] + [line] + lines[place + 1:]
        yield lines
    for fence in range(4):
        yield lines[:3] + ["```"] + lines[3:]
        yield lines[:3] + ["```", f"code {fence}", "```"] + lines[3:]
        yield lines
    for target in ("/plan", "/plan-2", "/plan-3"):
        yield lines + [f"[plan]: {target}"]
    for count in (1, 2, 50, 51, 300, 299):
        yield lines[:6] + [f"- item {n}" for n in range(count)] + lines[6:]
    yield lines[:4] + lines[6:]
    yield ["<script>alert(1)</script>", "", "a <b>b</b>"] + lines
    yield []
    yield lines


def shown(browser, rendered):
    """Whether the page shows this HTML, as the browser itself reads it."""
    return browser.value(f"(() => {{ const whole = document.createElement('div'); whole.innerHTML = {json.dumps(rendered)}; return whole.innerHTML === {PIECES}.map(one => one.innerHTML).join(''); }})()")


def wait(test, seconds=5.0):
    end = time.monotonic() + seconds
    while time.monotonic() < end:
        if test():
            return True
        time.sleep(0.02)
    return False


def save(name, text):
    """Writes the file at once, as an editor does."""
    with open(name + ".new", "w", encoding="utf-8") as file:
        file.write(text)
    os.replace(name + ".new", name)


def rendered_of(name, *words):
    return subprocess.run([os.path.join(BIN, "mdrender"), *words, name], capture_output=True, text=True, check=True).stdout


def session(browser, address, name, say):
    """Changes the file, and compares after each change; answers how many comparisons passed and failed."""
    passed = failed = 0
    own = pane.Preview(os.path.join(BIN, "mdpreview"))
    own.edit(pane.lines_of(open(name, encoding="utf-8").read()))
    browser.call("Page.navigate", url=address)
    if not wait(lambda: browser.value("window.replaced") is not None and shown(browser, rendered_of(name))):
        say("the first page is not shown")
        failed += 1
    for number, lines in enumerate(texts()):
        before = browser.value("window.replaced")
        save(name, "".join(line + "\n" for line in lines))
        answer = own.edit(lines)
        expected = len(answer["pieces"]) if answer else 0
        if not wait(lambda: shown(browser, rendered_of(name))):
            say(f"change {number}: the page is not mdrender's HTML")
            failed += 1
            continue
        time.sleep(0.05)
        put = browser.value("window.replaced") - before
        if put != expected:
            say(f"change {number}: {put} pieces were put in, mdpreview's reply names {expected}")
            failed += 1
        else:
            passed += 1
    own.stop()
    return passed, failed


def refusal(browser, name):
    """A text that is refused: its reason is shown, and the page stays."""
    before = browser.value(PIECES + ".length")
    save(name, open(name, encoding="utf-8").read() + "\n" + ">" * 100 + "\n")
    said = wait(lambda: "lies in too many others" in browser.value("document.getElementById('refused').textContent"))
    return said and browser.value(PIECES + ".length") == before


def started(name, *words, program=os.path.join(BIN, "mdpreview")):
    """A pane that shows a file, and its address."""
    command = [sys.executable, os.path.join(ROOT, "clients", "pane", "pane.py"), "--program", program, *words, name]
    server = subprocess.Popen(command, stdout=subprocess.PIPE, text=True)
    return server, server.stdout.readline().strip()


def writes(browser, name):
    """A text that is written on the page is shown beside it, and the file stays as it was."""
    server, address = started(name, "--write")
    kept = open(name, encoding="utf-8").read()
    try:
        browser.call("Page.navigate", url=address)
        wait(lambda: browser.value("document.querySelector('textarea') !== null"))
        browser.value("(() => { const area = document.querySelector('textarea'); area.value = '# A *try*'; area.dispatchEvent(new Event('input')); })()")
        return wait(lambda: shown(browser, "<h1>A <em>try</em></h1>\n")) and open(name, encoding="utf-8").read() == kept
    finally:
        server.terminate()
        server.wait()


def scrolls(browser, name):
    """The page scrolls with the cursor of the text area, behind an edit above it too."""
    save(name, "".join(f"Paragraph {number}.\n\n" for number in range(200)))
    server, address = started(name, "--write")
    at = ("(line => { const area = document.querySelector('textarea'); area.focus(); const before = area.value.split('\\n').slice(0, line).join('\\n').length + (line > 0);"
          " area.setSelectionRange(before, before); })(%d)")
    seen = "(text => [...document.querySelectorAll('.piece')].filter(one => one.textContent.trim() == text).map(one => one.getBoundingClientRect()).some(box => box.top >= 0 && box.bottom <= innerHeight))('%s')"
    typed = "(() => { const area = document.querySelector('textarea'); area.focus(); area.setRangeText('New.\\n\\n', 0, 0, 'preserve'); area.dispatchEvent(new Event('input')); })()"
    try:
        browser.look(1300, 700)
        browser.call("Page.navigate", url=address)
        wait(lambda: browser.value("document.querySelectorAll('.piece').length") == 200)
        first = not browser.value(seen % "Paragraph 150.")
        browser.value(at % 300)
        there = wait(lambda: browser.value(seen % "Paragraph 150."))
        browser.value(typed)
        wait(lambda: browser.value("document.querySelectorAll('.piece').length") == 201)
        browser.value(at % 102)
        behind = wait(lambda: browser.value(seen % "Paragraph 50."))
        return first and there and behind
    finally:
        server.terminate()
        server.wait()


def refused_at_first(browser, name):
    """A text that is refused when the page opens: the words stand there, behind a reload too, and are gone with the next text. A picture of its folder is shown."""
    save(name, ">" * 100 + "\n")
    server, address = started(name)
    said = "document.getElementById('refused').textContent"
    try:
        browser.call("Page.navigate", url=address)
        first = wait(lambda: "lies in too many others" in (browser.value(said) or ""))
        browser.call("Page.reload")
        again = wait(lambda: "lies in too many others" in (browser.value(said) or ""))
        shutil.copy(os.path.join(ROOT, "docs", "pane.png"), os.path.join(os.path.dirname(name), "picture.png"))
        save(name, "![a picture](picture.png)\n")
        shown_now = wait(lambda: browser.value("document.images.length == 1 && document.images[0].naturalWidth > 0"))
        return first and again and shown_now and browser.value(said) == ""
    finally:
        server.terminate()
        server.wait()


def ends(words, said):
    """Whether a pane with these words ends at once, with this line and status 1."""
    command = [sys.executable, os.path.join(ROOT, "clients", "pane", "pane.py"), *words]
    ran = subprocess.run(command, stdout=subprocess.PIPE, stderr=subprocess.PIPE, text=True, timeout=30)
    return ran.returncode == 1 and ran.stderr == "pane: " + said + "\n"


def ends_with_a_line(address, name):
    """What can't be begun: a file that is gone, a device, programs that are not there or are another one, names, words and definitions that are refused, a port that is taken."""
    program = ["--program", os.path.join(BIN, "mdpreview")]
    port = address.rstrip("/").rsplit(":", 1)[1]
    save(name + ".links", "\n# No link\n")
    return all((
        ends([*program, name + ".gone"], name + ".gone: No such file or directory"),
        ends([*program, "/dev/zero"], "/dev/zero: It is no regular file"),
        ends(["--program", "/nowhere/mdpreview", name], "/nowhere/mdpreview: No such file or directory; --program names the mdpreview to start"),
        ends(["--program", "/bin/false", name], "/bin/false: it does not answer as mdpreview does"),
        ends([*program, "--prelude", name + ".gone", name], f"{name}.gone: it can't be opened: there is no such file"),
        ends([*program, "--prelude", name + ".links", name], f"{name}.links: line 2: the block that begins here is more than link reference definitions; leave nothing else in the file"),
        ends([*program, "--prelude", "\udcff.md", name], "\ufffd.md: mdpreview takes no file whose name is not UTF-8"),
        ends([*program, "--port", port, name], f"port {port}: Address already in use"),
    ))


def hands_on(browser, name):
    """The program's options are handed on, and the page aligns the cells by the attribute that comes of them."""
    words = ["--html-entities", "--strikethrough-double-tilde", "--hardbreaks", "--unsafe", "--github-pre-lang", "--full-info-string",
             "--table-prefer-style-attributes"]
    save(name, "a &rarr; ~b~\n<i>c</i>\n\n``` x y\n```\n\n| a | b | c |\n|:-:|--:|:--|\n| d | e | f |\n")
    wanted = subprocess.run([os.path.join(BIN, "mdrender"), *words, name], stdout=subprocess.PIPE, check=True).stdout.decode()
    server, address = started(name, *words)
    try:
        browser.call("Page.navigate", url=address)
        if not wait(lambda: shown(browser, wanted)):
            return False
        aligned = browser.value("[...document.querySelectorAll('#pieces th, #pieces td')].map(cell => getComputedStyle(cell).textAlign)")
        return aligned == ["center", "right", "left", "center", "right", "start"]
    finally:
        server.terminate()
        server.wait()


def opens_beside(browser, name):
    """A link that leads to a file of the folder opens beside the page, which stays, and that file is served."""
    notes = os.path.join(os.path.dirname(name), "notes.md")
    save(notes, "Notes.\n")
    save(name, "[there](notes.md)\n")
    server, address = started(name)
    try:
        browser.call("Page.navigate", url=address)
        wait(lambda: browser.value("document.querySelectorAll('#pieces a').length") == 1)
        browser.value("window.open = (...words) => { window.opened = words; }")
        browser.value("document.querySelector('#pieces a').click()")
        with urllib.request.urlopen(address + "notes.md") as answer:
            served = answer.read() == b"Notes.\n"
        return served and browser.value("window.opened") == [address + "notes.md", "_blank", "noopener"] and browser.value("location.href") == address
    finally:
        server.terminate()
        server.wait()


def outlives(browser, name):
    """A page that is open when mdpreview dies shows what its next one holds, and nothing twice. Of a text at which each one dies it is told so, and the next is shown."""
    dies = os.path.join(os.path.dirname(name), "dies")
    with open(dies, "w", encoding="utf-8") as file:
        file.write('#!/bin/sh\nwhile IFS= read -r line; do [ "$line" != die ] || exit; printf "%s\\n" "$line"; done | "' + os.path.join(BIN, "mdpreview") + '" "$@"\n')
    os.chmod(dies, 0o755)
    said = "document.getElementById('refused').textContent"
    told = []
    for program in (os.path.join(BIN, "mdpreview"), dies):
        save(name, "one\n\nTwo\n")
        server, address = started(name, program=program)
        try:
            browser.call("Page.navigate", url=address)
            wait(lambda: shown(browser, rendered_of(name)))
            if program == dies:
                save(name, "one\n\ndie\n")
                told.append(wait(lambda: "ended twice" in browser.value(said)))
            else:
                kill_program(server)
            save(name, "one\n\nTwo!\n")
            told.append(wait(lambda: shown(browser, rendered_of(name)) and browser.value(said) == ""))
        finally:
            server.terminate()
            server.wait()
    return all(told)


def kill_program(server):
    """Ends a pane's mdpreview as if by chance."""
    with open(f"/proc/{server.pid}/task/{server.pid}/children", encoding="ascii") as children:
        os.kill(int(children.read()), signal.SIGKILL)


def follows_the_prelude(browser, name):
    """A prelude that changes is shown as a text is, in the pieces that have its labels. Of one that is refused or gone the page says so, and the one before stays, for the next
    mdpreview too. A prelude that the text stood in the way of is shown when that changes, and the other way round."""
    links, kept = name + ".links", name + ".kept"
    deep = "*a " * 64 + "[site]" + " a*" * 64 + "\n"
    said = "document.getElementById('refused').textContent"
    told = []

    def write(text=None, taken=None, refused=None):
        """Writes the files, and keeps a prelude that is to be taken."""
        for place, lines in ((name, text), (links, taken or refused), (kept, taken)):
            if lines is not None:
                save(place, lines)

    def shows(words):
        """The page shows the text with that prelude, and what it says begins with these words; where there are none it says nothing."""
        told.append(wait(lambda: shown(browser, rendered_of(name, "--prelude", kept)) and browser.value(said).startswith(words) and (words != "") == (browser.value(said) != "")))

    write("[site]\n\nother\n", "[site]: /one\n")
    server, address = started(name, "--prelude", links)
    try:
        browser.call("Page.navigate", url=address)
        shows("")
        before = browser.value("window.replaced")
        write(taken="[site]: /two\n")
        shows("")
        told.append(browser.value("window.replaced") == before + 1)
        write(refused="[site]: /three\n\n# No link\n")
        shows("Line 3 of the prelude: ")
        write("[site] again\n")
        shows("Line 3 of the prelude: ")
        kill_program(server)
        write("[site] anew\n")
        shows("Line 3 of the prelude: ")
        os.remove(links)
        told.append(wait(lambda: "No such file" in browser.value(said)))
        write(deep, "[other]: /other\n")
        shows("")
        write(refused="[site]: /four\n")
        shows("Line 1: with the new prelude ")
        shutil.copy(links, kept)
        write("[site]\n")
        shows("")
        write(deep)
        told.append(wait(lambda: browser.value(said).startswith("Line 1: emphasis or a link ")))
        write(taken="[other]: /other\n")
        shows("")
        return all(told)
    finally:
        server.terminate()
        server.wait()


def shows_in_many_tabs(browser, name):
    """Each of nine tabs of one pane shows the text, though a browser holds six connections to a server. One that is seen again shows what came meanwhile, and keeps its place."""
    save(name, "".join(f"Paragraph {number}.\n\n" for number in range(200)))
    server, address = started(name)
    told, tabs = [], []
    try:
        browser.call("Page.navigate", url=address)
        told.append(wait(lambda: shown(browser, rendered_of(name))))
        browser.value("scrollTo(0, 3000); pieces.children[100].stays = true")
        for _ in range(8):
            tabs.append(browser.open(address))
            told.append(wait(lambda: shown(browser, rendered_of(name))))
        save(name, "".join(f"Paragraph {number}.\n\n" for number in range(-1, 200)))
        told.append(wait(lambda: shown(browser, rendered_of(name))))
        browser.turn_to(browser.first)
        told.append(wait(lambda: shown(browser, rendered_of(name))))
        told.append(browser.value("scrollY > 2000 && pieces.children[101].stays"))
        return all(told)
    finally:
        for tab in tabs:
            browser.shut(tab)
        browser.turn_to(browser.first)
        server.terminate()
        server.wait()


def asks_before_a_loss(browser, name):
    """A page with a text that no pane has taken does not go without a question; any other does."""
    save(name, "a\n")
    server, address = started(name, "--write")
    typed = "(() => { const area = document.querySelector('textarea'); area.value = '%s'; area.dispatchEvent(new Event('input')); })()"
    asks = "(() => { const event = new Event('beforeunload', { cancelable: true }); dispatchEvent(event); return event.defaultPrevented; })()"
    try:
        browser.call("Page.navigate", url=address)
        wait(lambda: browser.value("document.querySelector('textarea') !== null"))
        first = not browser.value(asks)
        browser.value(typed % "b")
        sent = wait(lambda: shown(browser, "<p>b</p>\n")) and wait(lambda: not browser.value(asks))
        server.terminate()
        server.wait()
        browser.value(typed % "c")
        wait(lambda: browser.value("document.getElementById('refused').textContent") != "")
        time.sleep(0.3)
        return first and sent and browser.value(asks)
    finally:
        server.terminate()
        server.wait()


def names_itself(browser, folder):
    """A tab has the name of its file, whatever stands in that, so that several can be told apart, and the file is served, by its bytes."""
    name = os.path.join(os.fsencode(folder), b"a & <b> FIRST #%41 \xff.md")
    with open(name, "w", encoding="utf-8") as file:
        file.write("one\n")
    server, address = started(os.fsdecode(name), "--write")
    try:
        browser.call("Page.navigate", url=address)
        with urllib.request.urlopen(address + urllib.parse.quote(os.path.basename(name))) as answer:
            served = answer.read() == b"one\n"
        return served and wait(lambda: browser.value("document.title") == "a & <b> FIRST #%41 \ufffd.md" and shown(browser, "<p>one</p>\n"))
    finally:
        server.terminate()
        server.wait()


def is_quiet(name):
    """A browser that goes away in the midst of an answer is nothing that the terminal must hear of."""
    command = [sys.executable, os.path.join(ROOT, "clients", "pane", "pane.py"), "--program", os.path.join(BIN, "mdpreview"), name]
    with open(os.path.join(os.path.dirname(name), "large.png"), "wb") as file:
        file.truncate(20_000_000)
    server = subprocess.Popen(command, stdout=subprocess.PIPE, stderr=subprocess.PIPE, text=True)
    host = server.stdout.readline().strip().removeprefix("http://").rstrip("/")
    for path in ("/", "/large.png", "/changes"):
        with socket.create_connection(host.split(":")) as gone:
            gone.sendall(f"GET {path} HTTP/1.1\r\nHost: {host}\r\n\r\n".encode())
            # Its end is a reset, and not the end of what it sends.
            gone.setsockopt(socket.SOL_SOCKET, socket.SO_LINGER, struct.pack("ii", 1, 0))
    time.sleep(0.5)
    server.terminate()
    return server.communicate(timeout=30)[1] == ""


def tells_what_is_gone(browser, name):
    """A file that is taken away, or gives way to a pipe, is told on the page, behind a reload too, and the words are gone when it is back, as it was or not. A text
    whose time was set back is shown, and one that does not rest."""
    save(name, "one\n")
    server, address = started(name)
    said = "document.getElementById('refused').textContent"
    told = []
    try:
        browser.call("Page.navigate", url=address)
        wait(lambda: shown(browser, rendered_of(name)))
        os.remove(name)
        told.append(wait(lambda: "No such file" in browser.value(said)))
        browser.call("Page.reload")
        told.append(wait(lambda: "No such file" in (browser.value(said) or "")))
        save(name, "one\n")
        told.append(wait(lambda: browser.value(said) == ""))
        os.remove(name)
        os.mkfifo(name)
        told.append(wait(lambda: "no regular file" in browser.value(said)))
        save(name, "two\n")
        told.append(wait(lambda: shown(browser, rendered_of(name)) and browser.value(said) == ""))
        before = os.stat(name)
        with open(name, "w", encoding="utf-8") as file:
            file.write("TWO\n")
        os.utime(name, ns=(before.st_atime_ns, before.st_mtime_ns))
        told.append(wait(lambda: shown(browser, rendered_of(name))))
        end = time.monotonic() + 2
        with open(name, "a", encoding="utf-8") as file:
            while time.monotonic() < end:
                file.write("\nmore\n")
                file.flush()
                time.sleep(0.02)
            told.append(browser.value(PIECES + ".length") > 1)
        return all(told) and wait(lambda: shown(browser, rendered_of(name)))
    finally:
        server.terminate()
        server.wait()


def keeps_what_is_refused(browser, name):
    """A text that is written on the page and refused stands in the text area behind a reload too; of a post that is cut off nothing is taken."""
    save(name, "a\n")
    server, address = started(name, "--write")
    area = "document.querySelector('textarea')"
    typed = ">" * 100
    try:
        browser.call("Page.navigate", url=address)
        wait(lambda: browser.value(area + " !== null"))
        browser.value(f"(() => {{ const area = {area}; area.value = '{typed}'; area.dispatchEvent(new Event('input')); }})()")
        wait(lambda: "lies in too many others" in browser.value("document.getElementById('refused').textContent"))
        with urllib.request.urlopen(address) as page:
            secret = re.search(r"'X-Pane': '([^']+)'", page.read().decode()).group(1)
        host = address.removeprefix("http://").rstrip("/")
        with socket.create_connection(host.split(":")) as cut:
            cut.sendall(f"POST /text HTTP/1.1\r\nHost: {host}\r\nX-Pane: {secret}\r\nContent-Length: 9\r\n\r\ncut".encode())
        time.sleep(0.3)
        browser.call("Page.reload")
        return wait(lambda: browser.value(f"{area} !== null && {area}.value") == typed)
    finally:
        server.terminate()
        server.wait()


# Puts in so many pieces, others in their place, each once more, and takes all but two away: how long each takes, and what is shown then.
MANY = """(count => {
  const taken = [], time = change => { const from = performance.now(); put(change); document.body.offsetHeight; taken.push(performance.now() - from); };
  const made = word => Array.from({ length: count }, (_, at) => [at, `<p>${word} ${at}</p>\\n`, 2 * at]);
  time({ first: 0, removed: 0, added: count, by: 0, pieces: made('one'), fresh: true });
  time({ first: 0, removed: count, added: count, by: 0, pieces: made('two') });
  time({ first: 0, removed: 0, added: 0, by: 0, pieces: made('three') });
  time({ first: 1, removed: count - 2, added: 0, by: 0, pieces: [] });
  return [taken, pieces.textContent];
})(20000)"""


def puts_many(browser, address):
    """A page with thousands of pieces changes as fast as it loads, and not by the square of their number."""
    browser.call("Page.navigate", url=address)
    wait(lambda: browser.value("typeof put") == "function" and browser.value(PIECES + ".length") > 0)
    (load, *changes), text = browser.value(MANY)
    return text == "three 0\nthree 19999\n" and all(change < 5 * load for change in changes)


def leaks(address, name):
    """Whether a file that is neither an image nor a text, or that lies outside of the folder, is served."""
    home = os.path.dirname(name)
    for path in (os.path.join(home, "secret.html"), os.path.join(os.path.dirname(home), "secret.md")):
        with open(path, "w", encoding="utf-8") as file:
            file.write("secret")
    for path in ("secret.html", "../secret.md", "..%2fsecret.md", "%2e%2e/secret.md", "%00.png"):
        try:
            urllib.request.urlopen(address + path)
            return True
        except urllib.error.HTTPError as fault:
            if fault.code != 404:
                return True
    return False


def answers_strangers(address):
    """Whether a request that names another host, or comes from another page, is answered."""
    for path, header, value in (("", "Host", "elsewhere.example"), ("", "Origin", "http://elsewhere.example"), ("page.md", "Sec-Fetch-Site", "cross-site")):
        try:
            urllib.request.urlopen(urllib.request.Request(address + path, headers={header: value}))
            return True
        except urllib.error.HTTPError as fault:
            if fault.code != 403:
                return True
    return False


def main():
    parser = argparse.ArgumentParser()
    parser.add_argument("--shots", help="a folder for screenshots")
    options = parser.parse_args()
    program = next((found for found in map(shutil.which, BROWSERS) if found), None)
    missing = [] if program else ["chromium"]
    missing += [name for name in ("mdrender", "mdpreview") if not os.path.exists(os.path.join(BIN, name))]
    if missing:
        return "pane_test: missing: " + ", ".join(missing)
    with tempfile.TemporaryDirectory() as home:
        name = os.path.join(home, "pages", "page.md")
        os.mkdir(os.path.dirname(name))
        shutil.copy(os.path.join(ROOT, "examples", "page.md"), name)
        server, address = started(name)
        browser = None
        try:
            browser = Browser(program, os.path.join(home, "browser"))
            if options.shots:
                browser.call("Page.navigate", url=address)
                wait(lambda: shown(browser, rendered_of(name)))
                for look, shape in {"wide": (1100, 760), "narrow": (390, 760), "dark": (1100, 760, True)}.items():
                    browser.look(*shape)
                    browser.shot(os.path.join(options.shots, f"pane-{look}.png"))
            passed, failed = session(browser, address, name, lambda words: print("pane_test: " + words))
            said = refusal(browser, name)
            if options.shots:
                browser.look(1100, 760)
                browser.shot(os.path.join(options.shots, "pane-refused.png"))
            for holds, words in (
                (said, "a refusal is not shown, or the page did not stay"),
                (writes(browser, name), "what is written on the page is not shown, or the file was changed"),
                (scrolls(browser, os.path.join(home, "pages", "long.md")), "the page does not scroll with the cursor"),
                (not answers_strangers(address), "a request from elsewhere was answered"),
                (hands_on(browser, os.path.join(home, "pages", "names.md")), "an option of the program is not handed on"),
                (opens_beside(browser, os.path.join(home, "pages", "links.md")), "a link does not open beside the page, or its file is not served"),
                (not leaks(address, name), "a file that is not to be served was"),
                (puts_many(browser, address), "a page with thousands of pieces takes long to change"),
                (outlives(browser, os.path.join(home, "pages", "twice.md")), "a page that outlives mdpreview does not show the text"),
                (follows_the_prelude(browser, os.path.join(home, "pages", "prelude.md")), "a prelude that changes is not followed, or one that is refused or gone is not told"),
                (shows_in_many_tabs(browser, os.path.join(home, "pages", "tabs.md")), "one of many tabs does not show the text, or loses its place"),
                (asks_before_a_loss(browser, os.path.join(home, "pages", "lost.md")), "a page goes with a text that was not taken, or asks where it was"),
                (names_itself(browser, os.path.join(home, "pages")), "a tab has not the name of its file"),
                (is_quiet(name), "a browser that goes away is told on the terminal"),
                (tells_what_is_gone(browser, os.path.join(home, "pages", "gone.md")), "a file that is gone is not told, or one that is back or does not rest is not shown"),
                (keeps_what_is_refused(browser, os.path.join(home, "pages", "kept.md")), "a text that is refused is lost at a reload, or a post that is cut off is taken"),
                (ends_with_a_line(address, name), "a pane that can't be begun does not say why, or goes on"),
                (refused_at_first(browser, os.path.join(home, "pages", "other.md")), "a text that is refused at first is not said to be, or a picture is not shown"),
            ):
                passed += holds
                failed += not holds
                if not holds:
                    print("pane_test: " + words)
        finally:
            if browser:
                browser.stop()
            server.terminate()
            server.wait()
    print(f"{passed} passed, {failed} failed")
    return 1 if failed else 0


if __name__ == "__main__":
    sys.exit(main())
