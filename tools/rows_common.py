"""What the rows of every part share: examples and what an oracle says of them, antt terms, and a workspace to check them in."""
import json
import os
import re
import shutil
import subprocess
import sys
import tempfile
import time

REPOSITORY = os.path.dirname(os.path.dirname(os.path.abspath(__file__)))
RT = os.environ.get('RT', 'rt')


def examples(corpus, name, sections):
    """The examples of these sections of a corpus file: (number, section, text, html)."""
    with open(os.path.join(corpus, name), encoding='utf-8') as file:
        rows = json.load(file)
    unknown = set(sections) - {row['section'] for row in rows}
    if unknown:
        sys.exit(f'{name} has no section {", ".join(sorted(unknown))}')
    return [(row['example'], row['section'], row['markdown'], row['html']) for row in rows if row['section'] in sections]


def oracle_view(oracle, text, words=()):
    """What an oracle reads a text as: a list of units, or a dict that says why it is refused."""
    run = subprocess.run([sys.executable, os.path.join(oracle, 'oracle.py'), 'view', *words], input=text.encode('utf-8'),
                         stdout=subprocess.PIPE, check=True)
    return json.loads(run.stdout)


def oracle_agrees(oracle, text, html, words=('--unsafe',)):
    """Whether the oracle gives the HTML of an example: only then its tree is one to expect."""
    return ''.join(unit['piece'] for unit in oracle_view(oracle, text, words)) == html


# ---- antt terms

ESCAPES = {'\\': '\\\\', '"': '\\"', '\n': '\\n', '\t': '\\t', '\r': '\\r'}


def ascii_term(text):
    return f'codes "{"".join(ESCAPES.get(c, c) for c in text)}"'


def bytes_term(text):
    return ''.join(f'{byte} ∷ ' for byte in text.encode('utf-8')) + '[]'


def text_term(text):
    """The bytes of a text: ASCII as a literal, and other bytes as numbers."""
    if not text:
        return '[]'
    parts = re.findall('([\t\n\r -~]+)|([^\t\n\r -~]+)', text)
    return ' ++ '.join(ascii_term(plain) if plain else f'({bytes_term(other)})' for plain, other in parts)


def is_literal(text):
    """Whether the term of a text is one literal, or none."""
    return re.fullmatch('[\t\n\r -~]*', text) is not None


def argument(term):
    """A term as an argument: in parentheses, where it is more than a word."""
    return f'({term})' if ' ' in term else term


def list_term(items):
    return ''.join(f'{item} ∷ ' for item in items) + '[]'


def texts_term(texts):
    return list_term([text_term(text) if is_literal(text) else f'({text_term(text)})' for text in texts])


def numbers_term(numbers):
    return list_term([str(n) for n in numbers])


def bool_term(flag):
    return 'true' if flag else 'false'


def option_term(value, term):
    return 'None' if value is None else f'(Some {term(value)})'


# ---- a workspace

class Workspace:
    """Copies of some crates with what was checked of them; the last one is the crate of rows, which stands on the others."""

    def __init__(self, crates, taken_from=None, kept=None):
        self.path = kept or tempfile.mkdtemp(prefix='rows-')
        self.kept = kept is not None
        source = taken_from or os.path.join(REPOSITORY, 'crates')
        if not taken_from:
            # so that the copies have libraries that were checked, and nothing is proved from nothing there
            subprocess.run([RT, 'check', '--jobs', '1'], cwd=os.path.join(source, crates[-1]), stdout=subprocess.DEVNULL, stderr=subprocess.DEVNULL)
        os.makedirs(os.path.join(self.path, 'crates'), exist_ok=True)
        with open(os.path.join(REPOSITORY, 'crates.txt'), encoding='utf-8') as file:
            lines = [line for line in file if line.split(':')[0] in crates]
        with open(os.path.join(self.path, 'crates.txt'), 'w', encoding='utf-8') as file:
            file.writelines(lines)
        for crate in crates:
            place = os.path.join(self.path, 'crates', crate)
            if not os.path.exists(place):
                shutil.copytree(os.path.join(source, crate), place, ignore=shutil.ignore_patterns('incremental'))

    def write(self, crate, files):
        """The rows of a crate: files of proofs by their names, without those of its own."""
        proofs = os.path.join(self.path, 'crates', crate, 'proofs')
        for name, content in files.items():
            with open(os.path.join(proofs, name + '.antt'), 'w', encoding='utf-8') as file:
                file.write(content)

    def check(self, crate):
        """Checks a crate: the lemmas that are refused, whether all else is proved, and the seconds."""
        began = time.time()
        run = subprocess.run([RT, 'check', '--jobs', '1'], cwd=os.path.join(self.path, 'crates', crate), text=True,
                             stdout=subprocess.PIPE, stderr=subprocess.STDOUT)
        with open(os.path.join(self.path, 'log'), 'w', encoding='utf-8') as file:
            file.write(run.stdout)
        refused = re.findall(r'error: `([A-Za-z0-9_-]+)`', run.stdout)
        if run.returncode and len(refused) < run.stdout.count(': error:'):
            sys.exit(f'the rows could not be checked; see {self.path}/log')
        return refused, run.returncode == 0, time.time() - began

    def close(self):
        if not self.kept:
            shutil.rmtree(self.path)


def lemma(name, note, left, right, unfolding):
    """A lemma that computes."""
    parted_at = ' ' if len(name + left + right) < 150 else '\n    '
    return f'-- {note}\n{name} : {left} ≡{parted_at}{right}\nunfolding {unfolding}\n{name} = refl\n'


def parted(items, size):
    return [items[at:at + size] for at in range(0, len(items), size)]
