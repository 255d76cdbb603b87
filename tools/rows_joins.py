"""Rows of the definitions of edits that stop inside a list: what an oracle says of random edits of small lists, and of where these may be parted."""
import os
import random
import sys

import rows_common as common
from rows_edits import call_term, is_plain, source_term

CRATES = ['mdtext', 'mdchunks', 'mdscan', 'mdpair', 'mdleaf', 'blockspec', 'block_rows', 'inlinespec', 'inline_rows', 'htmlspec', 'mdinline', 'mdblock', 'mdsource', 'edit_rows']
IN_A_FILE = 25
ROWS = 300

HEAD = '''-- Rows of edits inside a list, and of where lists may be parted, by computation.
use Rattle.std.proofs.Common.{◌≡◌, ℕ, List, [], ◌∷◌, ◌++◌, refl, codes}
use Rattle.mdsource.specs.Calls.{edit}
use Rattle.edit_rows.proofs.ReadEdits.{source_of, plain}
use Rattle.edit_rows.proofs.ReadJoins.{stops_read, joins_read, facts, join}
'''

# The lines of such a text: items of each kind, what stands in items, and what parts a list.
ITEMS = ['- a', '- [x]', '* b', '1. c', '2. d', '3) e', '-', '- [ ] f', '- > g', '- ```', '- # h', '- - i', '-     j', '- [x]: /u', '- [y]: /v']
INSIDE = ['', '', '  k', '  > l', '  - m', '  ```', '  - n', '    o', '  [x]: /w', '   p', '  | q |', '  | - |']
OTHERS = ['r', '# s', '> t', '```', '***', '<!--', '-->', '[x]: /z', '---', '- - -', '    u']


def random_line(rand):
    return rand.choice(rand.choice((ITEMS, ITEMS, INSIDE, INSIDE, OTHERS)))


def random_text(rand):
    """A text that is mostly a list, of up to ten lines."""
    bullet = rand.choice(('- ', '- ', '1. ', '* '))
    some = [rand.choice((bullet + rand.choice('abc'), bullet + '[x]', random_line(rand))) for _ in range(rand.randrange(2, 9))]
    return [line for one in some for line in ([one, ''] if rand.random() < .1 else [one])]


def facts_term(patch):
    return f'facts {patch.from_} {patch.meet} {patch.near} {patch.stop} {patch.lines_bound} {patch.soon}'


def joins_term(view):
    """The later items of each unit of a view: their lines in the unit, and the texts before them."""
    return common.list_term([common.argument(common.list_term([f'join {line - unit.begin} {texts}' for line, texts in unit.joins])) for unit in view.units])


def edit_row(O, number, lines, call):
    """The row of an edit of these lines, or none where it is refused."""
    document = O.Preview(O.BUILTIN, O.Options())
    document.edit(0, 0, lines)
    try:
        patch = document.edit(*call[1:])
    except O.Refused:
        return None
    return common.lemma(f'edit_{number}', f'edit {number}', f'stops_read plain {source_term(lines, [])} {call_term(call)}', facts_term(patch), 'stops_read')


def joins_row(O, number, lines):
    document = O.Preview(O.BUILTIN, O.Options())
    document.edit(0, 0, lines)
    return common.lemma(f'joins_{number}', f'text {number}', f'joins_read {common.argument(common.texts_term(lines))}', joins_term(document.v), 'joins_read')


def random_rows(oracle, seed, count):
    """Rows of random edits, each of one to three lines, and of the texts before them."""
    sys.path.insert(0, oracle)
    import oracle as O
    rand, rows, number = random.Random(seed), [], 0
    while len(rows) < count:
        number += 1
        lines = random_text(rand)
        at = rand.randrange(len(lines) + 1)
        gone = rand.choice((0, 1, 1, 2)) if at + 2 <= len(lines) else 0
        call = ('edit', at, gone, [random_line(rand) for _ in range(rand.choice((0, 1, 1, 2)))])
        if is_plain(lines) and is_plain(call[3]):
            row = edit_row(O, number, lines, call)
            rows += [row] if row else []
            rows += [joins_row(O, number, lines)] if number % 3 == 0 else []
    return rows[:count]


def write(workspace, rows):
    """Puts rows in place of the crate's own."""
    proofs = os.path.join(workspace.path, 'crates', 'edit_rows', 'proofs')
    for name in os.listdir(proofs):
        if name not in ('ReadEdits.antt', 'ReadJoins.antt'):
            os.remove(os.path.join(proofs, name))
    files = {f'Joins{at}': HEAD + ''.join('\n' + text for text in part) for at, part in enumerate(common.parted(rows, IN_A_FILE))}
    files['Lib'] = 'pub mod ReadEdits\npub mod ReadJoins\n' + ''.join(f'mod {name}\n' for name in files)
    workspace.write('edit_rows', files)


def check(oracle, corpus, taken_from=None, kept=None, seed=1):
    """Checks random rows: how many are proved, and the names of those that are not."""
    rows = random_rows(oracle, seed, ROWS)
    workspace = common.Workspace(CRATES, taken_from, kept)
    write(workspace, rows)
    refused, proved, seconds = workspace.check('edit_rows')
    print(f'{len(rows)} rows in {seconds:.0f} s')
    if not proved and not refused:
        raise SystemExit(f'the rows were not checked; see {workspace.path}/log')
    workspace.close()
    wrong = sorted(set(refused))
    return len(rows) - len(wrong), wrong
