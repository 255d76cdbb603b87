"""Rows of the definitions of views and edits: what an oracle says of random edits of small texts, and of their preludes."""
import os
import random
import sys

import rows_common as common

CRATES = ['mdtext', 'mdchunks', 'mdscan', 'mdpair', 'mdleaf', 'blockspec', 'block_rows', 'inlinespec', 'inline_rows', 'htmlspec', 'mdinline', 'mdblock', 'mdsource', 'edit_rows']
IN_A_FILE = 25
ROWS = 300

HEAD = '''-- Rows of edits and of the pieces behind them, by computation.
use Rattle.std.proofs.Common.{◌≡◌, ℕ, List, [], ◌∷◌, ◌++◌, refl, codes}
use Rattle.mdsource.specs.Calls.{edit, set_prelude}
use Rattle.mdsource.specs.Refusals.{out_of_range, break_in_line, too_many_lines, too_large, nested_too_deep, inline_too_deep, not_definitions}
use Rattle.edit_rows.proofs.ReadEdits.{answers, refused, source_of, limited, plain, answer, pieces}
'''

REFUSALS = {'OutOfRange': 'out_of_range %d', 'BreakInLine': 'break_in_line %d', 'TooManyLines': 'too_many_lines', 'TooLarge': 'too_large',
            'NestedTooDeep': 'nested_too_deep %d', 'InlineTooDeep': 'inline_too_deep %d', 'NotDefinitions': 'not_definitions %d'}
PRELUDES = ['[foo]: /p', '[bar]: /q "t"', '', '[x]: /x', 'x', '> [foo]: /q', '- [bar]: /r', '[a]: /a', '[foo]: /u']


def lines_term(lines):
    return common.argument(common.texts_term(lines))


def source_term(lines, prelude):
    return f'(source_of {lines_term(lines)} {lines_term(prelude)})'


def call_term(call):
    if call[0] == 'edit':
        return f'(edit {call[1]} {call[2]} {lines_term(call[3])})'
    return f'(set_prelude {lines_term(call[1])})'


def refusal_term(fault):
    name = REFUSALS[fault.name]
    return f'refused {common.argument(name % fault.n if "%" in name else name)}'


def accepted_term(patch):
    begin, meet = getattr(patch, 'from_', 0), getattr(patch, 'meet', 0)
    changed = sorted(label.encode('utf-8') for label in patch.changed)
    return (f'answers {begin} {meet} {patch.first} {patch.removed} {patch.added} {common.argument(common.numbers_term(patch.again))} {patch.must} '
            f'{lines_term([label.decode("utf-8") for label in changed])}')


def setting_term(options):
    return 'plain' if (options.max_containers, options.max_spans) == (64, 64) else f'(limited {options.max_containers} {options.max_spans})'


class Document:
    """A text with its prelude, as an oracle holds it; each call gives a row."""

    def __init__(self, O, max_containers=64, max_spans=64):
        self.O = O
        self.options = O.Options(max_containers=max_containers, max_spans=max_spans)
        self.view, self.prelude = O.Preview(O.BUILTIN, self.options), []

    def call(self, name, note, call):
        source = source_term(self.view.v.lines, self.prelude)
        try:
            patch = self.view.edit(*call[1:]) if call[0] == 'edit' else self.view.set_prelude(call[1])
            if call[0] == 'prelude':
                self.prelude = list(call[1])
            right = accepted_term(patch)
        except self.O.Refused as fault:
            right = refusal_term(fault)
        return common.lemma(name, note, f'answer {setting_term(self.options)} {source} {call_term(call)}', right, 'answer')

    def pieces(self, name, note):
        left = f'pieces {setting_term(self.options)} {source_term(self.view.v.lines, self.prelude)}'
        return common.lemma(name, note, left, common.texts_term(self.view.v.pieces), 'pieces')


def is_plain(lines):
    """Whether a row can hold these lines as they stand."""
    return all(c == '\t' or c.isprintable() for line in lines for c in line)


def random_rows(oracle, seed, count):
    """Rows of random edits: scripts of a few calls on a small text."""
    sys.path.insert(0, oracle)
    import gendoc
    import oracle as O
    rand, rows, number = random.Random(seed), [], 0
    while len(rows) < count:
        document = Document(O, *rand.choice([(64, 64), (64, 64), (64, 64), (1, 1), (2, 2)]))
        calls = [('edit', 0, 0, gendoc.document(rand, 6))]
        number += 1
        for step in range(4):
            if rand.random() < .25:
                call = ('prelude', [rand.choice(PRELUDES) for _ in range(rand.choice((0, 1, 1, 2)))])
            else:
                at, gone, add = gendoc.edit(rand, document.view.v.lines, True, 2)
                call = ('edit', at, gone, add)
            if step == 0:
                call = calls[0]
            if not is_plain(call[-1]):
                continue
            rows.append(document.call(f'edit_{number}_{step}', f'text {number}, call {step}', call))
        rows.append(document.pieces(f'pieces_{number}', f'text {number}, the pieces behind these calls'))
    return rows[:count]


def write(workspace, rows):
    """Puts rows in place of the crate's own."""
    proofs = os.path.join(workspace.path, 'crates', 'edit_rows', 'proofs')
    for name in os.listdir(proofs):
        if name != 'ReadEdits.antt':
            os.remove(os.path.join(proofs, name))
    files = {f'Edits{at}': HEAD + ''.join('\n' + text for text in part) for at, part in enumerate(common.parted(rows, IN_A_FILE))}
    files['Lib'] = 'pub mod ReadEdits\n' + ''.join(f'mod {name}\n' for name in files)
    workspace.write('edit_rows', files)


def check(oracle, corpus, taken_from=None, kept=None, seed=1):
    """Checks random rows: how many are proved, and the names of those that are not."""
    rows = random_rows(oracle, seed, ROWS)
    workspace = common.Workspace(CRATES, taken_from, kept)
    write(workspace, rows)
    refused, proved, seconds = workspace.check('edit_rows')
    print(f'{len(rows)} rows in {seconds:.0f} s')
    if not proved and not refused:
        raise SystemExit(f'the rows were not checked; see {workspace.path}/log')
    workspace.close()
    wrong = sorted(set(refused))
    return len(rows) - len(wrong), wrong
