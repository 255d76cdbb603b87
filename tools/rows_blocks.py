"""Rows of the block definitions: the units of an example's text are those that an oracle reads."""
import os

import rows_common as common

COMMONMARK = ['Tabs', 'Precedence', 'Thematic breaks', 'ATX headings', 'Setext headings', 'Indented code blocks', 'Fenced code blocks',
              'HTML blocks', 'Link reference definitions', 'Paragraphs', 'Blank lines', 'Block quotes', 'List items', 'Lists']
GFM = ['Tables (extension)', 'Task list items (extension)']
CRATES = ['mdtext', 'mdscan', 'mdleaf', 'blockspec', 'block_rows']
# examples that are left out, by the standard and the number, with the reason: none
OMITTED = {}
IN_A_FILE = 25

HEAD = '''-- Rows of examples, by computation.
use Rattle.std.proofs.Common.{◌≡◌, ℕ, List, [], ◌∷◌, ◌++◌, Some, None, refl, codes, true, false}
use Rattle.mdscan.specs.declared.delimiter_rows.Align.TheVariants.{Plain, Left, Center, Right}
use Rattle.blockspec.specs.BlockTree.{bullet, ordered, paragraph, heading, thematic_break, code_block, html_block, block_quote, list, table, blocks_of, items_of}
use Rattle.block_rows.proofs.ReadText.{units_read, found, defines}
'''

# What the info strings of the examples say behind their language, which an oracle's tree does not hold.
META = {'ruby': 'startline=3 $%@#$', 'aa': '``` ~~~'}
ALIGNS = {None: 'Plain', 'left': 'Left', 'center': 'Center', 'right': 'Right'}


def blocks_term(blocks):
    return common.list_term([block_term(b) for b in blocks])


def kind_term(kind):
    if kind[0] == 'bullet':
        return f'bullet {ord(kind[1])}'
    return f'ordered {ord(kind[1])} {kind[2]}'


def rows_term(rows):
    return common.list_term([common.argument(common.numbers_term(row)) for row in rows])


def block_term(block):
    text, argument = common.text_term, common.argument
    match block:
        case ['paragraph', at, task]:
            return f'paragraph {at} {common.option_term(task, common.bool_term)}'
        case ['heading', level, at]:
            return f'heading {level} {at}'
        case ['break']:
            return 'thematic_break'
        case ['code', lang, body]:
            return f'code_block {argument(text(lang))} {argument(text(META.get(lang, "")))} {argument(text(body))}'
        case ['html', lines]:
            return f'html_block {argument(text(lines.removesuffix(chr(10))))}'
        case ['quote', inner]:
            return f'block_quote (blocks_of {argument(blocks_term(inner))})'
        case ['list', kind, tight, items]:
            items = common.list_term([f'blocks_of {argument(blocks_term(i))}' for i in items])
            return f'list ({kind_term(kind)}) {common.bool_term(tight)} (items_of {argument(items)})'
        case ['table', aligns, head, rows]:
            aligns = common.list_term([ALIGNS[a] for a in aligns])
            return f'table {argument(aligns)} {argument(common.numbers_term(head))} {argument(rows_term(rows))}'
    raise ValueError(block)


def definition_term(definition):
    return 'defines ' + ' '.join(common.argument(common.text_term(part)) for part in definition)


def unit_term(unit):
    parts = [blocks_term(unit['blocks']), common.list_term([definition_term(d) for d in unit['definitions']]), common.texts_term(unit['texts'])]
    return f'found {unit["begin"]} {unit["lines"]} ' + ' '.join(common.argument(part) for part in parts)


def row(name, note, text, units):
    """The row that says what the units of a text are."""
    return common.lemma(name, note, f'units_read {common.argument(common.text_term(text))}', common.list_term([unit_term(u) for u in units]), 'units_read')


def chosen(oracle, corpus):
    """(name, note, text) of each example that is not omitted."""
    entities = ('--unsafe', '--entities', os.path.join(corpus, 'entities.json'))
    for file, sections, word in [('commonmark-0.31.2.json', COMMONMARK, 'commonmark'), ('gfm-0.29.json', GFM, 'gfm')]:
        for number, section, text, html in common.examples(corpus, file, sections):
            omitted = OMITTED.get((word, number))
            if not omitted and not common.oracle_agrees(oracle, text, html, entities):
                omitted = 'the oracle gives other HTML than the example'
            if omitted:
                print(f'omitted: {word} {number} ({section}): {omitted}')
            else:
                yield f'{word}_{number}', f'{word}, example {number} ({section})', text


def write(workspace, rows):
    """Puts rows in place of the crate's own."""
    proofs = os.path.join(workspace.path, 'crates', 'block_rows', 'proofs')
    for name in os.listdir(proofs):
        if name != 'ReadText.antt':
            os.remove(os.path.join(proofs, name))
    files = {f'Examples{at}': HEAD + ''.join('\n' + text for text in part) for at, part in enumerate(common.parted(rows, IN_A_FILE))}
    files['Lib'] = 'pub mod ReadText\n' + ''.join(f'mod {name}\n' for name in files)
    workspace.write('block_rows', files)


def check(oracle, corpus, taken_from=None, kept=None):
    """Checks every example: how many rows are proved, and the names of those that are not."""
    rows = [row(name, note, text, common.oracle_view(oracle, text)) for name, note, text in chosen(oracle, corpus)]
    workspace = common.Workspace(CRATES, taken_from, kept)
    write(workspace, rows)
    refused, proved, seconds = workspace.check('block_rows')
    print(f'{len(rows)} rows in {seconds:.0f} s')
    if not proved and not refused:
        raise SystemExit(f'the rows were not checked; see {workspace.path}/log')
    workspace.close()
    wrong = sorted(set(refused))
    return len(rows) - len(wrong), wrong
