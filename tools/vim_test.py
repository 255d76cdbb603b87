#!/usr/bin/env python3
"""Edits a buffer in Vim, and compares the HTML that clients/vim keeps beside it with mdrender's after each change; where the text is refused, the HTML is to
be as it was; with CRs in a line, a file that another program changed and that is read again, and a long text too. Then programs that are not there, end at once or end
later, words for the program, what is said of a refused text, changes by hand, and a buffer that is deleted. The last line is 'N passed, M failed'."""
import os
import random
import shutil
import subprocess
import sys
import tempfile

ROOT = os.path.join(os.path.dirname(os.path.abspath(__file__)), '..')
CHANGES = 120
LINES = ['', '', 'a *b*', '# c [k]', '- d', '  e', '> f [k][]', '[k]: /g', '```', '| h |', '| - |', '<div>', 'é “x” 日本', '\\&', "it's", '>' * 65 + 'm']

# What Vim runs: a change a line, and behind each the text and the HTML into files.
FRAME = '''vim9script
set nomore
g:jirmoans_program = '{root}/bin/mdpreview'
source {root}/clients/vim/jirmoans.vim
edit {folder}/text.md
Jirmoans
var shown = bufnr('\\[HTML\\]')
def Keep(number: number)
  g:JirmoansSettle()
  writefile(getline(1, '$'), $'{folder}/{{number}}.md')
  writefile(getbufline(shown, 1, '$')->slice(0, -1), $'{folder}/{{number}}.html')
enddef
Keep(0)
{changes}
qall!
'''

# Changes that are made behind those by chance. The HTML of the last one comes in one reply: where that takes time by its square, Vim does not end in time.
LAST = [
    "deletebufline('', 1, '$')",
    'setline(1, "# one\\r\\rtwo\\rthree")',
    'silent write\nwritefile(["# other"], expand("%:p"))\nsilent edit!',
    "setline(1, range(80000)->mapnew((_, number) => number % 2 == 0 ? 'Some *words* in a line.' : ''))",
]

# What Vim is asked of programs that fail and of a refusal: what it said, and whether the window is open, a line each into a file.
WORDS = '''vim9script
set nomore
source {root}/clients/vim/jirmoans.vim
def Said(): string
  var shown = execute('messages')->split("\\n")->filter((_, line) => line =~ '^jirmoans: ')
  return (empty(shown) ? '' : shown[-1]) .. ' | ' .. string(bufexists('[HTML]'))
enddef
# A name that is no UTF-8.
execute 'edit' fnameescape("{folder}/\xff.md")
setline(1, ['<b>a</b>'])
var said: list<string> = []
for program in ['{root}/nowhere', '/bin/false', '{folder}/dies', '{folder}/killed']
  messages clear
  g:jirmoans_program = program
  Jirmoans
  g:JirmoansSettle()
  sleep 300m
  said += [Said()]
endfor
messages clear
g:jirmoans_program = '{root}/bin/mdpreview'
for options in [['--prelude', '{folder}/nowhere'], ['--lines'], '--unsafe']
  messages clear
  g:jirmoans_options = options
  Jirmoans
  g:JirmoansSettle()
  sleep 300m
  said += [Said()]
  unlet g:jirmoans_options
endfor
g:jirmoans_options = ['--unsafe']
Jirmoans
g:JirmoansSettle()
said += [getbufline('\\[HTML\\]', 1)[0]]
append(1, [repeat('>', 65) .. 'm'])
g:JirmoansSettle()
said += [Said()]
# What a hand does in the window of the HTML is refused.
setline(1, ['# a', '', 'b', '', 'c'])
g:JirmoansSettle()
win_execute(bufwinid('\\[HTML\\]'), 'silent! normal! ggdd')
setline(5, 'd')
g:JirmoansSettle()
said += [string(getbufline('\\[HTML\\]', 1, '$'))]
# A buffer that is deleted takes the window along.
bdelete!
sleep 50m
said += [string(bufexists('[HTML]'))]
writefile(said, '{folder}/said')
qall!
'''
SAID = ['jirmoans: {root}/nowhere is not there, or is no program; g:jirmoans_program names it | 0', 'jirmoans: /bin/false has ended with status 1 | 0',
        'jirmoans: {folder}/dies has ended with status 3 | 0', 'jirmoans: {folder}/killed has ended by the signal kill | 0',
        "jirmoans: {root}/bin/mdpreview has ended with status 1: {folder}/nowhere: it can't be opened: there is no such file | 0",
        "jirmoans: g:jirmoans_options is to be a list of words, as ['--unsafe'], without '--lines' | 0",
        "jirmoans: g:jirmoans_options is to be a list of words, as ['--unsafe'], without '--lines' | 0", '<p><b>a</b></p>',
        'jirmoans: the text is refused: a quote or list item in line 2 lies in too many others | 1', "['<h1>a</h1>', '<p>b</p>', '<p>d</p>', '']", '0']


def run_vim(script):
    return subprocess.run(['vim', '-Nu', 'NONE', '-i', 'NONE', '-n', '-es', '-S', script], stdin=subprocess.DEVNULL, stdout=subprocess.PIPE,
                          stderr=subprocess.STDOUT, timeout=120, cwd=os.path.dirname(script), env=dict(os.environ, TERM='xterm', LC_ALL='C.UTF-8'))


def words(root, folder):
    """How many of the lines of SAID Vim gave, and those that it did not give."""
    script, said = (os.path.join(folder, name) for name in ('words.vim', 'said'))
    with open(script, 'w', encoding='utf-8') as file:
        file.write(WORDS.format(root=root, folder=folder))
    for name, last in (('dies', 'exit 3'), ('killed', 'kill -9 $$')):
        with open(os.path.join(folder, name), 'w', encoding='utf-8') as file:
            file.write('#!/bin/sh\nread line\n%s\n' % last)
        os.chmod(os.path.join(folder, name), 0o755)
    run_vim(script)
    got = contents(said).decode().split('\n') if os.path.exists(said) else []
    wanted = [line.format(root=root, folder=folder) for line in SAID]
    wrong = [(want, got[at] if at < len(got) else None) for at, want in enumerate(wanted) if at >= len(got) or got[at] != want]
    return len(wanted) - len(wrong), wrong


def change(draw):
    """A change of the buffer. Vim alone knows how many lines it has then."""
    line = "1 + %d %% line('$')" % draw.randrange(1000)
    new = ', '.join("'%s'" % draw.choice(LINES).replace("'", "''") for _ in range(draw.randint(1, 3)))
    return draw.choice([
        'append(%s, [%s])' % (line, new),
        'append(0, [%s])' % new,
        'setline(%s, [%s])' % (line, new),
        "deletebufline('', %s, min([line('$'), %s + %d]))" % (line, line, draw.randint(0, 3)),
        "execute 'silent :' .. (%s) .. 'move $'" % line,
        'silent! undo',
        'silent! redo',
    ])


def contents(name):
    with open(name, 'rb') as file:
        return file.read()


def main():
    root = os.path.abspath(ROOT)
    if shutil.which('vim') is None:
        print('no Vim here\n0 passed, 0 failed')
        return 0
    passed, failed, wanted = 0, 0, b''
    with tempfile.TemporaryDirectory() as folder:
        shutil.copy(os.path.join(root, 'examples', 'page.md'), os.path.join(folder, 'text.md'))
        draw = random.Random(7)
        # A window by the name of a pattern would open this file.
        shutil.copy(os.path.join(folder, 'text.md'), os.path.join(folder, 'H'))
        steps = [step + '\nKeep(%d)' % (number + 1) for number, step in enumerate([change(draw) for _ in range(CHANGES)] + LAST)]
        script = os.path.join(folder, 'script.vim')
        with open(script, 'w', encoding='utf-8') as file:
            file.write(FRAME.format(root=root, folder=folder, changes='\n'.join(steps)))
        ran = run_vim(script)
        for number in range(len(steps) + 1):
            text, html = (os.path.join(folder, '%d.%s' % (number, end)) for end in ('md', 'html'))
            rendered = subprocess.run([os.path.join(root, 'bin', 'mdrender'), text], stdout=subprocess.PIPE, stderr=subprocess.DEVNULL)
            if rendered.returncode == 0:
                wanted = rendered.stdout
            if os.path.exists(text) and os.path.exists(html) and contents(html) == wanted:
                passed += 1
            else:
                failed += 1
                print('FAILED after change %d: %s' % (number, steps[number - 1] if number else 'none'))
        if failed:
            print(ran.stdout.decode(errors='replace')[:2000])
        right, wrong = words(root, folder)
        passed, failed = passed + right, failed + len(wrong)
        for want, got in wrong:
            print('FAILED: wanted %s, Vim gave %s' % (want, got))
    print('%d passed, %d failed' % (passed, failed))
    return 1 if failed else 0


sys.exit(main())
