vim9script
# The HTML of a Markdown buffer in a window beside it, kept up to date as the text changes: a client of mdpreview (docs/PROTOCOL.md).
#
#   :source clients/vim/jirmoans.vim
#   :Jirmoans                          opens the window, and closes it again
#
# g:jirmoans_program names the program, if it is not the mdpreview on the path, and g:jirmoans_options is a list of its words, as ['--unsafe']: any but '--lines'. A program that is not
# there, or ends, is said so, and the window closes. Each piece is a run of lines of the HTML's buffer, whose last line is always
# empty; after a change only the lines of the pieces that the reply names are replaced. One edit is under way at a time.

var text = 0                     # the number of the Markdown buffer; 0 where no preview is open
var html = 0                     # the number of the HTML's buffer
var job: job
var listener = 0
var held: list<string> = []      # the lines that mdpreview holds
var sent: list<string> = []      # those that it holds once it has accepted the edit under way
var sizes: list<number> = []     # how many lines of the HTML each piece has
var busy = false                 # whether an edit is under way
var came = ''                    # what came of its reply, and is not taken yet
var left = 0                     # how many bytes that is
var least = 0                    # how many it is to be before it is looked at again
var pieces = 0                   # how many pieces of the reply are still to come
var behind = [0, 0]              # a piece, and how many lines of the HTML stand before it
const NONE = ["\n\n"]            # what no text is
const REASONS = {
  OutOfRange: 'the edit names lines that are not there',
  BreakInLine: 'a line holds a carriage return',
  TooManyLines: 'the text has more than 1,000,000 lines',
  TooLarge: 'the text is larger than 16 MB',
  NestedTooDeep: 'a quote or list item in line %d lies in too many others',
  InlineTooDeep: 'emphasis or a link of the block in line %d lies in too many others',
  NoMemory: 'there is no memory for it'}
var refused = NONE               # the text that was refused
var tick = -1                    # up to which change the text was looked at

def Warn(words: string)
  echohl WarningMsg
  echomsg 'jirmoans: ' .. words
  echohl None
enddef

# A refusal in words, with the line as Vim counts it.
def Said(name: string, number: number): string
  var words = get(REASONS, name, name)
  return 'the text is refused: ' .. (words =~ '%d' ? printf(words, number + 1) : words)
enddef

def Lines(): list<string>
  var lines = getbufline(text, 1, '$')
  # An empty buffer has one empty line.
  if lines == ['']
    return []
  endif
  # Few texts have a CR, and in a long one a look at each line takes longer than all else.
  return stridx(join(lines), "\r") < 0 ? lines : lines->mapnew((_, line) => split(substitute(line, '\r$', '', ''), '\r', true))->flattennew()
enddef

# Sends the lines that differ, from the first to the last one.
def Send()
  if text == 0 || busy || tick == getbufvar(text, 'changedtick')
    return
  endif
  tick = getbufvar(text, 'changedtick')
  var now = Lines()
  if now == held || now == refused
    return
  endif
  var [front, tail, most] = [0, 0, min([len(held), len(now)])]
  while front < most && held[front] ==# now[front]
    front += 1
  endwhile
  while tail < most - front && held[-1 - tail] ==# now[-1 - tail]
    tail += 1
  endwhile
  var added = now->slice(front, len(now) - tail)
  # Vim keeps U+0000 as a line ending inside of a line.
  var lines = mapnew(added, (_, line) => substitute(line, '\n', '�', 'g'))
  [busy, sent] = [true, now]
  try
    ch_sendraw(job, join([printf('edit %d %d %d', front, len(held) - tail - front, len(added))] + lines, "\n") .. "\n")
  catch /E630\|E631\|E906/
    # It has ended, which its exit tells.
  endtry
enddef

# How many lines of the HTML stand before a piece.
def Before(piece: number): number
  var [at, lines] = behind[0] <= piece ? behind : [0, 0]
  while at < piece
    lines += sizes[at]
    at += 1
  endwhile
  behind = [piece, lines]
  return lines
enddef

# Replaces `gone` lines of the HTML.
def Replace(before: number, gone: number, lines: list<string>)
  if gone > 0
    deletebufline(html, before + 1, before + gone)
  endif
  appendbufline(html, before, lines)
enddef

def Begin(first: number, removed: number, added: number)
  var before = Before(first)
  var gone = 0
  for size in sizes->slice(first, first + removed)
    gone += size
  endfor
  Replace(before, gone, [])
  sizes = sizes->slice(0, first) + repeat([0], added) + sizes->slice(first + removed)
enddef

def Put(piece: number, lines: list<string>)
  Replace(Before(piece), sizes[piece], lines)
  sizes[piece] = len(lines)
enddef

# Vim may tell of a change in the midst of an undo, and so the text is looked at when that is over.
def Soon()
  timer_start(0, (_) => Send())
enddef

# Takes the line at `at` of the reply with what belongs to it, if all of it came: answers where the next one begins, or -1. The last of `lines` is not whole.
def Took(lines: list<string>, at: number): number
  if at >= len(lines) - 1
    return -1
  endif
  var words = split(lines[at], ' ')
  var numbers = words->slice(1)->mapnew((_, word) => str2nr(word))
  var end = at + 1
  var bytes = words[0] ==# 'piece' ? numbers[1] : 0
  least = len(lines[at]) + 1 + bytes
  if least > left
    return -1
  endif
  left -= least
  least = 0
  if words[0] ==# 'piece'
    # Behind the last one nothing is left, and its lines need no counting.
    end = left == 0 ? len(lines) - 1 : end
    while left > 0 && bytes > 0
      bytes -= len(lines[end]) + 1
      end += 1
    endwhile
    Put(numbers[0], lines->slice(at + 1, end))
    pieces -= 1
  elseif words[0] ==# 'ok'
    Begin(numbers[0], numbers[1], numbers[2])
    [held, refused, pieces, behind] = [sent, NONE, numbers[2] + numbers[3], [0, 0]]
  else
    refused = sent
    Warn(Said(words[1], numbers[1]))
  endif
  if pieces == 0
    busy = false
    Soon()
  endif
  return end
enddef

def Came(from: channel, bytes: string)
  # What a program of before still says is of no use.
  if text == 0 || from != job_getchannel(job)
    return
  endif
  came ..= bytes
  # A long piece comes in many parts, and each look goes through all of them.
  left = len(came)
  if left < least
    return
  endif
  var lines = split(came, "\n", true)
  # A change by hand would set the lines of the pieces apart from what is known of them.
  setbufvar(html, '&modifiable', true)
  var [at, next] = [0, Took(lines, 0)]
  while next >= 0
    [at, next] = [next, Took(lines, next)]
  endwhile
  setbufvar(html, '&modifiable', false)
  came = join(lines->slice(at), "\n")
enddef

def Close()
  if text != 0
    text = 0
    busy = false
    listener_remove(listener)
    autocmd! jirmoans
    job_stop(job)
    execute 'silent! bwipeout!' html
  endif
enddef

# The program has ended while the window is open. Its last line says why, in plain words where it is an mdpreview.
def Ended(ended: job, status: number)
  if text != 0 && ended == job
    var from = job_getchannel(ended)
    var why = ch_status(from, {part: 'err'}) == 'closed' ? [] : split(ch_readraw(from, {part: 'err', timeout: 0}), "\n")
    var how = status < 0 ? 'by the signal ' .. job_info(ended).termsig : 'with status ' .. status
    Close()
    Warn(printf('%s has ended %s%s', Program(), how, empty(why) ? '' : ': ' .. why[-1]))
  endif
enddef

def Program(): string
  return get(g:, 'jirmoans_program', 'mdpreview')
enddef

def Toggle()
  if text != 0
    Close()
    return
  endif
  if !executable(Program())
    Warn(Program() .. ' is not there, or is no program; g:jirmoans_program names it')
    return
  endif
  var options = get(g:, 'jirmoans_options', [])
  if type(options) != v:t_list || index(options, '--lines') >= 0
    Warn("g:jirmoans_options is to be a list of words, as ['--unsafe'], without '--lines'")
    return
  endif
  # A word that stands twice is refused.
  var words = [Program()] + options + (index(options, '--explain') < 0 ? ['--explain'] : [])
  var buffer = bufnr()
  execute 'vnew' fnameescape('[HTML]')
  # With levels of undo each change would keep the lines that went.
  setlocal buftype=nofile bufhidden=wipe noswapfile nobuflisted filetype=html undolevels=-1 nomodifiable
  html = bufnr()
  autocmd BufWipeout <buffer> Close()
  wincmd p
  [held, sizes, busy, came, least, pieces, behind, refused, tick] = [[], [], false, '', 0, 0, [0, 0], NONE, -1]
  job = job_start(words, {mode: 'raw', drop: 'never', out_cb: Came, exit_cb: Ended})
  text = buffer
  augroup jirmoans
    execute printf('autocmd! BufReadPost,FileChangedShellPost <buffer=%d> Soon()', text)
    execute printf('autocmd! BufWipeout <buffer=%d> Close()', text)
    # In the midst of it the window that is left can't be closed.
    execute printf('autocmd! BufDelete <buffer=%d> timer_start(0, (_) => Close())', text)
  augroup END
  listener = listener_add((_, _, _, _, _) => Soon(), text)
  Send()
enddef

# For scripts: waits until the HTML is that of the text, or the window is closed; ten seconds at the most.
def g:JirmoansSettle()
  if text != 0
    listener_flush(text)
  endif
  var begun = reltime()
  while text != 0 && (busy || held != Lines() && refused != Lines()) && reltimefloat(reltime(begun)) < 10.0
    sleep 1m
  endwhile
enddef

command! Jirmoans Toggle()
