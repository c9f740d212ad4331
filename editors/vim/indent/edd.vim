" How far the lines of descriptions are to the right: as docs/LAYOUT.md says and `edd fmt` writes them.
if exists("b:did_indent")
  finish
endif
let b:did_indent = 1
setlocal indentexpr=GetEddIndent() nolisp autoindent
setlocal indentkeys=0{,0},0),0],!^F,o,O,e,<:>,=else,=ELSE,=while
let b:undo_indent = "setlocal indentexpr< indentkeys< lisp< autoindent<"
if exists("*GetEddIndent")
  finish
endif

" A string, which may go on on the next line; a comment; a word or number; a sign.
let s:token = '\C"\%(\\.\|[^"\\]\)*"\=\|//.*\|/\*\|[0-9A-Za-z_]\+\|[^ \t\r]'
let s:item = '\C^\s*\%(VARIABLE\|COMMAND\|MENU\|COLLECTION\|METHOD\|ARRAY\)\>'
let s:step = 4

" What is known before a line: the braces and parentheses that are open, and the statements that wait for
" what they are over. Lines are read from the beginning of their item on.
function! s:Begin() abort
  return {"frames": [s:Frame("", 0, 0, 0)], "last": "", "fresh": 1, "inside": "", "text": -1}
endfunction

" An open brace: the indentation of what it belongs to, and of what is in it. Of a parenthesis `inner` is
" the column behind it.
function! s:Frame(sign, outer, inner, is_code) abort
  return {"sign": a:sign, "outer": a:outer, "inner": a:inner, "is_code": a:is_code, "heads": [],
        \ "is_switch": 0, "has_label": 0, "in_label": 0, "statement": a:inner}
endfunction

" How far a line is to the right that begins with a token.
function! s:IndentOf(state, token) abort
  let frame = a:state.frames[-1]
  if frame.sign ==# "(" || frame.sign ==# "["
    return frame.inner
  endif
  if a:token ==# "}"
    return frame.outer
  endif
  if a:token[0] ==# '"' && a:state.last[0] ==# '"'
    return a:state.text
  endif
  let indent = s:StatementIndent(frame, a:token)
  return frame.is_code && !a:state.fresh && a:token !=# "{" ? indent + s:step : indent
endfunction

function! s:StatementIndent(frame, token) abort
  " Behind an `if` without `else` what it is in ends as well.
  let has_ended = 0
  for head in reverse(copy(a:frame.heads))
    let state = !has_ended || head.state !=# "body" ? head.state : head.word ==# "do" ? "again" : "after"
    if state ==# "body"
      return a:token ==# "{" ? head.indent : head.indent + s:step
    endif
    if state ==# "after" && head.word ==# "if" && a:token ==# "else" || state ==# "again" && a:token ==# "while"
      return head.indent
    endif
    let has_ended = 1
  endfor
  let is_label = a:token ==# "case" || a:token ==# "default"
  return a:frame.inner + (a:frame.has_label && !is_label ? s:step : 0)
endfunction

" A statement ends, and with it those that it is the last part of.
function! s:EndStatement(frame) abort
  while !empty(a:frame.heads)
    let head = a:frame.heads[-1]
    if head.word ==# "if" && head.state ==# "body"
      let head.state = "after"
      return
    elseif head.word ==# "do" && head.state ==# "body"
      let head.state = "again"
      return
    endif
    call remove(a:frame.heads, -1)
  endwhile
endfunction

" What begins a statement of a method.
function! s:BeginStatement(state, frame, token) abort
  while !empty(a:frame.heads) && a:frame.heads[-1].state ==# "after" && a:token !=# "else"
    call remove(a:frame.heads, -1)
    call s:EndStatement(a:frame)
  endwhile
  let indent = s:StatementIndent(a:frame, a:token)
  let a:frame.statement = indent
  let head = empty(a:frame.heads) ? {} : a:frame.heads[-1]
  if a:token ==# "else" && !empty(head) && head.state ==# "after"
    let head.word = "else"
    let head.state = "body"
    let a:state.last = "else"
    return
  endif
  let a:state.fresh = 0
  if a:token ==# "while" && !empty(head) && head.state ==# "again"
    let head.word = "while"
    let head.state = "end"
  elseif a:token =~# '^\%(if\|while\|for\|switch\|do\)$'
    if a:token ==# "if" && !empty(head) && head.word ==# "else" && a:state.last ==# "else"
      let indent = remove(a:frame.heads, -1).indent
    endif
    let is_do = a:token ==# "do"
    call add(a:frame.heads, {"word": a:token, "indent": indent, "state": is_do ? "body" : "condition"})
    let a:state.fresh = is_do
  elseif a:token ==# "case" || a:token ==# "default"
    let a:frame.has_label = 1
    let a:frame.in_label = 1
  endif
endfunction

function! s:Open(state, token, column) abort
  let frame = a:state.frames[-1]
  if a:token !=# "{"
    call add(a:state.frames, s:Frame(a:token, 0, a:column, 0))
    return
  endif
  let head = empty(frame.heads) ? {} : frame.heads[-1]
  let is_body = !empty(head) && head.state ==# "body"
  let outer = is_body ? head.indent : frame.is_code ? s:StatementIndent(frame, a:token) : frame.inner
  let is_code = frame.is_code || a:state.last ==# "DEFINITION"
  call add(a:state.frames, s:Frame("{", outer, outer + s:step, is_code))
  let a:state.frames[-1].is_switch = is_body && head.word ==# "switch"
  let a:state.fresh = 1
endfunction

function! s:Close(state, token) abort
  if len(a:state.frames) > 1
    call remove(a:state.frames, -1)
  endif
  let frame = a:state.frames[-1]
  if a:token ==# "}"
    call s:EndStatement(frame)
    let a:state.fresh = 1
  elseif a:token ==# ")" && !empty(frame.heads) && frame.heads[-1].state ==# "condition"
    let frame.heads[-1].state = "body"
    let a:state.fresh = 1
  endif
endfunction

" Takes a token that is at a column of its line, and the column of the next one.
function! s:Take(state, token, column, next) abort
  let frame = a:state.frames[-1]
  let is_brace = frame.sign !=# "(" && frame.sign !=# "["
  if a:token[0] ==# '"'
    if a:state.last[0] !=# '"'
      let a:state.text = a:column
    endif
  endif
  if is_brace && frame.is_code && a:state.fresh && a:token !~# '^[{};]$'
    call s:BeginStatement(a:state, frame, a:token)
  elseif is_brace && frame.is_code && a:state.fresh && a:token ==# "{"
    while !empty(frame.heads) && frame.heads[-1].state ==# "after"
      call remove(frame.heads, -1)
      call s:EndStatement(frame)
    endwhile
  endif
  if a:token =~# '^[{([]$'
    call s:Open(a:state, a:token, a:next)
  elseif a:token =~# '^[]})]$'
    call s:Close(a:state, a:token)
  elseif a:token ==# ";" && is_brace
    call s:EndStatement(frame)
    let a:state.fresh = 1
  elseif a:token ==# ":" && frame.in_label
    let frame.in_label = 0
    let a:state.fresh = 1
  endif
  let a:state.last = a:token
endfunction

" The tokens of a line, each with its column, without comments.
function! s:Tokens(state, line) abort
  let tokens = []
  let at = 0
  while at < len(a:line)
    if a:state.inside !=# ""
      let end = a:state.inside ==# "/*" ? matchend(a:line, '\*/', at) : matchend(a:line, '^\%(\\.\|[^"\\]\)*"', at)
      if end < 0
        break
      endif
      let a:state.inside = ""
      let at = end
      continue
    endif
    let [token, start, end] = matchstrpos(a:line, s:token, at)
    if start < 0 || token[0:1] ==# "//"
      break
    endif
    if token ==# "/*"
      let a:state.inside = "/*"
    else
      call add(tokens, [token, strchars(strpart(a:line, 0, start))])
      let is_open = token[0] ==# '"' && token !~# '^"\%(\\.\|[^"\\]\)*"$'
      let a:state.inside = is_open ? '"' : ""
    endif
    let at = end
  endwhile
  return tokens
endfunction

function! s:TakeLine(state, line) abort
  if a:state.inside ==# "" && a:line =~# '^\s*#'
    return
  endif
  let tokens = s:Tokens(a:state, a:line)
  for number in range(len(tokens))
    let [token, column] = tokens[number]
    let next = number + 1 < len(tokens) ? tokens[number + 1][1] : column + 1
    call s:Take(a:state, token, column, next)
  endfor
endfunction

" The line with which the item begins that is before a line.
function! s:ItemBefore(line) abort
  call cursor(a:line, 1)
  while 1
    let line = search(s:item, "bW")
    if line == 0
      return 1
    endif
    if synIDattr(synID(line, match(getline(line), '\S') + 1, 0), "name") !=# "eddComment"
      return line
    endif
  endwhile
endfunction

" What is known before a line. It is kept for the lines below it, whose indentation is mostly asked next.
function! s:StateBefore(line) abort
  let first = s:ItemBefore(a:line)
  let kept = get(b:, "edd_indent", {})
  let known = empty(kept) ? 0 : len(kept.lines)
  let goes_on = known > 0 && kept.first == first && first + known <= a:line
  if !goes_on || getline(first, first + known - 1) !=# kept.lines
    let kept = {"first": first, "lines": [], "state": s:Begin()}
    let b:edd_indent = kept
    let known = 0
  endif
  let lines = first + known < a:line ? getline(first + known, a:line - 1) : []
  for line in lines
    call s:TakeLine(kept.state, line)
  endfor
  call extend(kept.lines, lines)
  return kept.state
endfunction

" The first token of a line or, where it has a comment alone, of the next one that has one.
function! s:FirstToken(line) abort
  let inside = ""
  for number in range(a:line, min([a:line + 100, line("$")]))
    let state = {"inside": inside}
    let line = getline(number)
    let tokens = inside ==# "" && line =~# '^\s*#' ? [] : s:Tokens(state, line)
    if !empty(tokens)
      return [tokens[0][0], number]
    endif
    if number == a:line && line =~# '^\s*$'
      return ["", number]
    endif
    let inside = state.inside
  endfor
  return ["", a:line]
endfunction

function! GetEddIndent() abort
  let state = s:StateBefore(v:lnum)
  let line = getline(v:lnum)
  if state.inside !=# ""
    return -1
  endif
  if line =~# '^\s*#'
    return 0
  endif
  let [token, at] = s:FirstToken(v:lnum)
  if at > v:lnum && token ==# "}"
    " A comment before the closing brace is as far to the right as the lines in the braces.
    let token = ""
    let frame = state.frames[-1]
    return frame.sign ==# "(" || frame.sign ==# "[" ? frame.inner : s:StatementIndent(frame, token)
  endif
  if at == v:lnum && line =~# s:item && len(state.frames) == 1
    return 0
  endif
  return s:IndentOf(state, token)
endfunction
