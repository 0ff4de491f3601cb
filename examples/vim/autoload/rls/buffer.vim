" Changes of the session in the buffer, at their places, or the whole text where the session doesn't tell them.

" A cursor. It stays with the character after it if it is at the beginning of a line, or stands on a character.
function s:cursor(r, window, line, column) abort
  let is_last = a:line == len(a:r.text.lines) && a:column > len(a:r.text.lines[-1])
  return {'window': a:window, 'line': a:line, 'byte': a:column - 1, 'before': !is_last && (a:column == 1 || mode() !~# '^[iR]')}
endfunction

" The cursors of the windows that show the buffer, and the other end of a selection, which is in no window.
function s:cursors(r) abort
  let cursors = map(win_findbuf(a:r.buf), {_, window -> call('s:cursor', [a:r, window] + getcurpos(window)[1:2])})
  if bufnr('%') == a:r.buf && mode() =~# "^[vV\<C-V>]"
    call add(cursors, call('s:cursor', [a:r, 0] + getpos('v')[1:2]))
  endif
  return cursors
endfunction

function s:put(cursors) abort
  for c in a:cursors
    let place = printf('call cursor(%d, %d)', c.line, c.byte + 1)
    if c.window
      call win_execute(c.window, place)
    else
      normal! o
      execute place
      normal! o
    endif
  endfor
endfunction

" Where cursors go when lines come in at a place, or when what is from there to another place goes.
function s:after_insertion(cursors, line, byte, lines) abort
  for c in a:cursors
    if c.line < a:line || (c.line == a:line && (c.byte < a:byte || (c.byte == a:byte && !c.before)))
      continue
    endif
    if c.line == a:line
      let c.byte = len(a:lines[-1]) + c.byte - (len(a:lines) == 1 ? 0 : a:byte)
    endif
    let c.line += len(a:lines) - 1
  endfor
endfunction

function s:after_deletion(cursors, line, byte, last, end) abort
  for c in a:cursors
    if c.line < a:line || (c.line == a:line && c.byte <= a:byte)
      continue
    elseif c.line > a:last
      let c.line -= a:last - a:line
    else
      let c.byte = c.line == a:last && c.byte >= a:end ? a:byte + c.byte - a:end : a:byte
      let c.line = a:line
    endif
  endfor
endfunction

" Puts lines in place of those from one line on. Marks of lines that stay, stay with them.
function rls#buffer#replace(r, first, count, lines) abort
  let same = min([a:count, len(a:lines)])
  if same > 0
    call setbufline(a:r.buf, a:first, a:lines[: same - 1])
  endif
  if len(a:lines) > same
    call appendbufline(a:r.buf, a:first + same - 1, a:lines[same :])
  elseif a:count > same
    call deletebufline(a:r.buf, a:first + same, a:first + a:count - 1)
  endif
  call rls#lines#splice(a:r.text, a:first, a:count, a:lines)
endfunction

" Shows these lines, where the replica has none as yet or is opened again.
function rls#buffer#show(r, lines) abort
  call deletebufline(a:r.buf, 1, '$')
  call setbufline(a:r.buf, 1, a:lines)
endfunction

" Makes one change of the session in the buffer. Whole lines that come in at the beginning of a line, or go, leave the others as they are.
function s:insert(r, cursors, at, text) abort
  let [line, byte] = rls#lines#find(a:r.text, a:at)
  let lines = map(split(a:text, '\\\@<!\%(\\\\\)*\zs\\n', 1), {_, x -> s:unescaped(x)})
  call s:after_insertion(a:cursors, line, byte, lines)
  if byte == 0 && lines[-1] ==# ''
    return rls#buffer#replace(a:r, line, 0, lines[: -2])
  endif
  let old = a:r.text.lines[line - 1]
  let lines[-1] .= strpart(old, byte)
  let lines[0] = strpart(old, 0, byte) . lines[0]
  call rls#buffer#replace(a:r, line, 1, lines)
endfunction

function s:delete(r, cursors, at, count) abort
  let [line, byte] = rls#lines#find(a:r.text, a:at)
  let [last, end] = rls#lines#find(a:r.text, a:at + a:count)
  call s:after_deletion(a:cursors, line, byte, last, end)
  if byte == 0 && end == 0
    return rls#buffer#replace(a:r, line, last - line, [])
  endif
  call rls#buffer#replace(a:r, line, last - line + 1, [strpart(a:r.text.lines[line - 1], 0, byte) . strpart(a:r.text.lines[last - 1], end)])
endfunction

" What a part of a line of changes means that has no line feed.
function s:unescaped(text) abort
  return substitute(a:text, '\\\(.\)', '\=submatch(1) ==# "r" ? "\r" : submatch(1)', 'g')
endfunction

" Makes changes of the session in the buffer, at their places. Answers the first place that they have touched; -1 if there is
" none.
function rls#buffer#apply(r, changes) abort
  if empty(a:changes)
    return -1
  endif
  let [cursors, first] = [s:cursors(a:r), -1]
  let a:r.edition += 1
  let a:r.silent = 1
  try
    for change in a:changes
      let [_, kind, at, rest; _] = matchlist(change, '^\(.\) \(\d\+\) \(\_.*\)$')
      let first = first < 0 ? str2nr(at) : min([first, str2nr(at)])
      if kind ==# 'd'
        call s:delete(a:r, cursors, str2nr(at), str2nr(rest))
      else
        call s:insert(a:r, cursors, str2nr(at), rest)
      endif
    endfor
    call listener_flush(a:r.buf)
  finally
    let a:r.silent = 0
  endtry
  call s:put(cursors)
  return first
endfunction

" Makes the buffer the session's text by what is between the equal fronts and ends, where the session doesn't tell what changed. With the first
" version Vim's own undo goes back to here and no further: it would take back what others wrote.
function rls#buffer#compare(r) abort
  let new = rls#session#lines_of(rls#session#text(a:r))
  let [front, end] = rls#lines#common(a:r.text.lines, new)
  if new ==# a:r.text.lines
    return
  endif
  let a:r.edition += 1
  let levels = getbufvar(a:r.buf, '&undolevels')
  call setbufvar(a:r.buf, '&undolevels', -1)
  let a:r.silent = 1
  call rls#buffer#replace(a:r, front + 1, len(a:r.text.lines) - front - end, rls#lines#middle(new, front, end))
  call listener_flush(a:r.buf)
  let a:r.silent = 0
  call setbufvar(a:r.buf, '&undolevels', levels)
endfunction
