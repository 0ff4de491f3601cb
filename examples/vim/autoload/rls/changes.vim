" From the buffer to the session: what was changed in the buffer is compared with what was there, and handed on place by place.
let s:most_steps = 5000                         " edits that are undone at once: a session forgets a group that has more than 10,000
let s:spaces = '^[\x09\x0b-\x0d ]*'           " a line feed in a line of Vim is the character 0

" From now on each change of the buffer is handed on.
function rls#changes#listen(r) abort
  call listener_flush(a:r.buf)
  let a:r.told = []
  let a:r.listener = listener_add(function('s:changed', [a:r]), a:r.buf)
endfunction

" What Vim tells: these lines were changed. One command may be told in several parts, `gq` first as lines that go and then as lines that come, so
" what was told is put together, and compared once: when Vim waits for a key, or before the next request.
function s:changed(r, buf, start, end, added, changes) abort
  if a:r.silent || a:r.failed !=# ''
    return
  endif
  if empty(a:r.told)
    call timer_start(0, {_ -> rls#try('rls#changes#flush', a:buf)})
  endif
  for change in a:changes
    call s:widen(a:r, change)
  endfor
endfunction

" `told` is the line from which, and the one before which lines were changed, and before which line of the buffer these end now.
function s:widen(r, change) abort
  let [first, last, now] = empty(a:r.told) ? [a:change.lnum, a:change.end, a:change.end] : a:r.told
  let last += max([a:change.end - now, 0])
  let a:r.told = [min([first, a:change.lnum]), last, max([a:change.end, now]) + a:change.added]
endfunction

" Hands on what was told and isn't handed on yet.
function rls#changes#flush(r) abort
  call listener_flush(a:r.buf)
  if empty(a:r.told)
    return
  endif
  let [first, last, now] = a:r.told
  let a:r.told = []
  let last = min([last, len(a:r.text.lines) + 1])
  let new = now > first ? getbufline(a:r.buf, first, now - 1) : []
  if empty(new) && last - first == len(a:r.text.lines)
    let new = ['']
  endif
  let old = rls#lines#middle(a:r.text.lines, first - 1, len(a:r.text.lines) + 1 - last)
  call s:hand(a:r, first, old, new)
  call rls#lines#splice(a:r.text, first, len(old), new)
endfunction

" Hands it on that these lines are now those: one change for each place where they differ (examples/COMPARE.md).
function s:hand(r, first, old, new) abort
  let [first, old, new] = [a:first, copy(a:old), copy(a:new)]
  " One line of each, so that what is compared next are whole lines of both.
  if empty(old) || empty(new)
    if first > 1
      let first -= 1
      let old = [a:r.text.lines[first - 1]] + old
      let new = [old[0]] + new
    elseif len(old) < len(a:r.text.lines)
      let old += [a:r.text.lines[len(old)]]
      let new += [old[-1]]
    endif
  endif
  let before = s:before(a:r.text.lines, first, old[0], new[0])
  let first -= len(before)
  let [gone, come] = [rls#lines#characters(before + old), rls#lines#characters(before + new)]
  if gone ==# come
    return
  endif
  let at = rls#lines#place(a:r.text, first)
  let moved = 0
  if len(gone) + len(come) > 400000
    echo 'rls: looking for what has changed'
    redraw
  endif
  let places = rls#compare#Compared(gone, come, g:rls_compare * 1.0)
  for [from, to, from_new, to_new] in places
    call s:end_group(a:r)
    call s:replace(a:r, at + from + moved, to - from, to_new > from_new ? come[from_new : to_new - 1] : [])
    let moved += to_new - from_new - (to - from)
  endfor
  let a:r.edition += 1
  let a:r.is_cut = to_new == from_new
  if rls#compare#WasCut()
    echomsg 'rls: a change this large was compared line by line, not word by word'
  endif
  if len(places) > 2 * s:most_steps
    echomsg printf('rls: of %d places that were changed, u takes back the last 10,000', len(places))
  endif
  call rls#exchange#is_edited(a:r, 0)
endfunction

" If the white space changes with which a line begins, it is one piece with that before it: so the lines before it are compared, too, back to one with
" a word.
function s:before(lines, first, old, new) abort
  let spaces = matchstr(a:old, s:spaces)
  if spaces ==# matchstr(a:new, s:spaces) && len(spaces) < len(a:old) && len(spaces) < len(a:new)
    return []
  endif
  let from = a:first - 1
  while from > 1 && a:lines[from - 1] =~# s:spaces . '$'
    let from -= 1
  endwhile
  return from > 0 ? a:lines[from - 1 : a:first - 2] : []
endfunction

" Ends the group of undo, if another command begins or the group has enough steps.
function s:end_group(r) abort
  if a:r.version >= 2 && (a:r.boundary || a:r.steps >= s:most_steps)
    call rls#session#put(a:r, 'g', 0z, {-> 0})
    let a:r.steps = 0
  endif
  let a:r.boundary = 0
endfunction

" From a place on so many characters become these. With the third version of the session that is one request, and the session makes operations
" of such changes when it has to. With an older one what comes is put behind what goes, and then that goes: so the run of identifiers that ends
" there goes on.
function s:replace(r, at, count, come) abort
  if a:r.version >= 3
    call s:edit(a:r, rls#lines#request(printf('e %d %d ', a:at, a:count), a:come))
  else
    if !empty(a:come)
      call s:edit(a:r, rls#lines#request(printf('i %d ', a:at + a:count), a:come))
    endif
    if a:count > 0
      call s:edit(a:r, printf('d %d %d', a:at, a:count))
    endif
  endif
  let a:r.steps += (a:count > 0) + !empty(a:come)
endfunction

function s:edit(r, request) abort
  call rls#session#put(a:r, a:request, 0z, function('s:edited', [a:r]))
endfunction

function s:edited(r, reply, bytes, changes) abort
  if a:reply !=# 'ok'
    call rls#session#number(a:reply, 'ok')
  endif
  " The first change is the edit itself. More are rare, and come from operations that waited: the buffer may have gone on since.
  if len(a:changes) > 1
    let a:r.behind = 1
  endif
endfunction

" What is typed from now on is undone by itself.
function rls#changes#end_group(r) abort
  call rls#changes#flush(a:r)
  let a:r.boundary = 1
endfunction

" The lines of one text with what another one has beside: nothing of the first goes. It takes the time that it needs: of lines that aren't compared by
" words all would be there twice.
function rls#changes#joined(lines, others) abort
  let [gone, come] = [rls#lines#characters(a:lines), rls#lines#characters(a:others)]
  let [all, passed] = [[], 0]
  for [from, to, from_new, to_new] in rls#compare#Compared(gone, come, 1.0e9, v:true)
    if to_new > from_new
      let [from_new, to, to_new, between] = s:whole_words(gone, from, to, come, from_new, to_new)
      let all += (to > passed ? gone[passed : to - 1] : []) + between + come[from_new : to_new - 1]
      let passed = max([passed, to])
    endif
  endfor
  return rls#lines#of_characters(all + gone[passed :])
endfunction

" If a part of a word comes in place of another one, both words are there, with a space between.
function s:whole_words(gone, from, to, come, from_new, to_new) abort
  let [from, to, from_new, to_new] = [a:from, a:to, a:from_new, a:to_new]
  if !s:has_word(a:gone, from, to) || !s:has_word(a:come, from_new, to_new)
    return [from_new, to, to_new, []]
  endif
  while from > 0 && from_new > 0 && a:gone[from - 1] == a:come[from_new - 1] && s:has_word(a:gone, from - 1, from)
    let [from, from_new] -= [1, 1]
  endwhile
  while to < len(a:gone) && to_new < len(a:come) && a:gone[to] == a:come[to_new] && s:has_word(a:gone, to, to + 1)
    let [to, to_new] += [1, 1]
  endwhile
  return [from_new, to, to_new, [32]]
endfunction

function s:has_word(text, from, to) abort
  return a:to > a:from && indexof(a:text[a:from : a:to - 1], {_, c -> c != 32 && (c < 9 || c > 13)}) >= 0
endfunction
