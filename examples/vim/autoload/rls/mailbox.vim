" What a replica does in the shared folder. One file for each sender and receiver: a message has all that its receiver isn't known to have, so the
" latest is enough. And one for each member's cursor.
let s:most_message = 67108864
let s:most_cursor = 65536

function s:path(r, from, to) abort
  return printf('%s/%s-%d-%d.rlsm', a:r.shared, a:r.group, a:from, a:to)
endfunction

function s:cursor_path(r, from) abort
  return printf('%s/%s-%d.cursor', a:r.shared, a:r.group, a:from)
endfunction

" Whether there is something else at a path than when this was asked last.
function s:is_new(r, path) abort
  let mark = rls#files#mark_of(a:path)
  if mark ==# get(a:r.seen, a:path, '')
    return 0
  endif
  let a:r.seen[a:path] = mark
  return 1
endfunction

" Remembers what is wrong with a message, such as 'of 2'; '' if nothing is.
function s:note(r, message, problem) abort
  if a:problem !=# ''
    let a:r.problems[a:message] = substitute(a:problem, '^rls: ', '', '')
  elseif has_key(a:r.problems, a:message)
    call remove(a:r.problems, a:message)
  endif
endfunction

" Why the head of a message isn't what the name of its file says; '' if it is, or if this is no head at all, which the session says then.
function s:fault_of(r, message, from) abort
  if len(a:message) < 21 + 4 * a:r.members || a:message[0:3] != 0z524C534D
    return ''
  elseif a:message[5:16] != a:r.head[5:16]
    return 'it is of another text'
  endif
  let sender = rls#files#u32(a:message, 17)
  return sender == a:from ? '' : 'its head says member ' . sender
endfunction

" Whether a message counts more operations of this member than the replica has made. Then the files in the replica's folder are old, and whatever is
" made there has numbers that are taken; or the message is forged. It isn't taken, and until its file is gone, or another one, nothing is sent:
" sending would part the texts for ever if the files are old. The messages of others are taken. Whom the launcher was told to doubt, by RLS_FORCE=1
" (docs/USE.md, "Rules"), keeps nobody from sending.
function s:is_ahead(r, message, from) abort
  let at = 21 + 4 * a:r.me
  if len(a:message) < at + 4 || rls#files#u32(a:message, at) <= rls#files#u32(rls#session#ask(a:r, 's ' . a:r.me)[1], at)
    return 0
  endif
  let why = printf('it counts more edits of member %d than this replica has made', a:r.me)
  call s:note(a:r, 'of ' . a:from, why)
  let doubted = a:r.folder . '/replica.doubted'
  if !filereadable(doubted) || index(readfile(doubted), printf('%s-%d-%d %d', a:r.group, a:r.members, a:r.me, a:from)) < 0
    let file = printf('%s-%d-%d.rlsm', a:r.group, a:from, a:r.me)
    let a:r.ahead[a:from] = printf('NOT sent: %s counts more edits of member %d than were made here', file, a:r.me)
    echohl ErrorMsg
    echomsg printf('rls: %s. Nothing is sent: the files in %s are old, or the number is used twice (docs/USE.md, "A replica is lost"); or somebody forged it: then delete it',
          \ a:r.ahead[a:from][10:], a:r.folder)
    echohl None
  endif
  return 1
endfunction

" What the last message that was taken of a member says that it has, a space before each count: with the fourth version of the session that is left
" out of what is sent to it. '' if there is none.
function rls#mailbox#told(r, to) abort
  let message = get(a:r.taken, a:to, 0z)
  if a:r.version < 4 || len(message) < 21 + 4 * a:r.members || message[0:3] != 0z524C534D
    return ''
  endif
  return join(map(range(a:r.members), {_, k -> ' ' . rls#files#u32(message, 21 + 4 * k)}), '')
endfunction

" A member's message is no longer in the way of sending.
function s:pass(r, from) abort
  if has_key(a:r.ahead, a:from)
    call remove(a:r.ahead, a:from)
    let a:r.is_stopped = 1
  endif
endfunction

" Takes what came from one member, and adds what it changed. Answers whether there was anything. What can't be read as a message is told, and stops
" no other member's.
function s:take_from(r, from, changes) abort
  let path = s:path(a:r, a:from, a:r.me)
  if a:from == a:r.me || !s:is_new(a:r, path)
    return 0
  endif
  try
    let found = rls#files#read(path, s:most_message)
  catch /^rls:\|^Vim(\(return\|let\)):E48\d/
    call s:note(a:r, 'of ' . a:from, v:exception)
    return 0
  endtry
  if empty(found)
    call s:note(a:r, 'of ' . a:from, '')
    call s:pass(a:r, a:from)
    return 0
  endif
  let message = found[0]
  if has_key(a:r.taken, a:from) && message ==# a:r.taken[a:from]
    call s:note(a:r, 'of ' . a:from, '')
    call s:pass(a:r, a:from)
    return 0
  endif
  let fault = s:fault_of(a:r, message, a:from)
  if fault !=# ''
    call s:note(a:r, 'of ' . a:from, fault)
    return 0
  elseif s:is_ahead(a:r, message, a:from)
    return 0
  endif
  call s:pass(a:r, a:from)
  let request = 'm ' . len(message)
  if rls#exchange#make_room(a:r, len(request) + 1 + len(message))
    let [reply, _, told] = rls#session#ask(a:r, request, message)
    call extend(a:changes, told)
  else
    let reply = rls#exchange#take_by_command(a:r, message)
  endif
  " What was refused once is refused again.
  let a:r.taken[a:from] = message
  call s:note(a:r, 'of ' . a:from, reply =~# 'held 0 refused 0' ? '' : reply)
  if reply =~# '^no '
    return 0
  endif
  let a:r.changes += rls#session#number(reply, 'applied')
  if reply !~# '^applied 0 released 0 '
    let a:r.wrote = [a:from, strftime('%H:%M')]
  endif
  return 1
endfunction

" Takes what came, and adds what it changed. Answers from how many members there was anything.
function rls#mailbox#take(r, changes) abort
  let taken = 0
  for from in rls#tokens#may(a:r) ? range(a:r.members) : []
    let taken += s:take_from(a:r, from, a:changes)
  endfor
  return taken
endfunction

" Whether nothing ever came from this number and the message that it has already has more than half the bytes of this one. Each of them has the
" whole history. Whoever begins with the number takes the one that is there and answers, and gets the rest.
function s:is_enough(r, to, message) abort
  return rls#files#u32(a:message, 21 + 4 * a:to) == 0 && rls#files#size(s:path(a:r, a:to, a:r.me)) < 0
        \ && 2 * rls#files#size(s:path(a:r, a:r.me, a:to)) > len(a:message)
endfunction

" Whether the shared folder is there: it may be a drive or a mount, which goes and comes back.
function s:has_shared(r) abort
  let a:r.is_away = !isdirectory(a:r.shared)
  return !a:r.is_away
endfunction

" Whether a message is there already. If what is there has this member's number and more of its operations than were made here, nothing is written.
function s:is_written(r, to, message) abort
  let path = s:path(a:r, a:r.me, a:to)
  try
    let there = get(rls#files#read(path, s:most_message), 0, 0z)
  catch /^rls:\|^Vim(\(return\|let\)):E48\d/
    return 0
  endtry
  let at = 21 + 4 * a:r.me
  if there ==# a:message
    let a:r.sent[a:to] = a:message
    call s:note(a:r, 'to ' . a:to, '')
    return 1
  elseif len(there) >= at + 4 && there[5:20] ==# a:r.head[5:20] && rls#files#u32(there, at) > rls#files#u32(a:message, at)
    call rls#tokens#stop(a:r, path, 'it has more operations of this number than this replica has made')
  endif
  return 0
endfunction

" Writes messages to members, as far as they are new, and says before that this replica writes.
function rls#mailbox#write(r, messages) abort
  let due = filter(copy(a:messages), {to, message -> message !=# get(a:r.sent, to, 0z) && !s:is_enough(a:r, to, message)})
  call extend(a:r.last, due)
  call rls#limits#tell(a:r, due, {to -> s:path(a:r, to, a:r.me)})
  if empty(due) || !empty(a:r.ahead) || !s:has_shared(a:r) || !rls#tokens#may(a:r)
    return
  endif
  call filter(due, {to, message -> !s:is_written(a:r, to, message)})
  let is_shown = 0
  for [to, message] in empty(a:r.twice) ? items(due) : []
    try
      if !is_shown
        call rls#tokens#show(a:r)
      endif
      let is_shown = 1
      call rls#files#write(s:path(a:r, a:r.me, to), message)
      let a:r.sent[to] = message
      call s:note(a:r, 'to ' . to, '')
    catch /^rls:\|^Vim(let):E/
      call s:note(a:r, 'to ' . to, v:exception)
    endtry
  endfor
endfunction

" Whether a message is still there as it was written. The file is read only if it is another one than when this was asked last.
function s:is_there(r, to, message) abort
  let path = s:path(a:r, a:r.me, a:to)
  let mark = rls#files#mark_of(path)
  if get(a:r.sent, a:to, 0z) !=# a:message || mark ==# ''
    return 0
  elseif mark ==# get(a:r.marks, a:to, '')
    return 1
  endif
  let a:r.marks[a:to] = mark
  try
    return rls#files#read(path, s:most_message) ==# [a:message]
  catch /^rls:\|^Vim(\(return\|let\)):E48\d/
    return 0
  endtry
endfunction

" Writes again what could not be written, and what isn't there any more since the folder has an older state: when the folder is back, or this
" replica may write again, and each tenth time that this is called.
function rls#mailbox#write_again(r) abort
  let was_stopped = a:r.is_away || a:r.is_stopped
  let a:r.looked += 1
  if !s:has_shared(a:r) || !(was_stopped || a:r.looked % 10 == 0) || !rls#tokens#may(a:r)
    return
  endif
  let a:r.is_stopped = 0
  let lost = filter(copy(a:r.last), {to, message -> !s:is_there(a:r, to, message)})
  for to in keys(lost)
    let a:r.sent[to] = 0z
  endfor
  call rls#mailbox#write(a:r, lost)
  if was_stopped
    let [a:r.cursor, a:r.shown] = ['', -1]
  endif
endfunction

" Tells others where the cursor is, if it has moved. They do without it if it can't be written.
function rls#mailbox#show_cursor(r) abort
  if bufnr('%') != a:r.buf
    return
  endif
  call rls#changes#flush(a:r)
  let place = rls#lines#place(a:r.text, line('.')) + strchars(strpart(getline('.'), 0, col('.') - 1))
  if place == a:r.shown
    return
  endif
  let a:r.shown = place
  call rls#session#send(a:r, 'a ' . place, 0z, function('s:tell_cursor', [a:r]))
endfunction

function s:tell_cursor(r, reply, bytes, changes) abort
  let word = matchstr(a:reply, '^anchor \zs\S\+$')
  let name = substitute(g:rls_name ==# '' ? a:r.place.own : g:rls_name, '[[:cntrl:]]', '', 'g')
  let line = word . (name ==# '' ? '' : ' ' . name)
  if word !=# '' && line !=# a:r.cursor && rls#tokens#may(a:r)
    let a:r.cursor = line
    try
      call rls#files#write(s:cursor_path(a:r, a:r.me), [line])
    catch /^rls:\|^Vim(let):E/
    endtry
  endif
endfunction

" The place that a member tells of its cursor, and a name; '' where there is none. What can't be read as a cursor isn't shown.
function s:told_place(path) abort
  try
    let found = rls#files#read(a:path, s:most_cursor)
    return empty(found) ? ['', ''] : matchlist(rls#session#lines_of(found[0])[0], '^\([!-~]*\) \?\(.*\)$')[1:2]
  catch /^rls:\|^Vim(\(return\|let\)):E48\d/
    return ['', '']
  endtry
endfunction

" Shows where the cursors of others are, by text properties. They are looked up again when messages came: then the session may know of places
" that it didn't know before.
function rls#mailbox#show_others(r) abort
  for from in filter(range(a:r.members), {_, k -> k != a:r.me})
    let path = s:cursor_path(a:r, from)
    let is_new = s:is_new(a:r, path)
    if is_new
      let a:r.places[from] = s:told_place(path)
    endif
    let word = get(a:r.places, from, ['', ''])[0]
    if is_new || (a:r.is_lookup_due && word !=# '')
      call s:unmark(a:r, from)
      if word !=# ''
        call rls#session#send(a:r, 'l ' . word, 0z, function('s:show_other', [a:r, from, a:r.edition]))
      endif
    endif
  endfor
  let a:r.is_lookup_due = 0
endfunction

function s:show_other(r, from, edition, reply, bytes, changes) abort
  " If the text is another one by now, it is asked for again.
  if !empty(a:r.told) || a:r.edition != a:edition
    let a:r.is_lookup_due = 1
  elseif a:reply =~# '^cursor \d\+$'
    call s:unmark(a:r, a:from)
    call s:mark(a:r, a:from, str2nr(a:reply[7:]))
  endif
endfunction

function s:unmark(r, from) abort
  if empty(prop_type_get('rls'))
    call prop_type_add('rls', {'highlight': 'Search', 'override': 1})
    call prop_type_add('rls name', {'highlight': 'NonText'})
  endif
  call prop_remove({'id': a:from + 1, 'type': 'rls', 'both': 1, 'bufnr': a:r.buf, 'all': 1})
  if has_key(a:r.labels, a:from)
    call prop_remove({'id': remove(a:r.labels, a:from), 'type': 'rls name', 'both': 1, 'bufnr': a:r.buf, 'all': 1})
  endif
endfunction

" What a member's cursor is called: what it says itself, or what the circle calls the member.
function s:called(r, from) abort
  let told = get(a:r.places, a:from, ['', ''])[1]
  return strcharpart(strtrans(told ==# '' ? rls#circle#name(a:r, a:from) : told), 0, 40)
endfunction

" Marks the character after a member's cursor, or the one before it at the end of a line, and has the name behind the line where Vim can show that.
function s:mark(r, from, place) abort
  let [line, byte] = rls#lines#find(a:r.text, a:place)
  let text = a:r.text.lines[line - 1]
  if text !=# ''
    let from = byte < len(text) ? byte : byte - len(strcharpart(text, strchars(strpart(text, 0, byte)) - 1, 1))
    call prop_add(line, from + 1, {'length': len(strcharpart(strpart(text, from), 0, 1)), 'id': a:from + 1, 'type': 'rls', 'bufnr': a:r.buf})
  endif
  let name = s:called(a:r, a:from)
  if name !=# '' && has('patch-9.0.0130')
    let a:r.labels[a:from] = prop_add(line, 0, {'type': 'rls name', 'bufnr': a:r.buf, 'text': '  ' . name, 'text_align': 'after'})
  endif
endfunction
