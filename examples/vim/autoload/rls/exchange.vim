" When the replica is stored and its messages are written, and when what came from others is taken: some time after an edit, each time that the timer
" looks, and at `:w`. The files themselves are for mailbox.vim.
let s:most_input = 67108864             " bytes that a session reads before it stores

" Takes and sends what there is, and looks again every `g:rls_every`.
function rls#exchange#begin(r) abort
  let buf = a:r.buf
  call timer_stop(get(a:r, 'timer', -1))
  let a:r.timer = timer_start(g:rls_every, {_ -> rls#try(function('s:tick'), buf)}, {'repeat': -1})
  call rls#try('rls#exchange#sync', buf)
endfunction

" Milliseconds since some moment.
function s:now() abort
  return float2nr(reltimefloat(reltime()) * 1000)
endfunction

" From now on something isn't stored. It is sent `g:rls_idle` after the last edit, and at the latest `g:rls_most` after the first. What was taken
" counts as an edit only if nothing else waits to be stored.
"
" After an edit that took something away it is sent `g:rls_hold` later: what is typed in its place goes on with what was typed before, if the
" session has made no operations by then.
function rls#exchange#is_edited(r, is_taken) abort
  let a:r.changes += 1
  if a:is_taken && a:r.unsaved
    return
  endif
  let now = s:now()
  if !a:r.unsaved
    let [a:r.unsaved, a:r.since] = [1, now]
  endif
  let is_held = a:r.version >= 3 && a:r.is_cut && !a:is_taken
  let a:r.waits_until = is_held ? min([now, a:r.since + g:rls_most]) + g:rls_hold : 0
  let left = max([min([g:rls_idle, a:r.since + g:rls_most - now]), a:r.waits_until - now, 0])
  call timer_stop(a:r.due)
  let a:r.due = rls#later(left, a:r.buf, function('s:send_due'))
endfunction

function s:stored(r, reply) abort
  if a:reply !=# 'saved'
    throw 'rls: not stored'
  endif
  call rls#replica#look_for(a:r.folder)
  let [a:r.given, a:r.fault] = [0, '']
endfunction

" Has the session read as many bytes more as this before it stores. It answers whether it can.
function rls#exchange#make_room(r, size) abort
  if a:r.version >= 2 && a:r.given + a:size > s:most_input
    call s:stored(a:r, rls#session#ask(a:r, 'w')[0])
  endif
  return a:r.given + a:size <= s:most_input
endfunction

" Takes a message that a session can't read before it stores, by the command for that. The line that it prints is the answer.
function rls#exchange#take_by_command(r, message) abort
  let [file, result] = [tempname(), tempname()]
  call s:stored(a:r, rls#session#ask(a:r, 'q')[0])
  call writefile(a:message, file)
  let job = job_start([g:rls_program, 'take'], {'cwd': a:r.folder, 'in_io': 'file', 'in_name': file, 'out_io': 'file', 'out_name': result, 'err_io': 'out'})
  while job_status(job) ==# 'run'
    sleep 20m
  endwhile
  let told = get(readfile(result), 0, 'nothing was said')
  call delete(file)
  call delete(result)
  call rls#session#start(a:r)
  let a:r.behind = 1
  return (told =~# '^applied ' ? '' : 'no ') . told
endfunction

" With the first version only the end of a session writes the file, so another one begins. The cursor goes over; what `u` could take back doesn't.
function s:begin_again(r) abort
  let at = rls#session#number(rls#session#ask(a:r, 'p')[0], 'cursor')
  call s:stored(a:r, rls#session#ask(a:r, 'q')[0])
  call rls#session#start(a:r)
  call rls#session#number(rls#session#ask(a:r, 'k ' . at)[0], 'cursor')
endfunction

" Renames if that is due.
function s:rename_if_due(r) abort
  if !rls#renaming#is_due(a:r)
    return
  endif
  let [reply, _, changes] = rls#session#ask(a:r, 'r')
  if reply =~# '^no '
    return rls#renaming#refused(a:r, reply[3:])
  endif
  call rls#session#number(reply, 'ok')
  call rls#buffer#apply(a:r, changes)
  if a:r.version == 1
    call s:begin_again(a:r)
  endif
endfunction

" Stores, and then writes the messages: what isn't stored may be sent to nobody, since a crash would give its numbers to other edits. With the
" second version nothing waits: the messages are asked for, then it is stored, and what was answered is written after that.
function s:send(r) abort
  let [a:r.unsaved, messages] = [0, {}]
  if a:r.version == 1
    call rls#session#drain(a:r)
    call s:begin_again(a:r)
    call s:rename_if_due(a:r)
  elseif empty(a:r.waiting)
    call s:rename_if_due(a:r)
  endif
  for to in filter(range(a:r.members), {_, k -> k != a:r.me})
    call rls#session#send(a:r, 's ' . to . rls#mailbox#told(a:r, to), 0z, function('s:keep', [messages, to]))
  endfor
  if a:r.version == 1
    call rls#session#drain(a:r)
    call s:write_all(a:r, messages)
  else
    let r = a:r
    call rls#session#send(r, 'w', 0z, {reply, _, __ -> [s:stored(r, reply), s:write_all(r, messages)]})
    call s:show_cursors(r)
    call s:poll(r)
  endif
endfunction

function s:keep(messages, to, reply, bytes, changes) abort
  call rls#session#number(a:reply, 'message')
  let a:messages[a:to] = a:bytes
endfunction

function s:write_all(r, messages) abort
  call rls#mailbox#write(a:r, a:messages)
  if !a:r.unsaved
    call setbufvar(a:r.buf, '&modified', 0)
  endif
endfunction

" Tells where the cursor is, and shows where others' are. Each question but an edit has the session make operations of what was typed, so with the
" third version this is done when it has to make them anyway, and when nothing was typed since.
function s:show_cursors(r) abort
  if a:r.version >= 2 && g:rls_cursors
    call rls#mailbox#show_cursor(a:r)
    call rls#mailbox#show_others(a:r)
  endif
endfunction

" Looks for replies until all have come, without waiting for them.
function s:poll(r) abort
  call rls#later(20, a:r.buf, function('s:pump'))
endfunction

function s:pump(r) abort
  call rls#session#pump(a:r)
  if !empty(a:r.waiting)
    call rls#session#check(a:r)
    call s:poll(a:r)
  endif
endfunction

function s:send_due(r) abort
  call rls#changes#flush(a:r)
  if a:r.unsaved
    call s:send(a:r)
  endif
endfunction

" Takes what came. It waits until the session has answered what was asked before, since its changes are of the text as it is then.
function s:take(r) abort
  call rls#changes#flush(a:r)
  call rls#session#drain(a:r)
  let is_shown = a:r.version == 1 && bufnr('%') == a:r.buf
  if is_shown
    let place = rls#lines#place(a:r.text, line('.')) + strchars(strpart(getline('.'), 0, col('.') - 1))
    call rls#session#number(rls#session#ask(a:r, 'k ' . place)[0], 'cursor')
  endif
  let changes = []
  let taken = rls#mailbox#take(a:r, changes)
  if a:r.version >= 2 && !a:r.behind
    call rls#buffer#apply(a:r, changes)
  elseif taken || a:r.behind
    call rls#buffer#compare(a:r)
    let a:r.behind = 0
    if is_shown
      let [line, byte] = rls#lines#find(a:r.text, rls#session#number(rls#session#ask(a:r, 'p')[0], 'cursor'))
      call cursor(line, byte + 1)
    endif
  endif
  if taken
    let a:r.is_lookup_due = 1
    call rls#exchange#is_edited(a:r, 1)
  endif
endfunction

" What `:w` does.
function rls#exchange#sync(r) abort
  call s:take(a:r)
  call s:send(a:r)
  call rls#session#drain(a:r)
endfunction

" What the timer does. It doesn't wait for what was asked before: it looks again.
function s:tick(r) abort
  call rls#changes#flush(a:r)
  call rls#session#pump(a:r)
  if !empty(a:r.waiting)
    call rls#session#check(a:r)
  else
    if !a:r.unsaved || a:r.waits_until <= s:now()
      call s:take(a:r)
    endif
    call rls#mailbox#write_again(a:r)
    if a:r.version < 3 || !a:r.unsaved
      call s:show_cursors(a:r)
    endif
  endif
  if a:r.given > s:most_input / 2
    call s:send(a:r)
  endif
endfunction
