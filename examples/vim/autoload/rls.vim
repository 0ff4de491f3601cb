" Replicas in buffers: what is typed goes to the session as it is typed, and what others changed is put in place in the buffer. This file knows which
" buffer has which replica, opens and closes them, and is what commands, keys, timers and the status line call. What is done with a replica is in rls/:
" replica.vim begins it, changes.vim hands on what is typed, undo.vim takes it back, and exchange.vim stores, sends and takes.
let s:open = {}                                 " the replica of each buffer that has one
let s:busy = 0                                  " whether a request waits for its reply, so that no timer may ask another

" What `:RlsOpen` does: a replica that can't be opened is told in one line.
function rls#open(first = '', second = '', ...) abort
  let place = {}
  try
    if a:first ==# '' || a:0 > 0
      throw 'rls: say a file or a folder that is shared (:RlsOpen FILE, :RlsOpen SHARED [NAME]), or a replica: :RlsOpen FOLDER SHARED'
    endif
    let place = s:place(a:first, a:second)
    call s:open_replica(place)
  catch /^rls: to be read$/
    call s:show_text(place.folder)
  catch
    echohl ErrorMsg | echomsg v:exception | echohl None
  endtry
endfunction

" Where a text is: a replica and the folder for its messages, if these are named; otherwise what `rls where` finds, also its plain file and the own name.
function s:place(first, second) abort
  if rls#replica#is_in(a:first) || (a:second !=# '' && !rls#circle#is_in(a:first))
    if a:second ==# ''
      throw 'rls: say the shared folder, too: :RlsOpen FOLDER SHARED'
    endif
    return {'folder': rls#replica#full(a:first), 'shared': rls#replica#full(a:second), 'name': '', 'file': '', 'own': ''}
  endif
  return rls#circle#find(a:first, a:second)
endfunction

function s:open_replica(place) abort
  for [buf, other] in items(s:open)
    if other.folder ==# a:place.folder
      execute 'buffer' buf
      return other.failed ==# '' ? 0 : rls#replica#open_again(other)
    endif
  endfor
  call rls#circle#bring_in(a:place)
  let r = rls#replica#new(a:place)
  call s:show(r, rls#session#lines_of(rls#session#text(r)))
endfunction

" Shows the text of a replica that another one has open, to be read alone. `:e` reads it again.
function s:show_text(folder) abort
  enew
  setlocal buftype=nofile bufhidden=wipe noswapfile
  execute 'silent file' fnameescape('rls (read only):' . a:folder)
  call s:read_text(a:folder)
  augroup rls
    execute 'autocmd! * <buffer=' . bufnr('%') . '>'
    execute 'autocmd BufReadCmd <buffer=' . bufnr('%') . '> call s:read_text(' . string(a:folder) . ')'
  augroup END
endfunction

function s:read_text(folder) abort
  let file = tempname()
  let job = job_start([g:rls_program, 'text'], {'cwd': a:folder, 'in_io': 'null', 'out_io': 'file', 'out_name': file, 'err_io': 'null'})
  while job_status(job) ==# 'run'
    sleep 10m
  endwhile
  setlocal modifiable noreadonly
  call deletebufline('%', 1, '$')
  call setline(1, readfile(file, 'b'))
  call delete(file)
  setlocal nomodifiable readonly nomodified
endfunction

function s:show(r, lines) abort
  enew
  execute 'silent file' fnameescape(s:title(a:r))
  call s:fill(a:r, a:lines)
endfunction

" The name of a replica's buffer: that of the plain file, if it has one.
function s:title(r) abort
  let place = a:r.place
  return 'rls:' . (place.file !=# '' ? place.file : place.name !=# '' ? place.shared . '/' . place.name : place.folder)
endfunction

" Shows lines in the current buffer, which is empty, and edits the replica there.
function s:fill(r, lines) abort
  setlocal buftype=acwrite bufhidden=hide noswapfile noendofline nofixendofline fileformat=unix
  let a:r.buf = bufnr('%')
  let s:open[a:r.buf] = a:r
  let levels = &l:undolevels
  setlocal undolevels=-1
  call setline(1, a:lines)
  let &l:undolevels = levels
  let a:r.text = rls#lines#new(a:lines)
  setlocal nomodified statusline=rls:%t%m\ %#ErrorMsg#%{rls#fault(bufnr('%'))}%*%{rls#state(bufnr('%'))}%<%=%l,%c
  " Faults are told in the status line, and by default Vim shows none for a lone window.
  if &laststatus == 1
    set laststatus=2
  endif
  call rls#undo#map(a:r)
  call rls#changes#listen(a:r)
  call s:watch(a:r)
  call rls#circle#begin(a:r)
  call rls#exchange#begin(a:r)
endfunction

function s:watch(r) abort
  let buf = a:r.buf
  augroup rls
    execute 'autocmd! * <buffer=' . buf . '>'
    execute 'autocmd TextChanged,InsertLeave <buffer=' . buf . '> call rls#try("rls#changes#end_group", ' . buf . ')'
    execute 'autocmd BufWriteCmd <buffer=' . buf . '> call s:write(' . buf . ', expand("<afile>"))'
    execute 'autocmd BufUnload <buffer=' . buf . '> call s:close(' . buf . ')'
    execute 'autocmd BufReadCmd <buffer=' . buf . '> call s:read_again(' . string(a:r.place) . ')'
  augroup END
endfunction

" Calls a function with the replica of a buffer, and with what else is given. After a fault nothing more is done with the buffer, which keeps what it
" shows, until it is opened again.
function rls#try(Function, buf, ...) abort
  if s:busy || !has_key(s:open, a:buf) || s:open[a:buf].failed !=# ''
    return
  endif
  let s:busy = 1
  try
    call call(a:Function, [s:open[a:buf]] + a:000)
  catch
    call s:fail(s:open[a:buf], v:exception =~# '^Vim:Interrupt' ? 'rls: given up' : v:exception)
  finally
    let s:busy = 0
  endtry
  redrawstatus!
endfunction

function s:fail(r, why) abort
  let [a:r.failed, a:r.fault] = [a:why, 'NOT stored: ' . substitute(a:why, '^rls: ', '', '')]
  call timer_stop(get(a:r, 'timer', -1))
  call timer_stop(a:r.due)
  call setbufvar(a:r.buf, '&modified', 1)
  echohl ErrorMsg | echomsg 'rls: ' . a:r.fault | echohl None
endfunction

" The same after some milliseconds, and after some more if another request waits for its reply then. Answers the timer.
function rls#later(milliseconds, buf, Function) abort
  return timer_start(a:milliseconds, {_ -> s:busy ? rls#later(50, a:buf, a:Function) : rls#try(a:Function, a:buf)})
endfunction

" What is wrong with a buffer's replica: since a fault nothing is stored, and while its number may be used twice nothing is sent.
function rls#fault(buf) abort
  let r = get(s:open, a:buf, {})
  let waits = empty(r) ? 0 : rls#session#waits(r)
  if get(r, 'fault', '') !=# '' || waits < 3
    return get(r, 'fault', '') !=# '' ? r.fault : get(get(r, 'twice', {}), 'line', get(values(get(r, 'ahead', {})), 0, ''))
  endif
  return printf('NOT stored: the program has not answered for %d s', waits)
endfunction

" What else the status line says of it.
function rls#state(buf) abort
  let r = get(s:open, a:buf, {})
  if empty(r) || r.failed !=# ''
    return ''
  endif
  let problems = (r.is_away ? ', the shared folder is not there' : '') . join(values(map(copy(r.problems), {message, problem -> ', message ' . message . ': ' . problem})), '')
  let own = r.place.own ==# '' ? '' : r.place.own . ', '
  return printf('%s%smember %d of %d%s%s%s', rls#fault(a:buf) ==# '' ? '' : '; ', own, r.me, r.members, r.unsaved ? ', not stored' : '', rls#circle#wrote(r), problems)
endfunction

" What `:w` does: it stores and sends. After a fault it tries it anew.
function s:write(buf, file) abort
  let r = s:open[a:buf]
  if r.failed ==# ''
    call rls#try('rls#exchange#sync', a:buf)
  else
    try
      call rls#replica#open_again(r)
    catch
      call s:fail(r, v:exception)
    endtry
  endif
  call s:write_copy(a:buf, a:file)
endfunction

" What `:w FILE` does beside storing: it writes the text there, as `rls text` prints it.
function s:write_copy(buf, file) abort
  let own = has_key(s:open, a:buf) ? s:title(s:open[a:buf]) : ''
  if a:file ==# '' || strpart(a:file, len(a:file) - len(own)) ==# own
    return
  endif
  let lines = getbufline(a:buf, 1, '$')
  if writefile(lines, a:file, 'b') == 0
    echo printf('"%s" a copy of the text, %d lines', a:file, len(lines))
  endif
endfunction

" What `:e` does, which empties the buffer and ends the session: opens the replica in its buffer again.
function s:read_again(place) abort
  try
    call rls#circle#wait()
    let r = rls#replica#new(a:place)
    call s:fill(r, rls#session#lines_of(rls#session#text(r)))
  catch
    echohl ErrorMsg | echomsg v:exception | echohl None
  endtry
endfunction

" Stores what isn't stored. It isn't sent before the replica is opened again.
function s:close(buf) abort
  let r = s:open[a:buf]
  call rls#try('rls#changes#flush', a:buf)
  call remove(s:open, a:buf)
  call listener_remove(r.listener)
  call timer_stop(get(r, 'timer', -1))
  call timer_stop(r.due)
  if r.failed ==# ''
    call rls#session#ask(r, 'q')
  else
    " At the end of its input a session stores too, and then the folder is free. It may have ended already.
    silent! call ch_close_in(r.job)
  endif
  call rls#files#let_go(r.folder)
  call delete(r.errors)
  call rls#circle#end(r)
endfunction
