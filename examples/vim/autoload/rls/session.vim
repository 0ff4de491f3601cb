" One running `rls session` (docs/SESSION.md). Requests are sent at once, and their replies come in order: each is handed to the function that was
" given with its request. The session is in the dictionary of a replica.

" Begins a session.
function rls#session#start(r) abort
  let a:r.errors = get(a:r, 'errors', tempname())
  let a:r.job = job_start([g:rls_program, 'session'], {'cwd': a:r.folder, 'mode': 'raw', 'noblock': 1, 'drop': 'never', 'err_io': 'file', 'err_name': a:r.errors})
  let [a:r.have, a:r.at, a:r.waiting, a:r.telling, a:r.given, a:r.heard, a:r.is_begun] = [0z, 0, [], 0, 0, reltime(), 0]
  let newest = []
  for version in ['v 3', 'v 4']
    call rls#session#put(a:r, version, 0z, {reply, _, __ -> add(newest, reply)})
  endfor
  let a:r.telling = rls#session#ask(a:r, 'v')[0] ==# 'version 2' && rls#session#ask(a:r, 'c 1')[0] ==# 'telling 1'
  let a:r.version = !a:r.telling ? 1 : 2 + count(newest, 'version 3') + count(newest, 'version 4')
endfunction

" Whether other requests can be sent: if not, the program says why.
function rls#session#check(r) abort
  if ch_status(a:r.job) !=# 'open'
    call s:silent(a:r)
  endif
endfunction

" Sends a request, a string or a blob without its line feed, with the bytes that belong to it. The function gets the first line of its reply, the
" bytes after it, and the lines of changes, where those are told.
" What was changed in the buffer is handed on before.
function rls#session#send(r, request, data, Handler) abort
  if has_key(a:r, 'listener')
    call rls#changes#flush(a:r)
  endif
  call rls#session#put(a:r, a:request, a:data, a:Handler)
endfunction

" The same, and what was changed in the buffer stays as it is.
function rls#session#put(r, request, data, Handler) abort
  call rls#session#check(a:r)
  if empty(a:r.waiting)
    let a:r.heard = reltime()
  endif
  let kind = type(a:request) == v:t_blob ? nr2char(a:request[0]) : a:request[0]
  call add(a:r.waiting, [kind, a:Handler])
  call ch_sendraw(a:r.job, a:request)
  call ch_sendraw(a:r.job, "\n")
  if len(a:data) > 0
    call ch_sendraw(a:r.job, a:data)
  endif
  let a:r.given += len(a:request) + 1 + len(a:data)
  call rls#renaming#note(a:r, kind, len(a:request))
endfunction

" Sends a request and waits for its reply: the first line, the bytes after it, and the lines of changes.
function rls#session#ask(r, request, data = 0z) abort
  let answer = []
  call rls#session#send(a:r, a:request, a:data, {reply, bytes, changes -> extend(answer, [reply, bytes, changes])})
  while empty(answer)
    call s:read_more(a:r)
    call rls#session#pump(a:r)
  endwhile
  return answer
endfunction

" Waits until every request has its reply.
function rls#session#drain(r) abort
  call rls#session#pump(a:r)
  while !empty(a:r.waiting)
    call s:read_more(a:r)
    call rls#session#pump(a:r)
  endwhile
  call rls#session#check(a:r)
endfunction

" Hands on the replies that have come, without waiting.
function rls#session#pump(r) abort
  while ch_canread(a:r.job)
    let more = ch_readblob(a:r.job, {'timeout': 0})
    if len(more) == 0
      break
    endif
    call s:add(a:r, more)
  endwhile
  while !empty(a:r.waiting)
    let found = s:parse(a:r, a:r.waiting[0][0])
    if empty(found)
      return
    endif
    let Handler = remove(a:r.waiting, 0)[1]
    let [a:r.heard, a:r.is_begun] = [reltime(), 1]
    call Handler(found[0], found[1], found[2])
  endwhile
endfunction

" The whole reply to a request, which is taken out of what came; an empty list if it hasn't come whole.
function s:parse(r, kind) abort
  let feed = index(a:r.have, 10, a:r.at)
  if feed < 0
    return []
  endif
  let reply = feed == a:r.at ? '' : list2str(blob2list(a:r.have[a:r.at : feed - 1]))
  let [at, bytes, changes] = [feed + 1, 0z, []]
  if reply =~# '^\(text\|message\|stat\) '
    let size = str2nr(matchstr(reply, '\d\+'))
    if len(a:r.have) < at + size + 1
      return []
    endif
    let bytes = size == 0 ? 0z : a:r.have[at : at + size - 1]
    let at += size + 1
  elseif a:r.telling && stridx('idbruzym', a:kind) >= 0 && reply !=# 'bad'
    let feed = index(a:r.have, 10, at)
    if feed < 0
      return []
    endif
    let size = str2nr(matchstr(list2str(blob2list(a:r.have[at : feed])), '\d\+'))
    let from = feed + 1
    for _ in range(size)
      let feed = index(a:r.have, 10, feed + 1)
      if feed < 0
        return []
      endif
    endfor
    let changes = size == 0 ? [] : rls#session#lines_of(a:r.have[from : feed - 1])
    let at = feed + 1
  endif
  let a:r.at = at
  return [reply, bytes, changes]
endfunction

" The lines of bytes. In Vim's strings a line feed within a line means a NUL of the text.
function rls#session#lines_of(blob) abort
  if len(a:blob) > 0 && len(a:blob) < 1000 && index(a:blob, 0) < 0
    " Its bytes as characters, and these as bytes again.
    return split(iconv(list2str(blob2list(a:blob)), 'utf-8', 'latin1'), "\n", 1)
  endif
  let file = tempname()
  call writefile(a:blob, file)
  let lines = readfile(file, 'b')
  call delete(file)
  return empty(lines) ? [''] : lines
endfunction

" How many seconds a reply is waited for.
function rls#session#waits(r) abort
  return empty(a:r.waiting) ? 0 : float2nr(reltimefloat(reltime(a:r.heard)))
endfunction

" Waits for more of the session's output, as long as the program works: it may wait for another command in the folder. Ctrl-C ends that: Vim
" looks for it while it sleeps, and not while it reads.
function s:read_more(r) abort
  let [begun, told] = [reltime(), 0]
  let more = ch_readblob(a:r.job, {'timeout': 100})
  while len(more) == 0
    if job_status(a:r.job) !=# 'run'
      let more = ch_status(a:r.job, {'part': 'out'}) =~# 'open\|buffered' ? ch_readblob(a:r.job, {'timeout': 100}) : 0z
      if len(more) == 0
        call s:silent(a:r)
      endif
      break
    endif
    sleep 1m
    call s:look_at_keys(a:r)
    if float2nr(reltimefloat(reltime(begun))) > told + 1
      let told += 1
      redraw
      echo s:waits_for(a:r)
      redrawstatus
    endif
    let more = ch_readblob(a:r.job, {'timeout': 100})
  endwhile
  if told
    redraw
    echo
  endif
  call s:add(a:r, more)
endfunction

" Keeps more of what came, and no more of that what replies were.
function s:add(r, more) abort
  let [a:r.have, a:r.at] = [(a:r.at < len(a:r.have) ? a:r.have[a:r.at :] : 0z) + a:more, 0]
endfunction

" Whether the launcher has said that it waits for another one in the folder.
function s:is_locked(r) abort
  return !a:r.is_begun && s:errors(a:r) =~# 'waiting for it'
endfunction

function s:waits_for(r) abort
  if !s:is_locked(a:r)
    return 'rls: waiting for the program; Ctrl-C gives up'
  endif
  let holder = rls#files#holder(a:r.folder)
  return printf('rls: waiting for %s in this folder. Ctrl-C gives up%s', holder ==# '' ? 'the program' : holder, a:r.is_opening ? ', r shows the text' : '')
endfunction

" While a replica is opened whose folder another one has, `r` opens its text to be read alone.
function s:look_at_keys(r) abort
  if a:r.is_opening && s:is_locked(a:r)
    let key = getchar(0)
    if key == 3
      throw 'Vim:Interrupt'
    elseif key == char2nr('r')
      throw 'rls: to be read'
    endif
  endif
endfunction

" What the session has written to standard error.
function s:errors(r) abort
  return filereadable(a:r.errors) ? join(readfile(a:r.errors), ' ') : ''
endfunction

" Says why there is no session to talk with.
function s:silent(r) abort
  let why = s:errors(a:r)
  throw 'rls: the session ' . (job_status(a:r.job) ==# 'dead' ? 'ended' : 'gives no answer') . (why ==# '' ? '' : ': ' . why)
endfunction

" The number after this word in a reply; any other reply is an error.
function rls#session#number(reply, word) abort
  if a:reply !~# '^' . a:word . ' \d\+'
    throw 'rls: ' . a:reply
  endif
  return str2nr(matchstr(a:reply, '\d\+'))
endfunction

" What `rls stat` prints: of the stored file with the first version.
function rls#session#stat(r) abort
  if a:r.version >= 2
    return list2str(blob2list(rls#session#ask(a:r, 'n')[1]))
  endif
  let job = job_start([g:rls_program, 'stat'], {'cwd': a:r.folder, 'mode': 'raw', 'err_io': 'null'})
  let [numbers, more] = ['', ch_readraw(job, {'timeout': 10000})]
  while more !=# ''
    let numbers .= more
    let more = ch_readraw(job, {'timeout': 10000})
  endwhile
  return numbers
endfunction

" The text, in bytes.
function rls#session#text(r) abort
  let [reply, bytes, _] = rls#session#ask(a:r, 't')
  call rls#session#number(reply, 'text')
  return bytes
endfunction
