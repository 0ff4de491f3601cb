" A replica: the dictionary in which all is that is known of one, and which the other parts are given. How it begins, and how it begins again after a
" fault.

" The whole path of a folder.
function rls#replica#full(path) abort
  return substitute(fnamemodify(a:path, ':p'), '/$', '', '')
endfunction

" Which member this is: the head of a message tells it. A message to oneself has a head alone.
function s:learn(r) abort
  let me = a:r.version >= 2 ? str2nr(matchstr(rls#session#stat(a:r), 'me \zs\d\+')) : 0
  let a:r.head = rls#session#ask(a:r, 's ' . me)[1]
  let [a:r.members, a:r.me, a:r.group] = [rls#files#u32(a:r.head, 13), rls#files#u32(a:r.head, 17), 0]
  for byte in blob2list(a:r.head[5:12])
    let a:r.group = a:r.group * 256 + byte
  endfor
  let a:r.group = printf('%u', a:r.group)
endfunction

" Whether a replica is in a folder.
function rls#replica#is_in(folder) abort
  let folder = rls#replica#full(a:folder)
  return getftype(folder . '/replica.gate') !=# '' || getftype(folder . '/replica.rls') !=# ''
endfunction

" Looks whether a replica is in a folder: the program may have its files open, and store into them, when nobody finds them there any more.
function rls#replica#look_for(folder) abort
  if !isdirectory(a:folder)
    throw 'rls: there is no folder ' . a:folder
  elseif !rls#replica#is_in(a:folder)
    throw printf('rls: there is no replica in %s; `rls new GROUP ME MEMBERS` begins one there', a:folder)
  endif
endfunction

" A replica with its session, which has no buffer as yet. The place is its folder, the shared one, and for a text of a circle the text's name, its
" plain file if it has one, and what this member is called.
function rls#replica#new(place) abort
  let r = {'place': a:place, 'folder': a:place.folder, 'shared': a:place.shared, 'wrote': [], 'taken': {}, 'sent': {}, 'seen': {}, 'problems': {}, 'failed': '',
        \ 'fault': '', 'is_opening': 1, 'told': [], 'silent': 0, 'edition': 0, 'is_cut': 0, 'boundary': 0, 'steps': 0, 'behind': 0,
        \ 'unsaved': 0, 'since': 0, 'waits_until': 0, 'due': -1, 'changes': g:rls_rename_at, 'put': 0, 'spent': 0, 'own': [], 'limits': {}, 'is_refusal_told': 0, 'shown': -1,
        \ 'cursor': '', 'places': {}, 'is_lookup_due': 0, 'last': {}, 'marks': {}, 'looked': 0, 'is_away': 0, 'twice': {}, 'is_stopped': 0,
        \ 'ahead': {}, 'labels': {}}
  call rls#replica#look_for(r.folder)
  if &encoding !=# 'utf-8'
    throw 'rls: Vim has to work in UTF-8: put `set encoding=utf-8` into your vimrc'
  endif
  call s:keep_apart(r.folder, r.shared)
  if !isdirectory(r.shared)
    call mkdir(r.shared, 'p', 0o777)
    echomsg 'rls: made the shared folder' . (getfperm(r.shared)[4] ==# 'w' ? '' : '; nobody else on this machine may write into it')
  endif
  try
    call rls#session#start(r)
    call s:learn(r)
  catch
    if has_key(r, 'job')
      call job_stop(r.job)
    endif
    throw v:exception =~# '^Vim:Interrupt' ? 'rls: given up' : substitute(v:exception, '^Vim', 'rls: Vim', '')
  endtry
  let r.is_opening = 0
  call rls#files#hold(r.folder)
  return r
endfunction

" The files of a replica are its member's own: with the messages, others would write over them, and a synchroniser would put older ones there.
function s:keep_apart(folder, shared) abort
  let [folder, shared] = [resolve(a:folder), resolve(a:shared)]
  if folder ==# shared || stridx(folder, shared . '/') == 0
    throw 'rls: the shared folder needs to be another one, in which the folder of the replica is not'
  endif
endfunction

" Opens the replica of a buffer again after a fault. What was typed and isn't in the replica is put in again; nothing is deleted, since what isn't
" in the buffer may be of others.
function rls#replica#open_again(r) abort
  call rls#replica#end(a:r)
  call rls#replica#look_for(a:r.folder)
  try
    call rls#session#start(a:r)
    let [a:r.behind, a:r.boundary, a:r.is_cut, a:r.unsaved, a:r.taken, a:r.seen, a:r.told, a:r.ahead] = [0, 1, 0, 0, {}, {}, [], {}]
    call rls#mailbox#take(a:r, [])
    let stored = rls#session#lines_of(rls#session#text(a:r))
  catch
    call job_stop(a:r.job)
    throw v:exception =~# '^Vim:Interrupt' ? 'rls: given up' : v:exception
  endtry
  let a:r.failed = ''
  call rls#files#hold(a:r.folder)
  let shown = getbufline(a:r.buf, 1, '$')
  let joined = rls#changes#joined(stored, shown)
  let a:r.silent = 1
  if joined !=# shown
    call rls#buffer#show(a:r, joined)
  endif
  call listener_flush(a:r.buf)
  let [a:r.silent, a:r.text] = [0, rls#lines#new(stored)]
  if joined !=# stored
    let a:r.told = [1, len(stored) + 1, len(joined) + 1]
  endif
  call rls#exchange#begin(a:r)
endfunction

" Ends a session with which something is wrong. At the end of its input it stores, and then the folder is free; one that does nothing is killed.
function rls#replica#end(r) abort
  silent! call ch_close_in(a:r.job)
  for _ in range(30)
    if job_status(a:r.job) !=# 'run'
      return
    endif
    sleep 100m
  endfor
  call job_stop(a:r.job, 'kill')
endfunction
