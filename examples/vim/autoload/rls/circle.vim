" Circles (docs/SHARING.md): `rls where` tells which replica belongs to a file or a text of a shared folder. `rls sync FILE` brings the plain file and
" the replica together before an editor opens the text, and after it has closed it. While one is open, `rls sync --tend` does in the background what
" others wait for, such as a number for somebody who joins, and `rls who` tells who they are.
let s:look_every = 5000                         " milliseconds between two looks at who asks for a number
let s:looks = 12                                " looks after which it is done in any case
let s:patience = 3000                           " milliseconds that an end of Vim, or `:e`, waits for plain files
let s:places = {}                               " of the buffers that show a text of a circle
let s:tended = {}                               " by shared folder: what is known of its circle
let s:timer = -1
let s:closing = []                              " jobs that write the plain files of texts that were closed

" What a program writes goes into these files.
function s:files() abort
  return {'out': tempname(), 'errors': tempname()}
endfunction

function s:start(words, files, options = {}) abort
  if !executable(g:rls_program)
    throw printf('rls: there is no program %s on the path (docs/INSTALL.md)', g:rls_program)
  endif
  return job_start([g:rls_program] + a:words, extend({'in_io': 'null', 'out_io': 'file', 'out_name': a:files.out, 'err_io': 'file', 'err_name': a:files.errors}, a:options))
endfunction

function s:read(path) abort
  let lines = filereadable(a:path) ? readfile(a:path) : []
  call delete(a:path)
  return lines
endfunction

" The last line by which the program says what is wrong.
function s:said(lines) abort
  let told = filter(copy(a:lines), {_, line -> line =~# '^rls: '})
  return get(empty(told) ? a:lines : told, -1, '')
endfunction

" Runs the program, and waits for it: its status, what it printed, and what was wrong.
function s:run(words) abort
  let files = s:files()
  let job = s:start(a:words, files)
  try
    while job_status(job) ==# 'run'
      sleep 10m
    endwhile
  catch /^Vim:Interrupt/
    call job_stop(job)
    throw 'rls: given up'
  endtry
  return [job_info(job).exitval, s:read(files.out), s:read(files.errors)]
endfunction

" Why `rls where` has found nothing, in words for whoever named the path.
function s:why(path, status, errors) abort
  if a:status == 1
    return printf('rls: %s has no command `where`: it is older than 0.11.0, or another program of that name. :RlsOpen REPLICA SHARED does without', g:rls_program)
  elseif a:status != 2 || s:said(a:errors) !~# 'is neither a shared folder'
    return substitute(s:said(a:errors), '^\(rls: \)\?', 'rls: ', '')
  elseif getftype(a:path) ==# ''
    return 'rls: there is no ' . a:path
  endif
  let file = isdirectory(a:path) ? 'FILE' : fnamemodify(a:path, ':t')
  return printf('rls: %s is not shared. This shares it: rls share %s %s', fnamemodify(a:path, ':t'), isdirectory(a:path) ? a:path : 'SHARED', file)
endfunction

" The text of a circle that a file, or a shared folder with or without the text's name, means. Where several are meant, somebody chooses.
function rls#circle#find(path, name) abort
  let path = rls#replica#full(a:path)
  let [status, rows, errors] = s:run(['where', path] + (a:name ==# '' ? [] : [a:name]))
  if status != 0
    throw s:why(path, status, errors)
  endif
  call filter(map(rows, 'split(v:val, "\t", 1)'), 'len(v:val) == 5')
  if empty(rows)
    throw printf('rls: there is no text %s in %s, or it has not come yet: `rls sync %s` fetches it', a:name, path, path)
  endif
  let chosen = len(rows) == 1 ? 1 : inputlist(['rls: which text?'] + map(copy(rows), {k, row -> (k + 1) . ' ' . row[2]}))
  if chosen < 1 || chosen > len(rows)
    throw 'rls: no text was chosen'
  endif
  let row = rows[chosen - 1]
  return {'folder': row[0], 'shared': row[1], 'name': row[2], 'file': row[3] ==# '-' ? '' : row[3], 'own': row[4]}
endfunction

" Before a text is opened: what was changed in its plain file goes in. What is wrong with it is told, and the text is opened all the same.
function rls#circle#bring_in(place) abort
  if a:place.file !=# ''
    let [status, _, errors] = s:run(['sync', a:place.file])
    if status != 0 && status != 73
      echomsg s:said(errors)
    endif
  endif
endfunction

" After a text was closed: its plain file is written, which Vim's end leaves to go on.
function s:write_file(place) abort
  let files = s:files()
  try
    let job = s:start(['sync', '--wait', '10', a:place.file], files, {'stoponexit': '', 'exit_cb': {_, status -> s:written(status, files)}})
    call add(s:closing, job)
  catch /^rls: /
    echomsg v:exception
  endtry
endfunction

function s:written(status, files) abort
  call delete(a:files.out)
  let errors = s:read(a:files.errors)
  if a:status != 0 && !empty(errors)
    echohl ErrorMsg | echomsg s:said(errors) | echohl None
  endif
endfunction

" Waits for a moment until the plain files of texts that were closed are written.
function rls#circle#wait() abort
  let begun = reltime()
  while !empty(filter(s:closing, {_, job -> job_status(job) ==# 'run'})) && reltimefloat(reltime(begun)) * 1000 < s:patience
    sleep 10m
  endwhile
endfunction

" From now on a buffer shows a text of a circle.
function rls#circle#begin(r) abort
  if empty(a:r.place)
    return
  endif
  let s:places[a:r.buf] = a:r
  let s:tended[a:r.shared] = get(s:tended, a:r.shared, {'looks': 0, 'asks': [], 'names': {}, 'told': '', 'job': 0})
  let a:r.names = s:tended[a:r.shared].names
  if s:timer < 0
    let s:timer = timer_start(s:look_every, {_ -> s:look()}, {'repeat': -1})
    augroup rls_circle
      autocmd! VimLeave * call rls#circle#wait()
    augroup END
  endif
  call s:look()
endfunction

" It shows none any more.
function rls#circle#end(r) abort
  if empty(a:r.place)
    return
  endif
  call remove(s:places, a:r.buf)
  if empty(s:places)
    call timer_stop(s:timer)
    let s:timer = -1
  endif
  if a:r.place.file !=# ''
    call s:write_file(a:r.place)
  endif
endfunction

" The names in a folder that end so; none if it can't be read.
function s:names(folder, end) abort
  try
    return readdir(a:folder, {name -> name =~# '\.' . a:end . '$'})
  catch /^Vim(return):E484/
    return []
  endtry
endfunction

" Whether a circle was begun in a folder.
function rls#circle#is_in(folder) abort
  return !empty(s:names(rls#replica#full(a:folder), 'circle'))
endfunction

" Does what others wait for in each circle of which a text is open: where somebody else asks than before, and each minute.
function s:look() abort
  for shared in uniq(sort(map(values(s:places), 'v:val.shared')))
    let known = s:tended[shared]
    let asks = s:names(shared, 'ask')          " who asks for a number
    let is_due = known.looks % s:looks == 0 || asks !=# known.asks
    let known.looks += 1
    if is_due && !s:runs(known.job)
      let [known.asks, files] = [asks, s:files()]
      let known.job = s:start_or_none(['sync', '--tend', shared], files, {'exit_cb': {_, status -> s:has_tended(shared, status, files)}})
    endif
  endfor
endfunction

function s:runs(job) abort
  return type(a:job) == v:t_job && job_status(a:job) ==# 'run'
endfunction

function s:start_or_none(words, files, options) abort
  try
    return s:start(a:words, a:files, a:options)
  catch /^rls: /
    return 0
  endtry
endfunction

" What stands in the way is told once: whoever isn't safe to go on has to know.
function s:has_tended(shared, status, files) abort
  call delete(a:files.out)
  let [line, known] = [s:said(s:read(a:files.errors)), s:tended[a:shared]]
  if a:status == 71 && line !=# known.told
    echohl ErrorMsg | echomsg line | echohl None
  endif
  let known.told = a:status == 71 ? line : ''
  let files = s:files()
  let known.job = s:start_or_none(['who', a:shared], files, {'exit_cb': {_, __ -> s:has_names(a:shared, files)}})
endfunction

" The names of the members, as `rls who` prints them.
function s:has_names(shared, files) abort
  call delete(a:files.errors)
  let names = s:tended[a:shared].names
  for line in s:read(a:files.out)
    let found = matchlist(line, '^ *\(\d\+\) \(.\{-}\S\) \+\(never\|\d\d \S\+ \d\d:\d\d\) ')
    if !empty(found) && get(names, found[1], '') !=# found[2]
      let names[found[1]] = found[2]
      for r in filter(values(s:places), {_, r -> r.shared ==# a:shared})
        let r.is_lookup_due = 1
      endfor
    endif
  endfor
  redrawstatus!
endfunction

" Who wrote last, for the status line, if it is known what that one is called.
function rls#circle#wrote(r) abort
  let name = empty(a:r.wrote) ? '' : rls#circle#name(a:r, a:r.wrote[0])
  return name ==# '' ? '' : printf(', %s wrote at %s', name, a:r.wrote[1])
endfunction

" What a member is called.
function rls#circle#name(r, member) abort
  return get(get(a:r, 'names', {}), a:member, '')
endfunction
