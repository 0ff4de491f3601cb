" How a replica sees that another one has its number (examples/README.md, "When a number is used twice"). In its own folder it keeps a token that
" nobody else has, and what it wrote last into a shared folder; there it keeps a file whose name has its number and the token.
let s:most = 4096                               " bytes of a file that shows a token

function s:word() abort
  return sha256(tempname() . reltimestr(reltime()) . rand() . rand())[:15]
endfunction

" Writes a line in place, so that it is whole at each moment; Vim itself would empty the file before. Answers whether it could.
function s:write(path, line) abort
  let file = tempname()
  call writefile([a:line], file)
  let job = job_start(['dd', 'of=' . a:path, 'conv=notrunc,fsync'], {'in_io': 'file', 'in_name': file, 'out_io': 'null', 'err_io': 'null'})
  while job_status(job) ==# 'run'
    sleep 1m
  endwhile
  call delete(file)
  return job_info(job).exitval == 0
endfunction

" The words of the first line of a small file, as a pattern finds them; empty if there is no such file.
function s:words_of(path, pattern) abort
  try
    let found = rls#files#read(a:path, s:most)
    return empty(found) ? [] : matchlist(rls#session#lines_of(found[0])[0], a:pattern)[1:3]
  catch /^rls:\|^Vim(\(return\|let\)):E48\d/
    return []
  endtry
endfunction

" What this replica wrote: its token, how many times in 20 digits, and what it called the last time; or, with `is_more`, what it is about to write.
" Empty if its folder may not be written. A session holds the folder against others.
function s:own(folder, is_more) abort
  let path = a:folder . '/replica.token'
  let kind = getftype(path)
  if kind ==# '' ? filewritable(a:folder) != 2 : kind !=# 'file' || filewritable(path) != 1
    return []
  endif
  let was = s:words_of(path, '\C^\([0-9a-f]\{16}\) \(\d\{20}\) \([0-9a-f]\{16}\)$')
  if !empty(was) && !a:is_more
    return was
  endif
  let now = empty(was) ? [s:word(), printf('%020d', 0), s:word()] : [was[0], printf('%020d', str2nr(was[1]) + 1), s:word()]
  return s:write(path, join(now)) ? now : []
endfunction

function s:path(r, token) abort
  return printf('%s/%s-%d-%s.member', a:r.shared, a:r.group, a:r.me, a:token)
endfunction

" Says in the shared folder that this replica writes, before it does.
function rls#tokens#show(r) abort
  let now = s:own(a:r.folder, 1)
  if !empty(now)
    call rls#files#write(s:path(a:r, now[0]), [substitute(now[1], '^0*\ze\d', '', '') . ' ' . now[2]])
  endif
endfunction

" From now on nothing is taken and nothing is written, since a file shows that this replica's number is used twice.
function rls#tokens#stop(r, path, why) abort
  let a:r.twice = {'path': a:path, 'line': printf('NOT sent: number %d is used twice, as %s shows', a:r.me, fnamemodify(a:path, ':t'))}
  let a:r.is_stopped = 1
  echohl ErrorMsg
  echomsg printf('rls: number %d of text %s is used twice: %s, as %s shows. Nothing is taken or sent until that file is gone: docs/USE.md, "A number used twice"',
        \ a:r.me, a:r.group, a:why, a:path)
  echohl None
endfunction

" Why a file in the shared folder shows that another one than this replica has its number; '' if it doesn't show that.
function s:why(own, path) abort
  if fnamemodify(a:path, ':t:r') !~# '-' . a:own[0] . '$'
    return 'another replica has this number'
  endif
  let [times, last] = (s:words_of(a:path, '\C^\(\d\{1,20}\) \([0-9a-f]\{16}\)') + ['', ''])[:1]
  let times = repeat('0', 20 - len(times)) . times
  return last !=# '' && (times ># a:own[1] || (times ==# a:own[1] && last !=# a:own[2])) ? 'a copy of this replica wrote there, or its files were put back from one' : ''
endfunction

" The names in the shared folder that show who writes with this number; none if it can't be read.
function s:names(r) abort
  try
    return filter(readdir(a:r.shared), {_, name -> name =~# printf('^%s-%d-[0-9a-f]\{16}\.member$', a:r.group, a:r.me)})
  catch /^Vim(return):E484/
    return []
  endtry
endfunction

" Whether this replica may take and write. If not, it stays so until the file that shows it is gone.
function rls#tokens#may(r) abort
  if !empty(a:r.twice) && getftype(a:r.twice.path) !=# ''
    return 0
  endif
  let a:r.twice = {}
  let names = s:names(a:r)
  let own = empty(names) ? [] : s:own(a:r.folder, 0)
  for name in empty(own) ? [] : names
    let path = a:r.shared . '/' . name
    let why = s:why(own, path)
    if why !=# ''
      call rls#tokens#stop(a:r, path, why)
      return 0
    endif
  endfor
  return 1
endfunction
