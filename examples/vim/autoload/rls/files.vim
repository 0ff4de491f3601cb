" Files in a folder that others write into.

" How many bytes a regular file has; -1 if there is none, or a link, a folder or a pipe: a folder that others write into may have any.
function rls#files#size(path) abort
  return getftype(a:path) ==# 'file' ? getfsize(a:path) : -1
endfunction

" The bytes of a file, or an empty list if nothing is there. What isn't a regular file, or is too large, isn't opened.
function rls#files#read(path, most) abort
  let kind = getftype(a:path)
  if kind ==# ''
    return []
  elseif kind !=# 'file'
    throw 'rls: it is no file'
  endif
  let size = getfsize(a:path)
  if size < 0 || size > a:most
    throw 'rls: it is too large'
  endif
  return [readblob(a:path)]
endfunction

" The first line of a small file; '' if there is none.
function s:line_of(path) abort
  return getftype(a:path) ==# 'file' && getfsize(a:path) < 4096 ? get(readfile(a:path, '', 1), 0, '') : ''
endfunction

" Who has a replica open, as the file `.rls-editor` in its folder says, which the editors' plugins write there: such as `Vim (4711)`. '' if it
" doesn't say, or if that one has ended.
function rls#files#holder(folder) abort
  let [all, pid, program; _] = matchlist(s:line_of(a:folder . '/.rls-editor'), '^\(\d\+\) \([[:print:]]\{1,40}\)$') + ['', '', '']
  return all ==# '' || (isdirectory('/proc/self') && !isdirectory('/proc/' . pid)) ? '' : printf('%s (%d)', program, pid)
endfunction

" Says, or says no more, that this Vim has a replica open.
function rls#files#hold(folder) abort
  silent! call writefile([getpid() . ' Vim'], a:folder . '/.rls-editor')
endfunction

function rls#files#let_go(folder) abort
  if s:line_of(a:folder . '/.rls-editor') ==# getpid() . ' Vim'
    call delete(a:folder . '/.rls-editor')
  endif
endfunction

" Writes a file so that whoever reads it sees none, or the old or the new one. It is made under a name that nobody can know before, so nobody
" can have put a link there, and a link at its own name is replaced and not written through.
function rls#files#write(path, data) abort
  let new = fnamemodify(a:path, ':h') . '/.new-' . sha256(tempname() . reltimestr(reltime()) . rand() . rand())
  if getftype(new) !=# ''
    throw 'rls: it has a name that is taken'
  endif
  try
    let answer = writefile(a:data, new, 's')
    let answer = answer ? answer : rename(new, a:path)
  catch /^Vim(let):E/
    " Vim names the file, whose name nobody knows, and not what the system says.
    let folder = fnamemodify(a:path, ':h')
    throw filewritable(folder) == 2 ? 'rls: it can not be written: ' . matchstr(v:exception, '^Vim(let):E\d*: \zs[^/"]*')
          \ : 'rls: no permission to write there (' . getfperm(folder) . ')'
  finally
    call delete(new)
  endtry
  if answer
    throw 'rls: it can not be written'
  endif
endfunction

" What tells whether a file is another one than before; '' if nothing is there. Times count seconds, so a file of just now is always another one.
function rls#files#mark_of(path) abort
  let kind = getftype(a:path)
  let time = getftime(a:path)
  return kind ==# '' ? '' : join([kind, getfsize(a:path), time, time > localtime() - 3 ? reltimestr(reltime()) : ''])
endfunction

" The number in the four bytes from here on.
function rls#files#u32(blob, at) abort
  return ((a:blob[a:at] * 256 + a:blob[a:at + 1]) * 256 + a:blob[a:at + 2]) * 256 + a:blob[a:at + 3]
endfunction
