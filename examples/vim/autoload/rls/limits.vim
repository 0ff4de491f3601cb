" What a user is told before a limit is met: once, in plain words, with the command that helps (docs/USE.md, "Where a limit is met").

let s:nearly_full = 241591911   " nine tenths of what a stored file may have
let s:most_kept = 4194304       " so many bytes for one member, of whom nothing came for so many seconds
let s:most_silent = 7 * 86400

" Looks at the messages to others, by member, and at the stored file; the path of a member's last message is what the function answers.
function rls#limits#tell(r, messages, PathOf) abort
  call s:tell_once(a:r, 'file', s:of_file(a:r.folder))
  for [to, message] in items(a:messages)
    call s:tell_once(a:r, to, s:of_member(to, len(message), a:PathOf(to)))
  endfor
endfunction

function s:tell_once(r, what, line) abort
  if a:line !=# '' && !has_key(a:r.limits, a:what)
    let a:r.limits[a:what] = 1
    echomsg 'rls: ' . a:line
  endif
endfunction

" The size that both slots tell, or the last but one store had: the first eight bytes of each.
function s:of_file(folder) abort
  let size = -1
  for slot in ['/replica.0', '/replica.1']
    if getfsize(a:folder . slot) < s:nearly_full
      return ''
    endif
    let head = readblob(a:folder . slot, 0, 8)
    let told = rls#files#u32(head, 0) * 4294967296 + rls#files#u32(head, 4)
    let size = size < 0 ? told : min([size, told])
  endfor
  return size < s:nearly_full ? '' : 'the stored file has ' . size . ' bytes of the 268435456 that it may have. When it is full, nothing can be stored any more.'
        \ . ' It gets shorter once messages show that the others have what is in it. If that doesn''t help, `rls restart` begins anew with the text'
endfunction

" A message to a member that has become long, while nothing has come from it for long.
function s:of_member(to, size, path) abort
  let came = getftime(a:path)
  if a:size < s:most_kept || (came >= 0 && localtime() - came < s:most_silent)
    return ''
  endif
  let since = came < 0 ? 'of whom nothing ever came' : 'of whom nothing has come since ' . strftime('%Y-%m-%d', came)
  let help = came < 0 ? '`rls retire ' . a:to . '` ends that, if nobody will use the number' : 'if that member won''t come back, `rls restart` goes on in a new group with the text'
  return 'each file keeps ' . a:size . ' bytes for member ' . a:to . ', ' . since . '; each message to it has them again: ' . help
endfunction
