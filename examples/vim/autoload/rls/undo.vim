" Undo and redo of own edits, whatever others did since: what `u`, Ctrl-R, `:RlsUndo` and `:RlsRedo` do.

" Sends the request for it, and makes what it changed in the buffer. Answers whether there was something, and says so if there wasn't.
function s:take_back(r, request, nothing) abort
  call rls#changes#flush(a:r)
  call rls#session#drain(a:r)
  let [reply, _, changes] = rls#session#ask(a:r, a:request)
  if reply ==# 'no nothing'
    echo a:nothing
    return 0
  elseif reply =~# '^no '
    throw 'rls: ' . reply
  endif
  if a:r.version >= 2
    let at = rls#buffer#apply(a:r, changes)
    if at >= 0 && bufnr('%') == a:r.buf
      let [line, byte] = rls#lines#find(a:r.text, at)
      call cursor(line, byte + 1)
    endif
  else
    call rls#buffer#compare(a:r)
  endif
  let [a:r.boundary, a:r.is_cut] = [1, 0]
  call rls#exchange#is_edited(a:r, 0)
  return 1
endfunction

" Undoes or does again as often as is said, as far as there is something.
function rls#undo#times(r, count, what) abort
  for _ in range(a:count)
    if !call('rls#undo#' . a:what, [a:r])
      return
    endif
  endfor
endfunction

function rls#undo#undo(r) abort
  return s:take_back(a:r, a:r.version >= 2 ? 'z' : 'u', 'Already at oldest change')
endfunction

function rls#undo#redo(r) abort
  return a:r.version >= 2 && s:take_back(a:r, 'y', 'Already at newest change')
endfunction

" What the keys `u` and Ctrl-R do with the second version, and later. Vim's own undo would take back what others wrote.
function rls#undo#map(r) abort
  if a:r.version >= 2
    call setbufvar(a:r.buf, '&undolevels', -1)
    nnoremap <buffer> <silent> u :<C-U>call rls#try('rls#undo#times', bufnr('%'), v:count1, 'undo')<CR>
    nnoremap <buffer> <silent> <C-R> :<C-U>call rls#try('rls#undo#times', bufnr('%'), v:count1, 'redo')<CR>
  endif
endfunction
