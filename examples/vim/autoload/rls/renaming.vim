" When a session renames (docs/USE.md, "When to rename").

let s:run_bytes = 64      " so many bytes of a rename's operation count as a run
let s:plain_bytes = 200   " an own operation may have so many beside its text, and 4 for each member; more than that was spent
let s:latest = 4          " a rename is due in any case from one part in so many of the greatest operation on
let s:unknown = 1099511627776

" Notes a request: how many bytes of text were put in since the last look. What an undo puts in nobody knows.
function rls#renaming#note(r, kind, bytes) abort
  let a:r.put += a:kind =~# '[ei]' ? a:bytes : a:kind =~# '[uzy]' ? s:unknown : 0
endfunction

" Whether to rename now; it is done then. Where the program has no line `o`, or somebody else may have changed what is long, it looks only if an
" eighth of the limit has changed since it looked last.
function rls#renaming#is_due(r) abort
  if g:rls_rename_at <= 0
    return 0
  endif
  let is_long_ago = a:r.changes * 8 >= g:rls_rename_at
  let a:r.changes = is_long_ago ? 0 : a:r.changes
  let told = a:r.version >= 4 ? rls#session#ask(a:r, 'o')[0] : 'bad'
  if told !=# 'bad'
    return s:pays(a:r, s:costs(told), is_long_ago)
  endif
  let numbers = is_long_ago ? rls#session#stat(a:r) : ''
  return str2nr(matchstr(numbers, 'runs \zs\d\+')) > g:rls_rename_at * min([str2nr(matchstr(numbers, 'epochs \zs\d\+')), 8])
endfunction

" What a reply to `o` tells (docs/SESSION.md).
function s:costs(told) abort
  let [words, costs] = [split(a:told), {}]
  for k in range(0, len(words) - 2, 2)
    let costs[words[k]] = str2nr(words[k + 1])
  endfor
  return costs
endfunction

" A look that is long ago sees what all members did, and any look what this one spent.
function s:pays(r, costs, is_long_ago) abort
  call s:spend(a:r, a:costs)
  let is_large = a:costs.rename * s:latest > a:costs.limit || (a:costs.epochs == 1 && a:costs.rename > s:run_bytes * g:rls_rename_at)
  if a:r.spent <= a:costs.rename && !(a:is_long_ago && is_large)
    return 0
  endif
  let a:r.spent = 0
  " With the rename, which is one more operation, of that size.
  let a:r.own = [a:costs.own + 1, a:costs.bytes + a:costs.rename]
  return 1
endfunction

" Adds the bytes of own operations since the last look that no plain text needs.
function s:spend(r, costs) abort
  if !empty(a:r.own)
    " (Others may have taken some of them meanwhile.)
    let [own, size] = a:costs.own >= a:r.own[0] ? a:r.own : [0, 0]
    let a:r.spent += max([0, a:costs.bytes - size - a:r.put - (a:costs.own - own) * (s:plain_bytes + 4 * a:r.members)])
  endif
  let [a:r.own, a:r.put] = [[a:costs.own, a:costs.bytes], 0]
endfunction

" Tells that the rename was refused for this reason, once.
function rls#renaming#refused(r, reason) abort
  if !a:r.is_refusal_told
    let a:r.is_refusal_told = 1
    echomsg 'rls: the text can''t be renamed any more (' . a:reason . '), so files and messages stay large: `rls restart` begins anew with the text (docs/USE.md, "Where a limit is met")'
  endif
endfunction
