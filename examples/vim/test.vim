" Presses keys at random in two buffers of one Vim, which are two members, and compares the texts: RLS and ROOM are in the environment.
let g:rls_program = $RLS
let g:rls_every = 1000000
let g:rls_rename_at = 8
let s:keys = ["onew line\<Esc>", 'ggx', "GA\u00e9\U1F600\<Esc>", 'dd', 'u', 'p', 'J', 'yyP', '>>', 'ggVGd', "ia\\nb\<Esc>", "Go\<Esc>", "ggO\<Esc>", 'xp', 'ggguG~', "i\<C-V>000\<C-V>013\<Esc>",
      \ "Gome words that are long enough to be filled: \u00e9\u65e5\u672c e\<Esc>", ":%s/e/o/ge\<CR>", ":%s/o/e/ge\<CR>", ":%s/\\w\\+/&&/ge\<CR>", 'gggqG', ":sort\<CR>"]
let s:seed = srand(6)

function s:text(buf) abort
  return getbufline(a:buf, 1, '$')
endfunction

function s:shell(command) abort
  call system('cd "$ROOM/hostile" && { ' . a:command . '; }')
  if v:shell_error
    throw 'failed: ' . a:command
  endif
endfunction

function s:put(buf, text) abort
  execute 'buffer!' a:buf
  call append(0, a:text)
  doautocmd TextChanged
  write
endfunction

function s:want(is_right, what) abort
  if !a:is_right
    throw 'not so: ' . a:what . ': ' . RlsStatus()
  endif
endfunction

" What others may have put into the shared folder: links at the names of own messages and at the name that these had before, and at members'
" names a link, a pipe, a folder, a file that is too large and one that is no message.
function s:hostile() abort
  let g:rls_rename_at = 500
  let buffers = []
  for member in range(2)
    execute 'RlsOpen' $ROOM . '/h' . member $ROOM . '/hostile'
    call add(buffers, bufnr('%'))
  endfor
  call s:shell('rm *.rlsm; printf mine >../victim; for name in 0-1.rlsm.new 0-1.rlsm 0-3.rlsm.new; do ln -s "$ROOM/victim" 7-$name; done')
  call s:shell('mkdir 7-0-2.rlsm 7-4-0.rlsm; ln -s 7-1-0.rlsm 7-2-0.rlsm; mkfifo 7-3-0.rlsm; truncate -s 67108865 7-5-0.rlsm; echo junk >7-6-0.rlsm')
  call s:put(buffers[1], 'from b')
  call s:put(buffers[0], 'from a')
  call s:want(index(getline(1, '$'), 'from b') >= 0, 'from b')
  for message in ['of 2', 'of 3', 'of 4', 'of 5', 'of 6', 'to 2']
    call s:want(RlsStatus() =~# 'message ' . message . ': ', message)
  endfor
  call s:shell('rmdir 7-4-0.rlsm')
  write
  call s:want(RlsStatus() !~# 'message of 4', 'of 4 again')
  call s:shell('[ "$(cat ../victim)" = mine ] && [ ! -L 7-0-1.rlsm ] && : >../mode && [ "$(stat -c %a 7-0-3.rlsm)" = "$(stat -c %a ../mode)" ]')
  call s:shell('! ls -A | grep -q "^[.]new-"')
  execute 'buffer!' buffers[1]
  write
  call s:want(index(getline(1, '$'), 'from a') >= 0, 'from a')
  " A number from which nothing ever came doesn't get each message, and what sessions write to standard error makes no file for each.
  let sizes = {}
  for _ in range(30)
    call s:put(buffers[0], 'more')
    let sizes[getfsize($ROOM . '/hostile/7-0-7.rlsm')] = 1
  endfor
  call s:want(len(sizes) < 8, 'sizes ' . string(sizes))
  call s:want(len(glob(fnamemodify(tempname(), ':h') . '/*', 1, 1)) < 8, 'files: ' . string(glob(fnamemodify(tempname(), ':h') . '/*', 1, 1)))
  " The program may take longer than ten seconds, for example since another command stores into the folder.
  let g:rls_program = $ROOM . '/slow'
  call s:put(buffers[0], 'late')
  call s:want(RlsStatus() =~# '^member', 'a slow program')
  for buf in buffers
    execute 'bwipeout!' buf
  endfor
endfunction

" What others change elsewhere moves no mark from its line and no cursor from its character (second version).
function s:places() abort
  let buffers = []
  for member in range(2)
    execute 'RlsOpen' $ROOM . '/p' . member $ROOM . '/places'
    call add(buffers, bufnr('%'))
  endfor
  if maparg('u', 'n') ==# ''
    return
  endif
  set nostartofline
  execute 'buffer!' buffers[0]
  call setline(1, ['one', 'two', 'three', 'four', 'five'])
  normal! 3Gma
  call cursor(4, 3)
  for buf in [0, 1]
    execute 'buffer!' buffers[buf]
    write
  endfor
  for edit in ['1,2delete', 'call append(0, ["zero", "ONE", "o\\n\U1F600"])', 'call append(4, "and some more")', 'call setline(7, "Five")']
    execute edit
    call listener_flush()
  endfor
  for buf in [1, 0]
    execute 'buffer!' buffers[buf]
    write
  endfor
  call s:want(join(getline(1, '$'), '|') ==# "zero|ONE|o\\n\U1F600|three|and some more|four|Five", join(getline(1, '$'), '|'))
  call s:want(line("'a") == 4, 'the mark is in line ' . line("'a"))
  call s:want(line('.') == 6 && col('.') == 3, 'the cursor is at ' . string(getpos('.')))
  " Lines that changed at once are handed on one by one.
  execute 'buffer!' buffers[1]
  %s/e/E/g
  call listener_flush()
  for buf in [1, 0]
    execute 'buffer!' buffers[buf]
    write
  endfor
  call s:want(join(getline(1, '$'), '|') ==# "zEro|ONE|o\\n\U1F600|thrEE|and somE morE|four|FivE", join(getline(1, '$'), '|'))
  call s:want(line("'a") == 4 && line('.') == 6 && col('.') == 3, 'then the cursor is at ' . string(getpos('.')))
  for buf in buffers
    execute 'bwipeout!' buf
  endfor
endfunction

" Folders whose names have what names may have.
function s:odd() abort
  let top = $ROOM . "/ a b\n'$HOME\"*\\"
  call mkdir(top . '/m 0', 'p')
  call system('cd ' . shellescape(top . '/m 0') . ' && "$RLS" new 7 0 2')
  call rls#open(top . '/m 0', top . '/shared')
  call s:want(RlsStatus() =~# '^member 0 of 2', 'odd names')
  call s:put(bufnr('%'), 'odd')
  call s:want(filereadable(top . '/shared/7-0-1.rlsm'), 'a message in a folder with an odd name')
  bwipeout!
  call s:want(system('cd ' . shellescape(top . '/m 0') . ' && "$RLS" text') =~# 'odd', 'what is stored in a folder with an odd name')
endfunction

" Where there is no time left, lines are compared with lines, and not as one piece.
function s:no_time() abort
  let lines = map(range(400), {_, k -> printf('one %d two three', k)})
  let old = rls#lines#characters(lines)
  let new = rls#lines#characters(map(copy(lines), {_, x -> substitute(x, '\(\d\+\) two', 'two \1', '')}))
  let found = rls#compare#Compared(old, new, -1.0)
  call s:want(rls#compare#WasCut() && len(found) >= 400, len(found) . ' places')
  for [at, to, from, end] in reverse(found)
    let old = (at > 0 ? old[: at - 1] : []) + (end > from ? new[from : end - 1] : []) + old[to :]
  endfor
  call s:want(old ==# new, 'what the places make of the text')
  " A buffer that is opened again is compared by words all the same: otherwise its words would be there twice.
  let g:rls_compare = -1
  call s:want(rls#changes#joined(['one two', 'three'], ['one two', 'three four']) ==# ['one two', 'three four'], 'a buffer that is opened again')
  let g:rls_compare = 15
  call s:want(rls#changes#joined(['Then tea'], ['They tea']) ==# ['Then They tea'], 'two words at one place')
  " One word more, and another one goes to the next line.
  let here = ['a1 aaaa bbbb', 'cccc dddd eeee ffff gggg', 'hhhh iiii jjjj kkkk', 'llll mmmm']
  let shown = ['aaaa bbbb', 'cccc dddd eeee ffff', 'gggg hhhh iiii jjjj kkkk', 'llll mmmm']
  let words = split(join(rls#changes#joined(here, shown)))
  call s:want(words ==# split(join(here)), 'each word once: ' . join(words))
endfunction

try
  call s:no_time()
  let s:buffers = []
  for member in range(2)
    execute 'RlsOpen' $ROOM . '/' . member $ROOM . '/shared'
    call add(s:buffers, bufnr('%'))
  endfor
  for step in range(200)
    execute 'buffer!' s:buffers[rand(s:seed) % 2]
    silent! execute 'normal' s:keys[rand(s:seed) % len(s:keys)]
    doautocmd TextChanged
    if rand(s:seed) % 6 == 0
      execute rand(s:seed) % 3 ? 'RlsUndo' : 'RlsRedo'
    endif
    if rand(s:seed) % 4 == 0
      write
    endif
  endfor
  for _ in range(3)
    for buf in s:buffers
      execute 'buffer!' buf
      write
      if RlsStatus() !~# '^member . of 2$'
        throw 'status: ' . RlsStatus()
      endif
    endfor
  endfor
  if s:text(s:buffers[0]) !=# s:text(s:buffers[1])
    throw 'the texts differ'
  endif
  call writefile(s:text(s:buffers[0]), $ROOM . '/text', 'b')
  for buf in s:buffers
    execute 'bwipeout!' buf
  endfor
  call s:hostile()
  let g:rls_program = $RLS
  call s:places()
  call s:odd()
  qall!
catch
  call writefile([v:exception, v:throwpoint], '/dev/stderr', 'a')
  cquit!
endtry
