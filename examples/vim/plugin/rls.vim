" Edits a replica of rls in a buffer, and exchanges messages with other members through a shared folder. README.md tells how to use it.
"
"   :RlsOpen FILE              opens the shared text whose plain file this is (`rls share`, `rls join`); when it is closed, the file is written
"   :RlsOpen SHARED [NAME]     opens a text of a shared folder
"   :RlsOpen FOLDER SHARED     opens the replica of FOLDER; messages go through the folder SHARED. After a fault it opens the replica again in
"                              its buffer
"   :w                         stores, takes what came and sends what is new; timers do so too
"   u, Ctrl-R                  undo and redo own edits, whatever others did since (with the second version of the session)
"   :RlsUndo                   the same; with the first version it takes back the last own edit that isn't stored yet
"
" It speaks `rls session`, which docs/SESSION.md describes. The session counts characters, and Vim counts bytes and lines.
if exists('g:loaded_rls') || !has('channel') || !has('timers') || !exists('*blob2list')
  finish
endif
let g:loaded_rls = 1
let g:rls_program = get(g:, 'rls_program', 'rls')
let g:rls_every = get(g:, 'rls_every', 500)     " milliseconds between two looks into the shared folder
let g:rls_idle = get(g:, 'rls_idle', 1000)      " milliseconds without an edit, after which edits are stored and sent
let g:rls_most = get(g:, 'rls_most', 3000)       " milliseconds after which edits are stored and sent also while somebody types on
let g:rls_hold = get(g:, 'rls_hold', 3000)       " milliseconds for which what went waits for what is typed in its place (third version)
let g:rls_compare = get(g:, 'rls_compare', 15)  " seconds of comparing what one command changed, after which it goes on line by line
let g:rls_rename_at = get(g:, 'rls_rename_at', 500)   " runs of identifiers from which it renames (docs/USE.md); 0 for never
let g:rls_cursors = get(g:, 'rls_cursors', 1)   " whether to tell where the cursor is, and to show where those of others are (second version)
let g:rls_name = get(g:, 'rls_name', '')        " what others see beside the cursor

function RlsStatus() abort
  return rls#fault(bufnr('%')) . rls#state(bufnr('%'))
endfunction

command -nargs=+ -complete=file RlsOpen call rls#open(<f-args>)
command RlsUndo call rls#try('rls#undo#undo', bufnr('%'))
command RlsRedo call rls#try('rls#undo#redo', bufnr('%'))
