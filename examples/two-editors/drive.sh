# Functions for tests that type into a real editor in tmux. It is read by bash; RLS names the program.
# Member 0 is in the editor. Member 1 is here and works by commands. Their messages go through the folder $room/shared.
# shellcheck shell=bash

RLS=${RLS:-$(cd -P "$(dirname "${BASH_SOURCE[0]}")/../../bin" && pwd)/rls}
export RLS
room=$(mktemp -d)
socket=rls-$$
leave_tmux() { tmux -L "$socket" kill-server 2>/dev/null || true; }
trap 'leave_tmux; rm -rf "$room"' EXIT

# Two fresh replicas and the folder between them.
replicas() {
  rm -rf "$room/ada" "$room/ben" "$room/shared"
  mkdir -p "$room/ada" "$room/ben" "$room/shared"
  (cd "$room/ada" && "$RLS" new 7 0 2 >/dev/null)
  (cd "$room/ben" && "$RLS" new 7 1 2 >/dev/null)
}

# Opens a pane of tmux with this command. A tmux that is just ending, with its last pane, opens none.
begin() {
  for _ in {1..50}; do
    if tmux -L "$socket" -f /dev/null new-session -d -s test -x 100 -y 24 "$1" 2>"$room/tmux"; then return; fi
    sleep 0.1
  done
  cat "$room/tmux"
  return 1
}

# Types into the pane: each word is a name of a key, such as Escape, or a text.
keys() {
  tmux -L "$socket" send-keys -t "${pane:-test}" "$@"
  sleep "${pause:-0.1}"
}

# Types a text as it is.
type_text() {
  tmux -L "$socket" send-keys -t "${pane:-test}" -l "$1"
  sleep "${pause:-0.1}"
}

screen() { tmux -L "$socket" capture-pane -p -t "${pane:-test}"; }

# Member 1 takes what came.
ben_takes() {
  local message=$room/shared/7-0-1.rlsm
  [ ! -f "$message" ] || (cd "$room/ben" && "$RLS" take <"$message" >/dev/null)
}

# Member 1 edits and sends.
ben_edits() {
  ben_takes
  (cd "$room/ben" && printf '%s\n' "$@" | "$RLS" edit >/dev/null && "$RLS" send 0 >"$room/shared/.new" && mv "$room/shared/.new" "$room/shared/7-1-0.rlsm")
}

ben_text() { (cd "$room/ben" && "$RLS" text); }

# Waits until a command prints this, for RLS_PATIENCE seconds (two minutes) or more; $1 says what is looked at.
wait_for() {
  local found
  for _ in $(seq $((5 * ${RLS_PATIENCE:-120}))); do
    found=$("${@:3}" && echo .) || true
    [ "$found" = "$2." ] && { echo "ok      $1"; return 0; }
    sleep 0.2
  done
  printf 'FAILED  %s: wanted %.300q, found %.300q\n' "$1" "$2" "${found%.}"
  screen
  exit 1
}

taken_text() { ben_takes && ben_text; }

# Waits until member 1 has this text.
ben_has() { wait_for "$1" "$2" taken_text; }

screen_has() { screen | grep -qF -- "$1" && printf yes; }

# Waits until the editor shows this.
shows() { wait_for "$1" yes screen_has "$2"; }

# Two fresh replicas, of which the editor that $1 begins has one, and what member 1 wrote by these edits, of which $2 is seen.
begin_with() {
  replicas
  begin "$1"
  shows 'the status line' 'member 0 of 2'
  ben_edits "${@:3}"
  shows 'the text' "$2"
}

stored_text() { (cd "$room/ada" && "$RLS" text); }

# What member 0 types into its editor, and what both members then have. An editor's test says how, by these functions: append TEXT (types at
# the place where the editor waits), to_end (goes to the end of the text's first line), replace_last_line TEXT, type_at_end TEXT,
# delete_first_line, never_idle (from now on no pause is long enough to send), hold_back (nothing is sent from now on, unless `store` asks for
# it), go_on (as at the beginning), take_back, store and leave_editor.
play_typing() {
  replicas
  begin "$1"
  shows 'the status line' 'member 0 of 2'
  append 'Bread and tea'
  ben_has 'what was typed is sent' 'Bread and tea'
  ben_edits 'i 0 Butter, ' 'i 21 \nJam'
  shows 'what others typed is shown' 'Butter, Bread and tea'
  append '!'
  ben_has 'the cursor has moved with its character' $'Butter, Bread and tea!\nJam'
  replace_last_line 'Salt \ é😀'
  ben_has 'lines, a backslash, and characters of two and four bytes' $'Butter, Bread and tea!\nSalt \\ é😀'
  never_idle
  type_at_end '+'
  ben_has 'what is typed is sent also while somebody types on' $'Butter, Bread and tea!\nSalt \\ é😀+'
  hold_back
  delete_first_line
  shows 'a deletion that is not stored' 'not stored'
  ben_edits 'i 33 ?'
  shows 'what others typed meanwhile' '?'
  take_back
  store
  wait_for 'an undo leaves what others did' $'Butter, Bread and tea!\nSalt \\ é😀+?' stored_text
  go_on
  to_end
  # A thousand keys at once, three times, while member 1 writes each 0.7 s.
  local keys burst=''
  keys=$(printf 'k%.0s' {1..1000})
  (for _ in 1 2 3 4 5 6; do sleep 0.7; ben_edits 'i 0 -'; done) &
  for _ in 1 2 3; do
    append "$keys"
    burst+=$keys
    sleep 1
  done
  wait $!
  ben_has 'keys that are typed faster than any timer, while others write' "------Butter, Bread and tea!$burst"$'\nSalt \\ é😀+?'
  begin_of_stored() { stored_text | head -c 12; }
  wait_for 'all that others wrote is stored' '------Butter' begin_of_stored
  shows 'no fault after that' 'member 0 of 2'
  append end
  leave_editor
  wait_for 'the last edits are stored' "------Butter, Bread and tea!${burst}end"$'\nSalt \\ é😀+?' stored_text
}

# shellcheck source-path=SCRIPTDIR source=second.sh
. "$(dirname "${BASH_SOURCE[0]}")/second.sh"
# shellcheck source-path=SCRIPTDIR source=faults.sh
. "$(dirname "${BASH_SOURCE[0]}")/faults.sh"
# shellcheck source-path=SCRIPTDIR source=circle.sh
. "$(dirname "${BASH_SOURCE[0]}")/circle.sh"

# Plays what is named from the third word on, or else all of it: $1 begins the editor, and $2 begins one that opens the folders of the environment's
# ODD. The test of the editor has the play `random`.
play_all() {
  local name command=$1 odd=$2
  local -a names=("${@:3}")
  [ ${#names[@]} -gt 0 ] || names=(random typing undo beside elsewhere cursors places heap edges mixed away copy empty again kill waiting killed second hang delays fault apart twice ahead large odd circle words_of_circles)
  for name in "${names[@]}"; do
    case $name in
      undo | beside | elsewhere | cursors | places | heap | edges | copy) if is_second; then "play_$name" "$command"; else echo "skipped $name: it needs the second version of the session"; fi ;;
      mixed) if is_third; then play_mixed "$command"; else echo "skipped $name: it needs the third version of the session"; fi ;;
      odd) play_odd "$odd" ;;
      circle | words_of_circles) if has_circles; then "play_$name"; else echo "skipped $name: it needs \`rls share\` and python3"; fi ;;
      *) "play_$name" "$command" ;;
    esac
  done
}

# A program that is killed, and its buffer that is opened again on the spot. $1 begins the editor; its test says how by open_again.
play_again() {
  replicas
  begin "$1"
  shows 'the status line' 'member 0 of 2'
  begin_typing=i
  append 'kept '
  end_typing
  store
  ben_has 'what is stored' 'kept '
  ben_edits 'i 5 \nfour'
  shows 'what others wrote' four
  hold_back
  never_idle
  begin_typing=i
  append 'also '
  end_typing
  kill_program "$room/ada"
  shows 'a program that was killed' 'the session'
  go_on
  open_again
  shows 'a replica that is opened again' 'member 0 of 2'
  kept() { ben_takes; ben_text | grep -o 'kept\|also\|four' | sort | tr '\n' ' '; }
  wait_for 'what was typed before the program was killed, once' 'also four kept ' kept
  leave_editor
  same_texts
}

# A program that is killed at any moment while somebody types, and its buffer that is opened again: each word is there, once. $1 begins the editor.
play_killed() {
  local round word
  begin_with "$1" first 'i 0 first'
  for round in 1 2 3 4; do
    (sleep "0.$((RANDOM % 9))"; kill_program "$room/ada") &
    for word in a b c d; do type_at_end " $word$round"; done
    wait $!
    shows 'a program that was killed while somebody typed' 'the session'
    open_again
    shows 'its buffer that is opened again' 'member 0 of 2'
  done
  ben_has 'all that was typed, once' 'first a1 b1 c1 d1 a2 b2 c2 d2 a3 b3 c3 d3 a4 b4 c4 d4'
  leave_editor
  same_texts
}

# Folders whose names have what names may have, for the replica and for the messages. $1 begins an editor that opens those of the environment's ODD.
play_odd() {
  local member
  export ODD=$room/$' a b\n\'$HOME"*\\'
  for member in 0 1; do mkdir -p "$ODD/m $member" && (cd "$ODD/m $member" && "$RLS" new 7 "$member" 2 >/dev/null); done
  begin "$1"
  shows 'the status line' 'member 0 of 2'
  begin_typing=i
  append 'odd'
  end_typing
  store
  odd_text() { (cd "$ODD/m 1" && "$RLS" take <"$ODD/a shared/7-0-1.rlsm" >/dev/null && "$RLS" text); }
  wait_for 'a message in a folder with an odd name' odd odd_text
  leave_editor
  odd_stored() { (cd "$ODD/m 0" && "$RLS" text); }
  wait_for 'what is stored in a folder with an odd name' odd odd_stored
}

# A folder in which no replica was begun. $1 begins the editor.
play_empty() {
  rm -rf "$room/ada"
  mkdir "$room/ada"
  begin "$1"
  shows 'that there is no replica' 'here is no replica in'
  leave_tmux
}

# The shared folder goes away and comes back, and then it comes back with older files: what was written meanwhile reaches the other member without
# another key. $1 begins the editor.
play_away() {
  begin_with "$1" Start 'i 0 Start'
  type_at_end ' one'
  ben_has 'a word' 'Start one'
  cp -r "$room/shared" "$room/before"
  mv "$room/shared" "$room/away"
  shows 'that the shared folder is away' 'the shared folder is not there'
  type_at_end ' two'
  wait_for 'what is written meanwhile is stored' 'Start one two' stored_text
  shows 'that it still is' 'the shared folder is not there'
  mv "$room/away" "$room/shared"
  ben_has 'what was written meanwhile, once the folder is back' 'Start one two'
  type_at_end ' three'
  wait_for 'one word more' 'Start one two three' stored_text
  sleep 2
  rm "$room/shared"/* && cp "$room/before"/* "$room/shared" && rm -r "$room/before"
  ben_has 'it is written again where an older state of the folder came back' 'Start one two three'
  leave_editor
  same_texts
}

# A copy of the text in a file, as a writer's own backup; and then Vim and Neovim read the buffer again, and Emacs gives it another major mode: the
# replica goes on in it. $1 begins the editor; its test says how by write_copy FILE and read_again.
play_copy() {
  begin_with "$1" Start 'i 0 Start'
  write_copy "$room/copy.md"
  copy_text() { cat "$room/copy.md"; }
  wait_for 'a copy of the text in a file' Start copy_text
  type_at_end ' one'
  ben_has 'what is typed after that' 'Start one'
  read_again
  shows 'the replica, which goes on' 'member 0 of 2'
  type_at_end ' two'
  ben_has 'what is typed once the buffer was read again' 'Start one two'
  ben_edits 'i 0 Soon: '
  shows 'what others write then' 'Soon: Start one two'
  undo
  ben_has 'an undo of it' 'Soon: Start one'
  wait_for 'the copy, which stays as it was' Start copy_text
  leave_editor
  same_texts
}

# The process of the program that works on a folder.
session_of() {
  local found
  for found in /proc/[0-9]*; do
    if [ "$(readlink "$found/cwd" 2>/dev/null)" = "$1" ] && tr '\0' ' ' <"$found/cmdline" 2>/dev/null | grep -q "rls[^ ]* session $" && ! tr '\0' ' ' <"$found/cmdline" | grep -q '^\(sh\|bash\|/bin/\(ba\)\?sh\) '; then echo "${found#/proc/}"; fi
  done | sort -n | head -n 1
}

# Kills the program that works on a folder. With the first version of the session there is none for a moment when it stores.
kill_program() {
  for _ in {1..200}; do
    if kill -KILL "$(session_of "$1")" 2>/dev/null; then return; fi
    sleep 0.05
  done
  echo 'FAILED  there is no program to kill'
  return 1
}

# Both have the same text and identifiers, once each has what the other one sent.
same_texts() {
  ended() { (cd "$room/ada" && flock -n . true && echo yes); }
  wait_for 'the folder is free' $'yes\n' ended
  (cd "$room/ada" && "$RLS" send 1 >"$room/last" && cd "$room/ben" && "$RLS" take <"$room/last" >/dev/null && "$RLS" send 0 >"$room/last" && cd "$room/ada" && "$RLS" take <"$room/last" >/dev/null)
  both() { for k in ada ben; do (cd "$room/$k" && "$RLS" text && "$RLS" ids) | cksum; done | uniq | wc -l; }
  wait_for 'both members have the same' $'1\n' both
}

# An editor that is killed at any moment: what was typed is stored, since the program goes on to the end of its input. If the program is killed as
# well, what came after the last store is lost, and nobody's copy differs. $1 begins the editor.
play_kill() {
  local word editor programs
  replicas
  for word in one two three four five six; do
    begin "$1"
    shows 'the status line, once more' 'member 0 of 2'
    editor=$(tmux -L "$socket" display -p -t test '#{pane_pid}')
    begin_typing=i
    append "$word "
    screen_or_more() { screen | grep -qF "$word" && printf yes; }
    wait_for "the word $word on the screen" yes screen_or_more
    sleep "0.$((RANDOM % 10))"
    case $word in
      one | two | three) kill -KILL "$editor" ;;
      *)
        mapfile -t programs < <(session_of "$room/ada")
        kill -KILL "$editor" "${programs[@]}"
        ;;
    esac
    leave_tmux
    ended() { (cd "$room/ada" && flock -n . true && echo yes); }
    wait_for 'the folder is free' $'yes\n' ended
    case $word in
      one | two | three)
        has_word() { stored_text | grep -o "$word"; }
        wait_for 'what was typed is stored' "$word"$'\n' has_word
        ;;
    esac
    ben_edits "i 0 $word by Ben "
  done
  same_texts
}

# An editor that opens a replica in whose folder another command works waits, also for more than ten seconds, and says so. $1 begins it.
play_waiting() {
  replicas
  flock "$room/ada" sleep 12 &
  while flock -n "$room/ada" true; do sleep 0.1; done
  begin "$1"
  shows 'that it waits for another command' 'waiting for the program'
  shows 'what it waited for' 'member 0 of 2'
  leave_editor
}

# How that is typed in Vim and in Neovim.
append() {
  type_text "$begin_typing$1"
  begin_typing=
}
begin_typing=i
replace_last_line() { keys Escape; type_text 'Gdd'; type_text "o$1"; keys Escape; }
type_at_end() { type_text "GA$1"; keys Escape; }
delete_first_line() { type_text 'ggdd'; }
store() { keys ':w' Enter; }
to_end() { type_text 'ggA'; }
end_typing() { keys Escape; }
undo() { keys u; }
undo_often() { type_text 200u; }
redo() { keys C-r; }
write_copy() { keys ":w $1" Enter; }
read_again() { keys ':e!' Enter; }
substitute() { keys ':%s/e/E/g' Enter; }
fill() { keys ':set tw=40' Enter 4G gqG; }
go_to_end() { type_text GA; }
give_up() { keys C-c; }
given_up='given up'
heap_fill() { keys ':set tw=60' Enter gg gqG; }
heap_double() { keys ':%s/ /  /g' Enter; }
halve_indentation() { keys ':2d | %s/^    /  /' Enter; }
heap_filter() { keys ':%!sed "s/\\<lorem\\>/LOREM/g"' Enter; }
at_third_line() { type_text '3G0'; }
shows_name() { :; }
place_marks() { keys '5G0ma' ':8,9fold' Enter '11G0wve'; }
delete_selection() { keys d; }
type_at_mark() { type_text "'aA$1"; keys Escape; }
leave_editor() { keys Escape ':qa!' Enter; }
close_text() { keys Escape ':bwipeout!' Enter; }
choose_other() { type_text "$(screen | sed -n 's/.*\([0-9]\) other.txt.*/\1/p' | head -n 1)"; keys Enter; }
