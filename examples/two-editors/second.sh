# What only the second version of the session does, typed into a real editor: the editor's own keys of undo, changes that are put in place, cursors
# of others, one process for all of it. drive.sh reads this file, and an editor's test says how things are typed there.
# shellcheck shell=bash disable=SC2154,SC2034

# Whether the program has the second version of the session.
is_second() { (cd "$(mktemp -d -p "$room")" && "$RLS" new 7 0 1 >/dev/null && [ "$(printf 'v\n' | "$RLS" session | sed -n 1p)" = 'version 2' ]); }

# Whether the program has the third version.
is_third() { (cd "$(mktemp -d -p "$room")" && "$RLS" new 7 0 1 >/dev/null && [ "$(printf 'v 3\n' | "$RLS" session | sed -n 1p)" = 'version 3' ]); }

# Member 1 tells where its cursor is.
ben_shows_cursor() {
  (cd "$room/ben" && printf 'a %s\n' "$1" | "$RLS" session | sed -n 's/^anchor \(.*\)/\1 Ben B./p' >"$room/shared/.new" && mv "$room/shared/.new" "$room/shared/7-1.cursor")
}

# Whether the editor shows a letter in other colours than what follows it: so a cursor is shown.
is_lit() { tmux -L "$socket" capture-pane -e -p -t "${pane:-test}" | grep -qP "\x1b\[[0-9;]*m$1(\x1b\[[0-9;]*m)+$2" && printf yes; }

# Undo of own steps after they were stored, a line that is opened above the cursor, and one process for all of it.
play_undo() {
  replicas
  begin "$1"
  shows 'the status line' 'member 0 of 2'
  begin_typing=i
  append 'one'
  end_typing
  ben_has 'the first word' one
  store
  ben_edits 'i 0 zero\n' 'i 8 \nthree\nfour'
  shows 'what others wrote' four
  undo
  ben_has 'an undo after storing leaves what others wrote' $'zero\n\nthree\nfour'
  undo_often
  shows 'more undos than there is to take back' 'member 0 of 2'
  redo
  ben_has 'and a redo does it again' $'zero\none\nthree\nfour'
  at_third_line
  told_cursor() { (cd "$room/ben" && printf 'l %s\n' "$(cut -d ' ' -f 1 "$room/shared/7-0.cursor")" | "$RLS" session | sed -n 1p); }
  wait_for 'others are told where the cursor is' $'cursor 9\n' told_cursor
  ben_edits 'i 5 new\n' 'd 0 4'
  shows 'a line that others opened' new
  begin_typing=i
  append 'here '
  end_typing
  ben_has 'the cursor at the beginning of a line stays with it' $'\nnew\none\nhere three\nfour'
  undo
  undo
  ben_has 'own steps are taken back alone' $'\nnew\n\nthree\nfour'
  redo
  ben_has 'and done again' $'\nnew\none\nthree\nfour'
  local program
  program=$(session_of "$room/ada")
  at_third_line
  begin_typing=i
  append 'more '
  end_typing
  store
  ben_has 'one word more' $'\nnew\nmore one\nthree\nfour'
  [ "$program" = "$(session_of "$room/ada")" ] || { echo 'FAILED  one process for the whole life of the buffer'; exit 1; }
  leave_editor
  same_texts
}

# Undo and redo while another member types.
play_beside() {
  local typing
  begin_with "$1" 'Start.' 'i 0 Start.'
  (for _ in {1..12}; do ben_edits 'i 0 b'; sleep 0.3; done) &
  typing=$!
  type_at_end ' one'
  type_at_end ' two'
  type_at_end ' three'
  store
  undo
  shows 'an undo while another member types' 'Start. one two'
  undo
  redo
  redo
  shows 'two steps back and forth' 'Start. one two three'
  undo
  type_at_end ' four'
  undo
  redo
  shows 'what was typed after an undo' 'Start. one two four'
  wait "$typing"
  ben_has 'all that both typed' 'bbbbbbbbbbbbStart. one two four'
  undo
  undo
  undo
  ben_has 'own steps are taken back to the first, and nothing else' 'bbbbbbbbbbbbStart.'
  undo
  redo
  redo
  redo
  ben_has 'and done again to the last' 'bbbbbbbbbbbbStart. one two four'
  leave_editor
  same_texts
}

# What others change elsewhere leaves a mark, a fold and a selection where they are. The editor's test says how by place_marks (a mark in line 5, a
# fold over lines 8 and 9, and the middle word of line 11 selected), delete_selection and type_at_mark.
play_elsewhere() {
  begin_with "$1" bottom 'i 0 one two\nthree\nfour five\nsix\nseven eight\nnine\nten\nfolded\nhidden\neleven\ntake this away\nbottom'
  place_marks
  hides() { screen_has hidden || printf yes; }
  wait_for 'lines that are folded' yes hides
  ben_edits 'i 0 zero\n' 'i 24 and ' 'd 49 5' 'i 74 low\n'
  shows 'what others changed above and below' low
  shows 'a line of others' 'four and five'
  wait_for 'the fold stays' yes hides
  delete_selection
  ben_has 'the selection stays on its word' $'zero\none two\nthree\nfour and five\nsix\nseven eight\nten\nfolded\nhidden\neleven\nlow\ntake  away\nbottom'
  type_at_mark '!'
  ben_has 'the mark stays with its line' $'zero\none two\nthree\nfour and five\nsix\nseven eight!\nten\nfolded\nhidden\neleven\nlow\ntake  away\nbottom'
  leave_editor
  same_texts
}

# A substitution in the whole text, and a paragraph that is filled anew, change what they change and nothing between: what others write there
# meanwhile stays at its place. The editor's test says how by substitute (e by E in the whole text) and fill (the paragraph that follows the first
# empty line, to lines of 40).
play_places() {
  begin_with "$1" meadow 'i 0 Three green trees\nstood here\n\nand between them there was a meadow where'
  hold_back
  never_idle
  substitute
  shows 'a substitution' 'ThrEE grEEn'
  ben_edits 'i 11 , old' 'i 35 quietly '
  store
  ben_has 'what others wrote within a substitution is where they wrote it' $'ThrEE grEEn, old trEEs\nstood hErE\n\nquietly and bEtwEEn thEm thErE was a mEadow whErE'
  shows 'it is shown there' 'quietly and'
  fill
  is_filled() { screen | grep -q '^ *mEadow' && printf yes; }
  wait_for 'a paragraph that is filled' yes is_filled
  ben_edits 'i 60 always '
  store
  ben_has 'and within a paragraph that was filled' $'ThrEE grEEn, old trEEs\nstood hErE\n\nquietly and bEtwEEn thEm always thErE was a\nmEadow whErE'
  leave_editor
  same_texts
}

# A text of so many lines of eight words, with an empty line after each 50. Few of its words are there once.
many_lines() {
  awk -v lines="$1" 'BEGIN { split("lorem ipsum dolor sit amet consectetur adipiscing elit sed do eiusmod tempor incididunt ut labore et dolore magna aliqua enim", word, " "); r = 7
    for (k = 1; k <= lines; k++) { line = ""; for (n = 1; n <= 8; n++) { r = (r * 16807) % 2147483647; line = line (n > 1 ? " " : "") word[r % 20 + 1] } if (r % 3 == 0) line = line k
      print line; if (k % 50 == 0) print "" } }'
}

# The words of a text, whatever is between them.
words_of() { tr -s ' \n' '\n'; }

# What one command changes in many lines, while another member has written at five places and not sent it as yet: then each of the five sentences
# stands between the words between which it was written, and an undo leaves it there. $1 begins the editor; the others are how many lines, and what
# the command is. The editor's test says how by heap_fill (lines of 60), heap_double (two spaces for one) and heap_filter (LOREM for lorem, by sed).
heap() {
  local size=$2 what=$3 change=''
  [ "$what" != filter ] || change='s/^lorem$/LOREM/'
  replicas
  many_lines "$size" >"$room/lines"
  (cd "$room/ben" && "$RLS" edit --text "$room/lines" >/dev/null && "$RLS" send 0 >"$room/shared/7-1-0.rlsm")
  begin "$1"
  shows 'the status line' 'member 0 of 2'
  shows 'the text' ' dolor'
  hold_back
  never_idle
  awk -v lines="$size" 'BEGIN { split("ALPHA BRAVO CHARLIE DELTA ECHO", name, " "); k = 1 }
    NF && k <= 5 && NR > k * lines / 6 { sub(" ", " <<" name[k++] " by Ben>> ") } { print }' "$room/lines" >"$room/written"
  (cd "$room/ben" && "$RLS" edit --text "$room/written" >/dev/null)
  "heap_$what"
  store
  ben_words() { ben_takes; ben_text | words_of | cksum; }
  wait_for "$what of $size lines leaves what another member has written in between" "$(words_of <"$room/written" | sed "$change" | cksum)"$'\n' ben_words
  if [ "$size" -le 400 ]; then
    (cd "$room/ben" && "$RLS" send 0 >"$room/shared/.new" && mv "$room/shared/.new" "$room/shared/7-1-0.rlsm")
    store
    undo
    store
    wait_for 'and so does an undo of it' "$(cksum <"$room/written")"$'\n' ben_sum
  fi
  leave_editor
  is_free() { (cd "$room/ada" && flock -n . true && echo yes); }
  wait_for 'the folder is free' $'yes\n' is_free
  leave_tmux
}
ben_sum() { ben_takes; ben_text | cksum; }

play_heap() {
  local size
  for size in 6 30 400 1100 5000; do heap "$1" "$size" fill; done
  for size in 30 1100 5000; do heap "$1" "$size" double; done
  for size in 400 5000; do heap "$1" "$size" filter; done
}

# White space at the edges of what one command changes: it deletes the empty second line, and makes each indentation half as wide; another member who
# is apart does the same. Both take the same characters away. $1 begins the editor; its test says how by halve_indentation.
play_edges() {
  local wanted='alpha\nbeta\n  gamma\n  delta\nend'
  begin_with "$1" end 'i 0 alpha\n\nbeta\n    gamma\n    delta\nend'
  hold_back
  never_idle
  printf '%b' "$wanted" >"$room/halved"
  (cd "$room/ben" && "$RLS" edit --text "$room/halved" >/dev/null)
  halve_indentation
  store
  ben_has 'white space that two take away at once goes once' "$(cat "$room/halved")"
  (cd "$room/ben" && "$RLS" send 0 >"$room/shared/.new" && mv "$room/shared/.new" "$room/shared/7-1-0.rlsm")
  leave_editor
  same_texts
}

# Types as people do: now and then some wrong letters, which are taken back, and a pause before the right ones. Words: a seed, the text.
type_badly() {
  local text=$2 wrong k n
  RANDOM=$1
  for ((k = 0; k < ${#text}; k++)); do
    if ((RANDOM % 8 == 0)); then
      n=$((RANDOM % 3 + 1)) wrong=qqq
      pause=0.1 type_text "${wrong:0:n}"
      for ((; n > 0; n--)); do pause=0.05 keys BSpace; done
      ((RANDOM % 2)) || sleep "1.$((RANDOM % 9))"
    fi
    pause=0.05 type_text "${text:k:1}"
  done
}

# Two members who are apart, each with a shared folder of its own, type a passage each at the end of one text, with corrections and pauses. Then
# they exchange: each passage stands there whole. $1 begins the editor.
play_mixed() {
  local ada='Ada thinks that the first part should say who the report is for.' ben='Ben would rather begin with what went wrong in spring.' other
  begin_with "$1" 'Diary.' 'i 0 Diary. '
  mkdir -p "$room/apart"
  (cd "$room/ben" && "$RLS" take <"$room/shared/7-0-1.rlsm" >/dev/null)
  other=${1//$room\/ada/$room\/ben}
  other=${other//$room\/shared/$room\/apart}
  tmux -L "$socket" new-session -d -s other -x 100 -y 24 "$other"
  pane=other shows 'the other editor' 'member 1 of 2'
  pane=other shows 'its text' 'Diary.'
  go_to_end
  pane=other go_to_end
  type_badly 7 "$ada" &
  (pane=other type_badly 8 "$ben")
  wait $!
  end_typing
  pane=other end_typing
  store
  pane=other store
  both_whole() {
    cp "$room/apart/7-1-0.rlsm" "$room/shared/.new" && mv "$room/shared/.new" "$room/shared/7-1-0.rlsm"
    cp "$room/shared/7-0-1.rlsm" "$room/apart/.new" && mv "$room/apart/.new" "$room/apart/7-0-1.rlsm"
    for k in ada ben; do (cd "$room/$k" && "$RLS" text) | grep -oF -e "$ada" -e "$ben" | sort | cksum; done | uniq | wc -l
    (cd "$room/ada" && "$RLS" text | grep -oF -e "$ada" -e "$ben" | wc -l)
  }
  wait_for 'both passages stand there whole' $'1\n2\n' both_whole
  pane=other leave_editor
  leave_editor
}

# The cursor of another member is shown, and moves. What isn't known as yet is shown once it is.
play_cursors() {
  begin_with "$1" three 'i 0 one\ntwo\nthree'
  ben_shows_cursor 8
  lit() { is_lit "$@"; }
  wait_for 'the cursor of another member' yes lit t hree
  shows_name
  type_at_end ' four'
  ben_has 'what was typed then' $'one\ntwo\nthree four'
  ben_shows_cursor 4
  wait_for 'the cursor in another line' yes lit t wo
  # The message with the rename comes after the cursor that needs it.
  (cd "$room/ben" && printf '%s\n' 'i 0 new\n' 'd 4 1' r | "$RLS" edit >/dev/null)
  ben_shows_cursor 7
  sleep 2
  shows 'no fault where a place is not known' 'member 0 of 2'
  (cd "$room/ben" && "$RLS" send 0 >"$room/shared/.new" && mv "$room/shared/.new" "$room/shared/7-1-0.rlsm")
  shows 'the message with the rename' new
  wait_for 'the cursor once its epoch is known' yes lit t wo
  # What others may have put at the names of cursors.
  printf mine >"$room/victim"
  for name in 0 1; do ln -sf "$room/victim" "$room/shared/7-$name.cursor"; done
  type_at_end ' five'
  own_is_file() { [ -f "$room/shared/7-0.cursor" ] && [ ! -L "$room/shared/7-0.cursor" ] && cat "$room/victim"; }
  wait_for 'a link at the name of the own cursor is not written through' mine own_is_file
  rm "$room/shared/7-0.cursor"
  mkdir "$room/shared/7-0.cursor"
  for bad in 'mkdir' 'mkfifo' 'truncate -s 1000000' 'printf "\033[31m\033]0;x\007\n" >' 'printf "after:origin:1.2.3" >' 'printf "l\nq\n" >' 'printf "beginning \033[2JEve\302\205\n" >'; do
    rm -rf "$room/shared/7-1.cursor"
    eval "$bad" '"$room/shared/7-1.cursor"'
    sleep 0.7
  done
  type_at_end ' six'
  ben_has 'what was typed after all of these' $'new\nne\ntwo\nthree four five six'
  shows 'no fault after that' 'member 0 of 2'
  leave_editor
  same_texts
}
