# Texts that are shared by `rls share` and `rls join`, opened by their plain files in a real editor. drive.sh reads this file, and an editor's test says
# how things are typed there, by opening WORD.. (the command that begins an editor which opens what these words name), open_file WORD.. (typed into one)
# and close_text.
# shellcheck shell=bash disable=SC2154,SC2034

# What a person's own programs are given: the folder of each has what the launcher keeps of a circle.
ada() { env RLS_HOME="$room/home.ada" RLS_NAME=Ada "$@"; }
ben() { env RLS_HOME="$room/home.ben" RLS_NAME=Ben "$@"; }
as() { echo "env RLS_HOME='$room/home.$1' $2"; }

has_circles() { command -v python3 >/dev/null && (cd "$room" && RLS_HOME=$room/none "$RLS" where nothing 2>&1 | grep -q 'is neither a shared folder'); }

# Ada has shared two files.
circle() {
  rm -rf "$room/home.ada" "$room/home.ben" "$room/ada" "$room/ben" "$room/circle"
  mkdir "$room/ada"
  printf 'Bread and tea' >"$room/ada/NOTES.md"
  printf 'Other things' >"$room/ada/other.txt"
  ada "$RLS" share "$room/circle" "$room/ada/NOTES.md" "$room/ada/other.txt" >/dev/null 2>&1
}

file_of() { cat "$room/$1/NOTES.md"; }
both_files() { cat "$room/ada/NOTES.md" && echo && cat "$room/ben/NOTES.md"; }

# Ada shares, and Ben joins while her editor is open, which gives him his number. Both open the file, type, and close; then both files have both.
play_circle() {
  circle
  begin "$(as ada "$(opening "$room/ada/NOTES.md")")"
  shows 'the file, opened by its name' 'Bread and tea'
  shows 'who this is' 'Ada, member 0 of 8'
  (cd "$room" && ben "$RLS" join circle ben --wait 100 >"$room/said" 2>&1) || { cat "$room/said"; exit 1; }
  echo 'ok      who joins gets a number from the editor that is open'
  tmux -L "$socket" new-session -d -s other -x 100 -y 24 "$(as ben "$(opening "$room/circle" NOTES.md)")"
  pane=other shows 'the same text in the other editor, opened by its name in the shared folder' 'Bread and tea'
  pane=other shows 'who that is' 'Ben, member 1 of 8'
  type_at_end ' by Ada'
  pane=other shows 'what one types in the other' 'Bread and tea by Ada'
  pane=other shows 'who wrote it' 'Ada wrote at '
  pane=other type_at_end ' and by Ben'
  shows 'what the other types' 'Bread and tea by Ada and by Ben'
  shows 'who wrote that' 'Ben wrote at '
  named() { [ "$(screen | grep -c 'Ben$')" != 0 ] && printf yes; }
  wait_for 'the name beside the cursor of the other' yes named
  wait_for 'the plain files are as they were while the text is open' $'Bread and tea\nBread and tea' both_files
  close_text
  wait_for 'whose editor closes it, has it in the plain file' 'Bread and tea by Ada and by Ben' file_of ada
  pane=other leave_editor
  wait_for 'and so has the other' $'Bread and tea by Ada and by Ben\nBread and tea by Ada and by Ben' both_files
  leave_editor
  leave_tmux
  play_plain
  play_killed_by_file
}

# What another program has written into the file is there when it is opened, and again when it is read once more.
play_plain() {
  printf 'Milk, bread and tea by Ada and by Ben' >"$room/ada/NOTES.md"
  begin "$(as ada "$(opening "$room/ada/NOTES.md")")"
  shows 'what another program wrote into the file' 'Milk, bread and tea'
  shows 'that it is the text of the circle' 'member 0 of 8'
  leave_editor
  leave_tmux
}

# An editor that is killed leaves the file to the next `rls sync`.
play_killed_by_file() {
  begin "$(as ada "$(opening "$room/ada/NOTES.md")")"
  shows 'the text once more' 'Milk, bread and tea'
  type_at_end ' and jam'
  shows 'what is typed' 'Ben and jam'
  sleep 1
  kill -KILL "$(tmux -L "$socket" display -p -t test '#{pane_pid}')"
  leave_tmux
  after_sync() { ada "$RLS" sync --wait 20 "$room/ada/NOTES.md" >/dev/null 2>&1 && file_of ada; }
  wait_for 'after a kill the next sync writes the file' 'Milk, bread and tea by Ada and by Ben and jam' after_sync
}

# What it says if a file can't be opened. The programs are stand-ins: one that is older than circles, and a launcher without python3.
play_words_of_circles() {
  local what program wanted words
  circle
  printf '%s\n' '#!/bin/sh' 'echo "usage: new GROUP ME MEMBERS | edit | text" >&2' 'exit 1' >"$room/older"
  printf '%s\n' '#!/bin/sh' "echo 'rls: \`rls where\` needs python3 (Debian, Ubuntu: apt install python3).' >&2" 'exit 70' >"$room/bare"
  chmod +x "$room/older" "$room/bare"
  printf 'mine' >"$room/ada/mine.md"
  while IFS='|' read -r what program wanted words; do
    begin "$(as ada "$(RLS=$program opening "$room/ada/$words")")"
    shows "$what" "$wanted"
    leave_tmux
  done <<END
a file that is not shared|$RLS|rls share SHARED mine.md|mine.md
a file that is not there|$RLS|there is no |nothing.md
a program that is older|$room/older|is older than 0.11.0|NOTES.md
a machine without python3|$room/bare|needs python3|NOTES.md
no program at all|$room/none|there is no program|NOTES.md
END
  begin "$(as ada "$(opening "$room/circle" nothing)")"
  shows 'a text that is not in the shared folder' 'there is no text nothing'
  leave_tmux
  begin "$(as ada "$(opening "$room/circle")")"
  shows 'a choice where there are several' other.txt
  choose_other
  shows 'the one that was chosen' 'Other things'
  leave_tmux
}
