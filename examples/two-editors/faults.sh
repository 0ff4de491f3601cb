# What an editor says where something is wrong, and what it does then, typed into a real one. drive.sh reads this file, and an editor's test says how
# things are typed there, by give_up (the key that ends waiting) beside what it says for the other plays.
# shellcheck shell=bash disable=SC2154,SC2034

# How many milliseconds pass until the pane shows $1, after a key that is pressed now. More than $2 are a failure.
answers_within() {
  local begun
  begun=$(date +%s%3N)
  pause=0 give_up
  while ! screen | grep -qF -- "$1"; do
    sleep 0.05
    (($(date +%s%3N) - begun < 20000)) || break
  done
  begun=$(($(date +%s%3N) - begun))
  ((begun <= $2)) || { echo "FAILED  the key to give up took $begun ms: $1"; screen; exit 1; }
  echo "ok      the key to give up, after $begun ms"
}

# A second editor that opens a folder which the first one has open says who has it, gives up at once, and shows the text to be read alone. $1 begins
# the editor; its test says its name by editor_name.
play_second() {
  begin_with "$1" Start 'i 0 Start'
  tmux -L "$socket" new-session -d -s other -x 100 -y 24 "$1"
  pane=other shows 'who has the folder' "waiting for $editor_name ("
  pane=other answers_within "$given_up" 1500
  [ "$editor_name" = Emacs ] || pane=other keys Enter
  pane=other open_again
  pane=other shows 'it once more' "waiting for $editor_name ("
  pane=other pause=1 keys r
  pane=other shows 'the text, to be read alone' Start
  pane=other shows 'that it is to be read alone' 'read only'
  pane=other leave_editor
  type_at_end ' more'
  ben_has 'what is typed into the first one then' 'Start more'
  leave_editor
  same_texts
  ! [ -e "$room/ada/.rls-editor" ] || { echo 'FAILED  an editor that has ended has the folder open'; exit 1; }
}

# A program that hangs is told while somebody types; waiting for it ends at once; and what was typed is stored by another one. $1 begins the editor.
play_hang() {
  # Emacs doesn't talk with a program of its own that is stopped, so it gets one that has another one.
  printf '#!/bin/sh\n"%s" "$@"\n' "$RLS" >"$room/rls" && chmod +x "$room/rls"
  begin_with "${1//"$RLS"/$room\/rls}" Start 'i 0 Start'
  kill -STOP "$(session_of "$room/ada")"
  type_at_end ' one'
  shows 'that the program does not answer' 'NOT stored: the program has not answered for '
  store
  shows 'what storing waits for' 'waiting for the program'
  answers_within 'NOT stored: given up' 1500
  type_at_end ' two'
  store
  ben_has 'what was typed meanwhile' 'Start one two'
  shows 'no fault after that' 'member 0 of 2'
  leave_editor
  same_texts
}

# A program that stands still again and again, while somebody types and substitutes and another member writes: each word is there, once, and at its
# place. $1 begins the editor.
play_delays() {
  local round stopping
  printf '#!/bin/sh\n"%s" "$@"\n' "$RLS" >"$room/rls" && chmod +x "$room/rls"
  begin_with "${1//"$RLS"/$room\/rls}" 'the end' 'i 0 one tree\ntwo trees\nthe end'
  (while kill -STOP "$(session_of "$room/ada")" 2>/dev/null; do
    sleep "$((RANDOM % 3)).$((RANDOM % 10))"
    kill -CONT "$(session_of "$room/ada")" 2>/dev/null || true
    sleep "0.$((RANDOM % 10))"
  done) &
  stopping=$!
  for round in 1 2 3 4 5 6; do
    ben_edits "i 0 bee$round "
    substitute
    type_at_end " a$round"
  done
  kill "$stopping"
  wait "$stopping" || true
  kill -CONT "$(session_of "$room/ada")"
  ben_words() { ben_takes; ben_text | tr E e; }
  wait_for 'all that both wrote while the program stood still again and again' $'bee6 bee5 bee4 bee3 bee2 bee1 one tree\ntwo trees\nthe end a1 a2 a3 a4 a5 a6' ben_words
  shows 'no fault after that' 'member 0 of 2'
  leave_editor
  same_texts
}

# A disk that is full, and the folder of the replica gone: storing says that it isn't stored, and why, and tries again. $1 begins the editor.
play_fault() {
  local disk='' long
  long=" $(printf 'k%.0s' {1..9000})"
  begin_with "$1" Start 'i 0 Start'
  type_at_end ' one'
  ben_has 'what is stored' 'Start one'
  leave_editor
  is_ended() { (cd "$room/ada" && flock -n . true && echo yes); }
  wait_for 'the folder is free' $'yes\n' is_ended
  leave_tmux
  mkdir -p "$room/disk"
  if [ "$(id -u)" = 0 ] && mount -t tmpfs -o size=400k none "$room/disk" 2>/dev/null; then
    disk=$room/disk
    trap 'leave_tmux; umount -l "$room/disk" 2>/dev/null || true; rm -rf "$room"' EXIT
    mv "$room/ada" "$disk/ada" && ln -s disk/ada "$room/ada"
    begin "$1"
    shows 'the text' 'Start one'
    head -c 1000000 /dev/zero >"$disk/full" 2>/dev/null || true
    pause=3 type_at_end "$long"
    shows 'a full disk' 'NOT stored: '
    store
    shows 'that it still is not stored' 'NOT stored: '
    is_red() { tmux -L "$socket" capture-pane -e -p -t test | grep -q $'\x1b\\[[0-9;]*m[^\x1b]*NOT stored' && printf yes; }
    wait_for 'in other colours' yes is_red
    rm "$disk/full"
    store
    ben_has 'what is stored once there is room' "Start one$long"
    shows 'no fault after that' 'member 0 of 2'
    leave_editor
    wait_for 'the folder is free' $'yes\n' is_ended
    leave_tmux
    rm "$room/ada" && mv "$disk/ada" "$room/ada"
    umount -l "$disk"
  else
    echo 'skipped a full disk: no file system can be mounted'
    disk=''
  fi
  begin "$1"
  shows 'the text' 'Start one'
  cp -r "$room/ada" "$room/kept"
  rm -r "$room/ada"
  type_at_end ' three'
  shows 'a folder that is gone' 'NOT stored: '
  store
  shows 'that there is none' 'here is no folder'
  cp -r "$room/kept" "$room/ada"
  store
  ben_has 'what is stored once it is back' "Start one${disk:+$long} three"
  shows 'no fault after that' 'member 0 of 2'
  leave_editor
  same_texts
}

# Nobody says that the number is used twice.
says_nothing() { if screen | grep -qF 'used twice'; then echo "FAILED  $1"; screen; exit 1; fi; echo "ok      $1"; }

# How the name of the file begins that shows the token of the replica in the folder $1. The rest may have no room in a line.
token_file() { printf '7-0-%s' "$(head -c 12 "$room/$1/replica.token")"; }

# What is typed in the editor from now on is stored in the folder $1 as the text $2, and no message of member 0 changes.
sends_nothing() {
  local before
  before=$(cat "$room/shared"/7-0-* | cksum)
  type_at_end "$3"
  twin_text() { (cd "$room/$1" && "$RLS" text); }
  wait_for "what is typed then is stored in $1" "$2" twin_text "$1"
  sleep 1
  [ "$before" = "$(cat "$room/shared"/7-0-* | cksum)" ] || { echo 'FAILED  messages of a number that is used twice'; exit 1; }
  echo 'ok      and not sent'
}

# A number that two editors use. Each has a shared folder of its own until these become one: then both say so, and neither writes over what is there.
# Once the file that shows it is gone, the one that goes on sends what was typed meanwhile. Then a copy of a replica, which says so too.
# $1 begins the editor.
play_twice() {
  local other
  begin_with "$1" Start 'i 0 Start'
  type_at_end ' one'
  ben_has 'what member 0 typed' 'Start one'
  rm -rf "$room/twin" "$room/apart" "$room/gone"               # another play may have left some of them
  mkdir -p "$room/twin" "$room/apart"
  (cd "$room/twin" && "$RLS" new 7 0 2 >/dev/null)
  other=${1//$room\/ada/$room\/twin}
  tmux -L "$socket" new-session -d -s other -x 100 -y 24 "${other//$room\/shared/$room\/apart}"
  pane=other shows 'another one with the same number' 'member 0 of 2'
  pane=other type_at_end Twin
  has_written() { (cd "$room/$1" && [ -f 7-0-1.rlsm ] && find . -name '7-0-*.member' | wc -l); }
  wait_for 'a file with its token, in its own shared folder' $'1\n' has_written apart
  wait_for 'and one of the first' $'1\n' has_written shared
  says_nothing 'neither says anything as yet'
  pane=other says_nothing 'in the other pane'
  cp "$room/apart"/*.member "$room/shared" && mv "$room/apart" "$room/gone" && ln -s shared "$room/apart"
  shows 'that a number is used twice' "number 0 is used twice, as $(token_file twin)"
  pane=other shows 'the same in the other editor' "number 0 is used twice, as $(token_file ada)"
  sends_nothing ada 'Start one two' ' two'
  pane=other sends_nothing twin 'Twin two' ' two'
  pane=other leave_editor
  rm "$room/shared/7-0-$(head -c 16 "$room/twin/replica.token").member"
  ben_has 'what was typed, once the file that shows it is gone' 'Start one two'
  ben_edits 'i 13 , three'
  shows 'what others wrote' ', three'
  says_nothing 'it is not said any more'
  leave_editor
  free() { (cd "$room/$1" && flock -n . true && echo yes); }
  wait_for 'the folder is free' $'yes\n' free ada
  wait_for 'that of the other one too' $'yes\n' free twin
  leave_tmux
  rm -r "$room/twin" && cp -r "$room/ada" "$room/twin"
  begin "$1"
  shows 'the replica once more' ', three'
  type_at_end ' four'
  ben_has 'what is typed into it' 'Start one two, three four'
  says_nothing 'it says nothing'
  tmux -L "$socket" new-session -d -s other -x 100 -y 24 "$other"
  pane=other shows 'that a copy of it was opened' "number 0 is used twice, as $(token_file ada)"
  pane=other sends_nothing twin 'Start one two, three of a copy' ' of a copy'
  pane=other leave_editor
  type_at_end ' five'
  ben_has 'what is typed then into the one that is no copy' 'Start one two, three four five'
  says_nothing 'it still says nothing'
  # By commands a copy shows no token.
  rm -r "$room/twin" && cp -r "$room/ada" "$room/twin"
  (cd "$room/twin" && printf 'i 0 %s\n' {1..40} | "$RLS" edit >/dev/null && "$RLS" send 1 >"$room/shared/.new" && mv "$room/shared/.new" "$room/shared/7-0-1.rlsm")
  shows 'that a copy wrote at the name of its message' 'as 7-0-1.rlsm shows'
  sends_nothing ada 'Start one two, three four five six' ' six'
  rm "$room/shared/7-0-1.rlsm"
  ben_has 'what was typed, once that message is gone' 'Start one two, three four five six'
  leave_editor
  same_texts
}

# The folders: that of the replica isn't taken for the shared one; the shared one is made with the permissions that the umask leaves; and one that
# somebody else may not write into is told. $1 begins the editor.
play_apart() {
  replicas
  begin "${1//$room\/shared/$room\/ada}"
  shows 'one folder for both' 'needs to be another one'
  leave_tmux
  rm -r "$room/shared"
  begin "umask 002; $1"
  shows 'the status line' 'member 0 of 2'
  mode_of() { stat -c %a "$room/shared"; }
  wait_for 'the shared folder that it made' $'775\n' mode_of
  leave_editor
  is_ended() { (cd "$room/ada" && flock -n . true && echo yes); }
  wait_for 'the folder is free' $'yes\n' is_ended
  leave_tmux
  rm -f "$room/shared"/* && chmod 755 "$room" "$room/shared"
  if [ "$(id -u)" != 0 ]; then chmod 555 "$room/shared"; else chown -R 65534:65534 "$room/ada"; fi
  begin "$([ "$(id -u)" != 0 ] || echo 'env HOME=/tmp setpriv --reuid 65534 --regid 65534 --clear-groups') $1"
  shows 'a shared folder into which one may not write' 'no permission to write'
  chmod 777 "$room/shared"
  begin_typing=i
  append one
  end_typing
  store
  ben_has 'what is sent once one may' one
  leave_editor
  wait_for 'the folder is free' $'yes\n' is_ended
  leave_tmux
  [ "$(id -u)" != 0 ] || chown -R 0:0 "$room/ada"
}

# The largest message that `send` makes is taken. $1 begins the editor.
play_large() {
  local size million
  replicas
  million=$(printf 'x%.0s' {1..1024})
  million=$(for _ in {1..1024}; do printf %s "$million"; done)
  (cd "$room/ben" && for _ in 1 2 3; do for _ in {1..21}; do printf 'i 0 %s\nd 0 1048576\n' "$million"; done | "$RLS" edit >/dev/null; done
    cp -r . ../other && cd ../other && "$RLS" edit >/dev/null <<<$'i 0 end\ni 3 x\nd 3 1' && "$RLS" send 0 | wc -c >../size)
  read -r size <"$room/size"
  size=$((67108864 - size + 1))
  (cd "$room/ben" && printf 'i 0 end\ni 3 %s\nd 3 %s\n' "${million:0:size}" "$size" | "$RLS" edit >/dev/null && "$RLS" send 0 >"$room/shared/7-1-0.rlsm")
  size=$(stat -c %s "$room/shared/7-1-0.rlsm")
  [ "$size" = 67108864 ] || { echo "FAILED  a message of $size bytes"; exit 1; }
  begin "$1"
  shows 'the status line' 'member 0 of 2'
  shows 'what a message of 67,108,864 bytes brought' end
  type_at_end ' of it'
  store
  ben_has 'what is typed then' 'end of it'
  leave_editor
}

# Member 2 has written for member 0, and the byte at $1 of its message is another one now, as somebody forges it.
forged() {
  (cd "$room/cleo" && "$RLS" send 0 >"$room/forged")
  printf '%b' "$2" | dd of="$room/forged" bs=1 seek="$1" conv=notrunc 2>/dev/null
  cp "$room/forged" "$room/shared/.new" && mv "$room/shared/.new" "$room/shared/7-2-0.rlsm"
}

# A message whose head isn't what the name of its file says, or counts edits that its receiver hasn't made: it is told and stays where it is, and what
# others send is taken. Of the second kind nothing is sent as long as it is there, unless the launcher was told to doubt that member. $1 begins the editor.
play_ahead() {
  local member
  replicas
  rm -r "$room/ada" "$room/ben" && mkdir "$room/ada" "$room/ben" "$room/cleo"
  for member in 'ada 0' 'ben 1' 'cleo 2'; do (cd "$room/${member% *}" && "$RLS" new 7 "${member#* }" 3 >/dev/null); done
  begin "$1"
  shows 'the status line' 'member 0 of 3'
  begin_typing=i
  append Start
  end_typing
  ben_has 'what is typed' Start
  forged 12 '\0011'
  shows 'a message of another text' 'message of 2: it is of another text'
  forged 20 '\0001'
  shows 'a message that says that it is of another member' 'message of 2: its head says member 1'
  ben_edits 'i 0 One '
  shows 'what others send then' 'One Start'
  type_at_end ' two'
  ben_has 'what is typed then' 'One Start two'
  forged 24 '\0310'
  shows 'a message that counts edits which were not made' 'NOT sent: 7-2-0.rlsm counts more edits of member 0'
  ben_edits 'i 0 And '
  shows 'what others send all the same' 'And One Start two'
  type_at_end ' three'
  wait_for 'what is typed is stored' 'And One Start two three' stored_text
  sleep 2
  wait_for 'and not sent' 'And One Start two' taken_text
  rm "$room/shared/7-2-0.rlsm"
  ben_has 'it is sent once that file is gone' 'And One Start two three'
  printf '7-3-0 2\n' >"$room/ada/replica.doubted"
  forged 24 '\0310'
  shows 'such a message of a member who is doubted' 'message of 2: it counts more edits'
  type_at_end ' four'
  ben_has 'what is typed and sent beside it' 'And One Start two three four'
  [ "$(cksum <"$room/forged")" = "$(cksum <"$room/shared/7-2-0.rlsm")" ] || { echo 'FAILED  a forged message stays where it is'; exit 1; }
  leave_editor
  leave_tmux
}
