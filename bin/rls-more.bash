# The commands of the launcher that the program doesn't have, `edit --text`, `send --told`, `check`, `retire`, `restart` and those of circles, and what
# is looked at before `new`: bin/rls reads this for them. Each command ends the script.
# shellcheck shell=bash
# bin/rls sets `top`, `program`, `status`, `held`, NOT_BUILT, NOT_SAFE, NOT_EQUAL, `say`, `refuse`, `ask`, `look`, `perform` and `advise`.
# shellcheck disable=SC2154

more() {
  case "$1 ${2-}" in
    share\ * | join\ * | sync\ * | who\ * | where\ * | drop\ * | give\ * | part\ *) circles "$@" ;;
    'edit --text') look edit </dev/null; edit_text "$3" ;;
    send*)
      [ "$3" = --told ] || { . "$top/bin/rls-explain.bash" && refuse_words "$@"; }
      look send
      look session </dev/null
      send_told "$2" "$4"
      ;;
    retire*) look retire; retire "$2" ;;
    check*) look check; check "${@:2}" ;;
    restart*) look restart; restart "${@:2}" ;;
  esac
}

# Circles: several people, their numbers and their files (docs/SHARING.md). These commands are in Python.
circles() {
  command -v python3 >/dev/null || {
    say "\`rls $1\` needs python3 (Debian, Ubuntu: apt install python3). The other commands don't."
    exit "$NOT_BUILT"
  }
  # What Python compiles is kept outside of the checkout; without a home nothing is kept.
  local cache=${XDG_CACHE_HOME:-${HOME:+$HOME/.cache}}
  [ -n "$cache" ] || export PYTHONDONTWRITEBYTECODE=1
  RLS=$program PYTHONPATH=$top/examples/python PYTHONPYCACHEPREFIX=${cache:+$cache/rls} exec python3 -S -m rls "$@"
}

# A folder for a moment, which goes when the script ends.
make_room() {
  room=$(mktemp -d) || exit 8
  trap 'rm -rf "$room"' EXIT
}

# --- new

# Whether the slots hold what `new` with these words writes, and nothing else. Then this member has done nothing yet, whatever the gate was,
# and a `new` that was stopped before it wrote the gate can go on.
is_begun() {
  local room same=1
  room=$(mktemp -d) || return 1
  if ! (cd "$room" && "$program" "$@") >/dev/null 2>&1 || ! cmp -s replica.0 "$room/replica.0" || ! cmp -s replica.1 "$room/replica.1"; then same=0; fi
  rm -rf "$room"
  [ "$same" = 1 ]
}

look_at_new() {
  if ! [ -s replica.gate ] && { [ -s replica.0 ] || [ -s replica.1 ]; } && ! is_begun "$@"; then
    refuse "replica.gate is missing, but replica.0 or replica.1 is here, and \`new\` would write over them." \
      'If there was a text in this folder, put replica.gate back, or move these files away: its number must not be used again.' \
      'If there never was one, a first `rls new` was stopped here before it was done, by a power failure or a full disk:' \
      'then they hold nothing, and `rm replica.0 replica.1` is right.'
  fi
}

# --- edit --text FILE

# A text with one line for each of its own, as edits.awk reads it: FE for its line feeds, FF for the byte 0. UTF-8 has neither.
# It is called in a subshell, in which a pipe fails with each of its parts.
marked_lines() (
  set -o pipefail
  { cat "$1" && echo .; } | LC_ALL=C tr '\000' '\377' | LC_ALL=C sed -e '$!s/$/\xfe/' -e '$s/\.$//'
)

# Writes the edits that turn the one text into the other.
write_script() {
  local answers=
  if marked_lines "$1" >"$room/old.lines" && marked_lines "$2" >"$room/new.lines"; then
    LC_ALL=C awk -f "$top/bin/edits.awk" "$room/old.lines" "$room/new.lines" | LC_ALL=C tr '\377' '\000' >"$room/script"
    answers=${PIPESTATUS[*]}
  fi
  [ "$answers" != '0 0' ] || return 0
  say "the two texts could not be compared; is ${TMPDIR:-/tmp} full? Nothing was done."
  exit 8
}

edit_text() {
  make_room
  cat -- "$1" >"$room/new" || {
    say "$1 can't be read, or not kept for a moment in ${TMPDIR:-/tmp}. Nothing was done."
    exit 8
  }
  if ! iconv -f UTF-8 -t UTF-8 "$room/new" >/dev/null 2>&1; then
    say "$1 is no text in UTF-8. Nothing was done."
    exit 4
  fi
  lock_late edit
  perform text >"$room/text" || exit
  write_script "$room/text" "$room/new"
  look_at_taken "$1"
  perform edit <"$room/script"
  case $status in
    0 | 5)
      { [ ! -s replica.taken ] || : >replica.taken; } 2>/dev/null
      tell_marks "$1"
      advise edit
      ;;
  esac
  exit "$status"
}

# Says that the edits delete, after operations came that FILE may not have. On a terminal it asks.
look_at_taken() {
  local came
  [ -z "${RLS_FORCE:-}" ] && [ -s replica.taken ] && LC_ALL=C grep -q '^d ' "$room/script" || return 0
  read -r came <replica.taken
  say "operations taken here since the last \`rls text\`: $came. What they wrote, and $1 doesn't have, is deleted now: take messages before \`rls text\`, or after \`rls edit --text\`."
  ask 'to keep it, put it into the file first.'
}

# Says what an editor may have put into FILE that nobody sees, if the text didn't have it.
tell_marks() {
  local new old mark=$'\xef\xbb\xbf'
  new=$(head -c 3 "$room/new" | tr -d '\000') old=$(head -c 3 "$room/text" | tr -d '\000')
  if [ "$new" = "$mark" ] && [ "$old" != "$mark" ]; then
    say "$1 begins with a byte order mark, which no terminal shows, and so does the text now: \`echo d 0 1 | rls edit\` takes it out."
  fi
  if LC_ALL=C grep -q $'\r$' "$room/new" && ! LC_ALL=C grep -q $'\r$' "$room/text"; then
    say "lines of $1 end with a carriage return, as those of Windows do, and the text has these now: tr -d '\\r' < $1 takes them out."
  fi
}

# --- check

# What is equal for two members that have the same, in `lines`. It is read again if another command has stored meanwhile.
sum_up() {
  local numbers ids text again
  for ((again = 5; again > 0; again--)); do
    numbers=$(perform stat) || exit
    ids=$(perform ids | cksum) || failed_sum
    text=$(perform text | cksum) || failed_sum
    [ "$numbers" != "$("$program" stat)" ] || break
  done
  if [ "$again" = 0 ]; then
    say 'other commands store into this folder again and again. Repeat it when they are done.'
    exit "$NOT_SAFE"
  fi
  lines=$(sed -n '/^accepted /p' <<<"$numbers")$'\n'"ids ${ids% *}"$'\n'"text ${text% *}"
}

failed_sum() {
  say 'the sums could not be made: see whether `cksum` works here.'
  exit 8
}

check() {
  local lines other
  set -o pipefail
  if [ $# = 1 ]; then
    other=$(sed -n 's/\r$//; /^accepted [0-9 ]*$/p; /^ids [0-9]*$/p; /^text [0-9]*$/p' -- "$1") || {
      say "$1, which is to have the lines of another member's \`rls check\`, can't be read."
      exit 8
    }
    [ "$(wc -l <<<"$other")" = 3 ] || {
      say "$1 doesn't have the three lines that \`rls check\` prints."
      exit 4
    }
  fi
  sum_up
  printf '%s\n' "$lines" || exit 9
  [ $# = 0 ] || compare "$lines" "$other"
  exit 0
}

# Says whether these lines and those of another member are the same, and ends with NOT_EQUAL if not.
compare() {
  if [ "$1" = "$2" ]; then
    say 'the two copies are equal.'
  elif [ "${1%%$'\n'*}" = "${2%%$'\n'*}" ]; then
    say 'the two copies differ, though both have as many operations of each member: a rule was broken, such as a number that was used twice, or files' \
      'that were put back from a copy. Keep what `rls text` prints on both sides. docs/USE.md, "A text goes on in a new group", is the way out.'
    exit "$NOT_EQUAL"
  else
    say 'the two copies differ in the operations that they have: exchange messages in both directions, and compare again.'
    exit "$NOT_EQUAL"
  fi
}

# --- retire N

# What nothing but retiring would change: says why, and ends.
stays() { say "$@" 'Nothing was done.'; exit "$NOT_SAFE"; }

# The numbers of four bytes in the stored file, from a place on, into this list: as many as are said, or it ends the script.
stored_numbers() {
  local -n list=$1
  read -r -d '' -a list < <(od -An -v -tu4 --endian=big -j $((before + $2)) -N $((4 * $3)) "$stored" 2>/dev/null)
  [ "${#list[@]}" = "$3" ] || {
    say "the files of this replica can't be looked at by the command \`od\`. Nothing was done."
    exit 7
  }
}

# The number after this name in the lines of `rls stat`.
number_of() { sed -n "s/^$1 //p" <<<"$numbers"; }

# Ends the script if the stored file shows that the number is in use, or has left.
look_at_number() {
  local number=$1 me=$2 members=$3 has_left row known k count
  # docs/FORMATS.md: after the counts come those that each other member was known to have, and then who has left.
  find_stored
  stored_numbers has_left $((21 + 4 * members * members)) 1
  stored_numbers has_left $((21 + 4 * members * members)) $((1 + has_left[0]))
  for ((k = 1; k <= has_left[0]; k++)); do
    [ "${has_left[k]}" != "$number" ] || stays "number $number has left or was retired already."
  done
  count=$(number_of accepted | cut -d ' ' -f $((number + 1)))
  [ "$count" = 0 ] || stays "number $number has made $count operations, so it is in use. Only \`rls leave\` in its own folder ends its part."
  row=$((number < me ? number : number - 1))
  stored_numbers known $((21 + 4 * members * (row + 1))) "$members"
  [[ ${known[*]} != *[1-9]* ]] ||
    stays "number $number is in use: a message of it was taken here. Only \`rls leave\` in its own folder ends its part."
}

retire() {
  local number=$1 numbers group me members stored before form=
  # Only the newest form of files says who has left; a command that stores writes it.
  find_stored && read -r form < <(od -An -tu1 -j $((before + 4)) -N 1 "$stored" 2>/dev/null)
  [ "$form" = 4 ] || perform edit </dev/null >/dev/null || exit
  numbers=$(perform stat) || exit
  group=$(number_of group) me=$(number_of me) members=$(number_of members)
  if ! [[ $number =~ ^(0|[1-9][0-9]?)$ ]] || [ "$number" -ge "$members" ]; then stays "the members are numbered from 0 to $((members - 1))."; fi
  [ "$number" != "$me" ] || stays "$me is this member's own number: \`rls leave\` ends its part."
  look_at_number "$number" "$me" "$members"
  ask "after this nobody can ever use number $number. If anybody has begun with it, on any machine, the texts will differ for ever."
  make_room
  (cd "$room" && "$program" new "$group" "$number" "$members" && "$program" leave && "$program" send "$me" >message) >/dev/null || exit
  perform take <"$room/message" >/dev/null
  [ "$status" != 0 ] || echo "retired $number"
  exit "$status"
}

# --- restart GROUP ME MEMBERS [FOLDER]

# Sets `numbers`, and keeps the text in the room, of a large file: from a copy without the operations that wait, of which the program holds each in
# memory, with some 24 times its bytes. A file for which that doesn't go well is read whole.
read_apart() {
  local number=0 stored before
  . "$top/bin/rls-explain.bash"
  stored_size && find_stored && [ "$number" -ge 16777216 ] && command -v python3 >/dev/null && mkdir "$room/apart" || return
  PYTHONPATH=$top/examples/python PYTHONDONTWRITEBYTECODE=1 python3 -S -m rls.waiting "$stored" "$before" "$number" >"$room/apart/replica.rls" 2>/dev/null &&
    numbers=$(cd "$room/apart" && "$program" stat 2>/dev/null) && (cd "$room/apart" && exec "$program" text) >"$room/text" 2>/dev/null && rm -r "$room/apart"
}

# Begins a replica of another group in a new folder, with the text of this one, and changes nothing here.
restart() {
  local folder=${4-} numbers
  [[ $1 =~ ^[0-9]+$ && $2 =~ ^[0-9]+$ && $3 =~ ^[0-9]+$ ]] || { . "$top/bin/rls-explain.bash" && refuse_words restart "$@"; }
  make_room
  read_apart || { numbers=$(perform stat) && perform text >"$room/text"; } || exit
  [ "$(number_of group)" != "$1" ] ||
    stays "this text has number $1 itself, and its operations would be mixed with those of the new one. Take a GROUP that no text of these members has."
  : >"$room/nothing" && write_script "$room/nothing" "$room/text"
  [ -n "$folder" ] || folder=$(dirname -- "$PWD")/$(basename -- "$PWD")-$1
  case $folder in /*) ;; *) folder=$PWD/$folder ;; esac
  begun=$folder.$$
  if [ -e "$folder" ] || [ -L "$folder" ] || ! mkdir -- "$begun"; then
    say "the new replica needs a new folder, and $folder can't be made. A fourth word names another one: rls restart GROUP ME MEMBERS FOLDER"
    exit 7
  fi
  trap 'rm -rf "$room" "$begun"' EXIT
  (fill "$begun" "${@:1:3}")
  status=$?
  # It gets its name when it is whole.
  if [ "$status" = 0 ]; then mv -T -- "$begun" "$folder" || status=7; fi
  if [ "$status" != 0 ]; then
    say 'no new replica was begun, and nothing else was changed.'
  elif sync_name_of "$folder"; then
    echo "restarted $1 $2 $3 in $folder"
  fi
  exit "$status"
}

# Begins the replica there and performs the script, in parts that one command may have.
fill() {
  local folder=$1 part
  shift
  cd -- "$folder" || return 7
  perform new "$@" >/dev/null || return
  split -C 67108864 "$room/script" "$room/part." || return 8
  for part in "$room"/part.*; do
    [ ! -f "$part" ] || perform edit <"$part" >/dev/null || return
  done
}

# --- send TO --told FILE

# The program makes such a message in a session alone, which stores the replica's file at its end.
send_told() {
  local LC_ALL=C one two group members whose number counts='' its line
  . "$top/bin/rls-heads.bash"
  if [ ! -r "$2" ] || [ -d "$2" ]; then
    say "$2 can't be read. Nothing was done."
    exit 8
  fi
  read_head <"$2"
  [ "$whose" = "$1" ] || {
    say "$2 is a message of member $whose, and not of member $1. Nothing was done."
    exit 4
  }
  its="$group $members"
  if ! read_own || ! parse_head; then
    perform send "$1"
    exit
  fi
  [ "$its" = "$group $members" ] || {
    say "$2 is a message of another text. Nothing was done."
    exit 4
  }
  make_room
  printf 'v 4\ns %s%s\nq\n' "$1" "$counts" >"$room/requests"
  perform session <"$room/requests" >"$room/replies" || exit
  {
    IFS= read -r line
    if [ "$line" = 'version 4' ]; then IFS= read -r line; fi
  } <"$room/replies"
  # An older program: it makes the message that doesn't look at what was told.
  if ! [[ $line =~ ^message\ ([0-9]+)$ ]]; then
    perform send "$1"
    exit
  fi
  tail -c "+$((12 + ${#line}))" "$room/replies" | head -c "${BASH_REMATCH[1]}" || {
    [ -p /dev/stdout ] || say "the output can't be written."
    exit 9
  }
  exit 0
}
