# What the program's line on standard error means, and what to do: bin/rls reads this after a command that failed, and calls `tell`; after words
# that are no command, refuse_words; and where a stored file has just grown, advise_on. docs/USE.md has the same as a table.
# shellcheck shell=bash
# bin/rls sets `program`, `status`, `errors`, `say` and `find_stored`.
# shellcheck disable=SC2154

# A pattern of bash takes time with the square of what it looks at, and a line may have 64 MB. So only the front of a line is held in a
# variable, and programs look at the whole.

# The line of the script that has this number.
whole_line() {
  if [ -n "${held-}" ]; then sed -n "$1{p;q}" <<<"$held"; else [ -f /dev/stdin ] && LC_ALL=C sed -n "$1{p;q}" /dev/stdin 2>/dev/null; fi
}

# Its first bytes in `raw`, its last one in `last`, and in `shown` as much as a terminal may show.
script_line() {
  local text
  [ -n "${held-}" ] || [ -f /dev/stdin ] || return 1
  text=$(whole_line "$1" | head -c 400 | tr -d '\000')
  last=$(whole_line "$1" | tail -c 2 | tr -d '\000')
  raw=$text
  [ "${#text}" -le 60 ] || text="${text:0:57}..."
  shown=${text//[[:cntrl:]]/?}
}

# What the program wrote on standard error, in `errors`, and after a failure what it means.
tell() {
  # Whoever reads a text by a pipe and stops, as `head` and pagers do, has what he wants.
  case "$status $1" in '9 text' | '9 ids' | '9 stat' | '9 send' | '9 trial') if [ -p /dev/stdout ]; then return 9; fi ;; esac
  [ -z "$errors" ] || printf '%s\n' "$errors" >&2
  [ "$status" = 0 ] || explain "$status" "$errors" "$1"
  return "$status"
}

# Words that are no command: this script says what is wrong with them, and after it the program its line.
refuse_words() {
  local errors
  errors=$("$program" "$@" 2>&1 </dev/null)
  status=$?
  explain_words "${1-}"
  printf '%s\n' "$errors" >&2
  exit "$status"
}

explain() {
  local status=$1 line=$2 command=$3
  local -a words
  # The last line. A longer one than this is about operations that were refused, and then no more than the status is looked at.
  [ "${#line}" -le 400 ] || line=${line: -400}
  line=${line##*$'\n'}
  read -r -a words <<<"$line"
  case "$status $line" in
    '1 '*) say "a number is too great, or has a zero or a sign in front. \`rls help\` explains the words." ;;
    '2 no replica') say "there is no replica in $PWD. Go to the folder of one, or begin one here: rls new GROUP ME MEMBERS" ;;
    '2 replica exists') say "$PWD has a replica already, and each needs a folder of its own." ;;
    '3 '*) say 'the stored file is not right from that byte on, and stays as it is. If another command stored just now, try again; otherwise docs/USE.md, "A replica is lost", says how to go on.' ;;
    '4 bad members '*) say 'MEMBERS is how many members the text may ever have, from 1 to 64.' ;;
    '4 bad me '*) say 'ME is your own number: members are numbered from 0, so it is below MEMBERS.' ;;
    '4 not a member '*) say "members are numbered from 0, and \`rls stat\` says how many there may be." ;;
    '4 bad line '*) explain_bad_line "${words[2]}" ;;
    '4 malformed at 4') say 'the message was written by a newer program, or is none. Nothing was taken.' ;;
    '4 malformed '*) say 'this is no message, or it was cut off or changed on its way. Nothing was taken: ask for it again.' ;;
    '4 other group '*) say "the message is of text number ${words[2]} with ${words[3]} members, and the replica here is of another; \`rls stat\` says of which. Nothing was taken." ;;
    '5 '*) say 'all else was done. An operation that can not be right comes from a member that broke a rule: a number that was used twice, files put back from a copy, or another program (docs/USE.md, "Rules").' ;;
    '6 line '*) explain_refused "${words[1]%:}" "${line#*: }" "$command" ;;
    '7 '*) explain_keeper ;;
    '8 '*) say "the input can't be read. Nothing was stored." ;;
    '9 '*)
      case $command in
        text | ids | stat | send | trial) say "the output can't be written, or what reads it has stopped." ;;
        *) say "the output can't be written. What the command stores is stored." ;;
      esac
      ;;
    '10 '*) say "whether anything was stored is for \`rls text\` to show. It may help to close other programs." ;;
    '11 '*) explain_too_large "$command" ;;
  esac
}

# The program doesn't say why. So what it does is tried here: each file is opened, and as much as the stored one has, and 64 KB, is written beside it.
# `why` is what the system says; it is empty if all of this works by now.
ask_system() {
  # shellcheck disable=SC2034
  local name stored before size=65536
  for name in replica.rls replica.gate replica.0 replica.1; do
    [ -e "$name" ] || continue
    why=$({ : <"$name" && : >>"$name"; } 2>&1) || return 0
  done
  if find_stored; then size=$((65536 + $(stat -c %s "$stored" 2>/dev/null || echo 0))); fi
  why=$( (: >"replica.probe.$$" && head -c "$size" /dev/zero >"replica.probe.$$") 2>&1)
  rm -f "replica.probe.$$"
}

explain_keeper() {
  local why='' after='The command may have been stored all the same: look at `rls text` before you repeat it.'
  ask_system
  why=${why##*: }
  if [ -n "$why" ]; then
    say "the files of the replica in $PWD can't be read or written. The system says: $why. $after"
  else
    say "the files of the replica in $PWD can't be read or written: is the disk full, or who may write there? $after"
  fi
}

explain_bad_line() {
  local shown raw last why="A line is \`i POS TEXT\`, \`d POS COUNT\`, \`b POS\` or \`r\`."
  script_line "$1" || shown='' raw=' ' last=' '
  if [ -z "$raw" ]; then
    why='A script has no empty lines.'
  elif [[ $raw = $'\xef\xbb\xbf'* ]]; then
    why='It begins with a byte order mark, which a terminal does not show: take out these three bytes.'
  elif [[ $raw =~ ^[idb]$'\t' || $raw =~ ^[idb]\ [0-9]+$'\t' ]]; then
    why='Between its parts is one space, and no tab.'
  elif [[ $raw =~ ^[idb]\ ([-+]|0[0-9]|[0-9]{20}) || $raw =~ ^d\ [0-9]+\ ([-+]|0[0-9]|[0-9]{20}) ]]; then
    why='A number is too great, or has a zero or a sign in front.'
  elif [ "${raw:0:2}" != 'i ' ] && [ "$last" = $'\r' ]; then
    why="It ends with a carriage return, as lines of Windows do: tr -d '\\r' takes those out."
  elif [[ $raw =~ ^i\ [0-9]+\  ]] && command -v iconv >/dev/null && ! whole_line "$1" | iconv -f UTF-8 -t UTF-8 >/dev/null 2>&1; then
    why='It is no text in UTF-8.'
  elif [[ $raw =~ ^i\ [0-9]+\  ]] && whole_line "$1" | LC_ALL=C sed 's/\\[nr\\]//g' | LC_ALL=C grep -qa '[\]'; then
    why='In a text \n is a line feed, \r a carriage return and \\ a backslash, and nothing else follows a backslash.'
  fi
  say "line $1 of the script${shown:+ is \`$shown\`}. $why Nothing was done."
}

# --- Limits


# Sets `grouped` to a number with a comma before each three digits.
group() {
  local rest=$1
  grouped=
  while [ "${#rest}" -gt 3 ]; do grouped=,${rest: -3}$grouped rest=${rest:0:-3}; done
  grouped=$rest$grouped
}

# Sets `number` to the bytes of the stored file. A slot's file may be longer.
stored_size() {
  local stored before
  find_stored || return
  declare -F slot_size >/dev/null || . "$top/bin/rls-store.bash"
  if [ "$before" = 8 ]; then slot_size "$stored"; else number=$(stat -Lc %s "$stored" 2>/dev/null); fi
}

go_on="\`rls restart GROUP ME MEMBERS\` begins a new group with the text alone, which is far shorter (docs/USE.md, \"Limits\")."

# Which of the two limits it was, with both numbers, what still works, and the way out.
explain_too_large() {
  local number=0 size='' grouped bytes
  case $1 in edit | take) [ ! -f /dev/stdin ] || size=$(stat -Lc %s /dev/stdin 2>/dev/null) ;; esac
  group "${size:=0}" && bytes=$grouped
  if [ "$size" -gt 67108864 ]; then
    if [ "$1" = take ]; then
      say "the message has $bytes bytes or more, and may have 67,108,864; none that \`rls send\` writes has more. Nothing was taken: ask for it again."
    else
      say "the script has $bytes bytes or more, and may have 67,108,864. Nothing was stored. In parts it can be performed:" \
        "split -C 67108864 SCRIPT part. && for part in part.*; do rls edit <\"\$part\" || break; done"
    fi
    return
  fi
  stored_size
  group "${number:-0}"
  say "the stored file has $grouped bytes, and would have more than the 268,435,456 that it may have. Nothing was stored." \
    'It can be read all the same, and `rls send TO` works. It gets shorter once messages show that the others have what is in it.'
  say "A shorter input may still fit. $go_on"
}

# Says that the file is nearly full, once a day: a file beside it has when it was said.
advise_full() {
  local told='' number grouped
  [ ! -s replica.told ] || { read -r told <replica.told; } 2>/dev/null
  if [[ $told =~ ^[0-9]{1,12}$ ]] && ((10#$told <= EPOCHSECONDS && EPOCHSECONDS < 10#$told + 86400)); then return; fi
  { echo "$EPOCHSECONDS" >replica.told; } 2>/dev/null
  group "$1"
  say "the stored file has $grouped bytes of the 268,435,456 that it may have. When it is full, nothing can be stored any more. It gets shorter once messages" \
    "show that the others have what is in it. If that doesn't help, $go_on"
}

# What is said of an operation of this many bytes.
why_operation() {
  local grouped help
  group "$1"
  case $raw in
    r*) help="The text can be edited as before. $go_on" ;;
    d*) help='Delete in parts, or rename before: echo r | rls edit' ;;
    *) help='The identifiers at this place are long. Rename before: echo r | rls edit' ;;
  esac
  why="it would need $grouped bytes, and an operation may have 16,777,216. $help"
}

explain_refused() {
  local shown='' raw='' last='' why
  local -a words
  read -r -a words <<<"$2"
  [ "$3" = leave ] || script_line "$1"
  case $2 in
    range*)
      why="position ${words[1]} is asked for, and the text has ${words[2]} characters then"
      if [[ $raw =~ ^d\ ([0-9]+)\ ([0-9]+)$ ]]; then
        why="it deletes ${BASH_REMATCH[2]} characters from position ${BASH_REMATCH[1]} on, and the text has ${words[2]} then"
      fi
      [ "$raw" != 'b 0' ] || why='no character comes before the first position'
      ;;
    'empty edit') why='there is nothing to insert or to delete' ;;
    'empty document') why='the text is empty, so there is nothing to rename' ;;
    'not a boundary'*) why="no character, as a reader sees it, ends at ${words[3]}" ;;
    'too many characters'*) why="it has ${words[3]} characters: an insertion may have 1,048,576, and a deletion or a rename 4,194,304" ;;
    'operation too large'*) why_operation "${words[3]}" ;;
    'numbers spent') why='this member has made as many operations as there may be: begin with another number' ;;
    left) why='this member has left or was retired, and can never edit again' ;;
    *) return ;;
  esac
  say "line $1${shown:+ is \`$shown\`}: ${why%.}. Nothing was stored."
}

# What comes before the usage line of the program, which doesn't know the commands of the launcher.
explain_words() {
  local part=" $1"
  case $1 in
    new) say 'three numbers come after it: rls new GROUP ME MEMBERS' ;;
    restart) say 'three numbers come after it, and the new folder if you want: rls restart GROUP ME MEMBERS FOLDER' ;;
    edit) say 'a script comes from standard input: rls edit < SCRIPT; or: rls edit --text FILE' ;;
    retire) say 'a number comes after it: rls retire NUMBER' ;;
    take) say 'a message comes from standard input: rls take < MESSAGE' ;;
    head) say 'a message comes from standard input: rls head < MESSAGE' ;;
    send) say 'TO is the number of a member, and FILE a message of that member: rls send TO > MESSAGE; or: rls send TO --told FILE > MESSAGE' ;;
    trial) say 'two numbers come after it: rls trial SEED STEPS' ;;
    check) say 'at most one file comes after it: rls check FILE' ;;
    text | ids | stat | leave | session | build) say 'nothing comes after it.' ;;
    *)
      part=
      [ -z "$1" ] || say "there is no command \`$1\`."
      say 'the commands are: share, join, sync, who, where, drop, give, part, new, edit, text, send, take, head, stat, check, ids, session, leave, retire, restart, trial, build, help and --version.'
      ;;
  esac
  say "\`rls help$part\` explains the words."
}

# Says what makes the stored file shorter, which has this many bytes now. As long as somebody lacks the last rename, the next one makes nothing shorter,
# and what that member writes longer; it is due all the same before its operation could become too large, which has less than the file.
advise_on() {
  local name value most=${RLS_RENAME_AT:-500} total=0 runs=0 unstable=0 epochs=1
  while read -r name value; do
    case $name in total | runs | unstable | epochs) local "$name=$value" ;; esac
  done < <("$program" stat 2>/dev/null)
  if [ "$runs" -gt "$most" ] && { [ "$epochs" = 1 ] || [ "$1" -ge 4194304 ]; }; then
    say "the stored file has $1 bytes for $total characters in $runs runs: \`echo r | rls edit\` makes it shorter (docs/USE.md, \"When to rename\")."
  elif [ "$1" -gt $((32 * total)) ]; then
    say "the stored file has $1 bytes for $total characters, since $unstable operations stay until every member is known to have them: exchange messages (docs/USE.md, \"Numbers that nobody uses\")."
  fi
}
