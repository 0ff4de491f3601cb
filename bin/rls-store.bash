# What commands that store need beside bin/rls, which reads this for them: the lock of the folder, what is looked at before, the input, and
# what is said of a file that has grown.
# shellcheck shell=bash
# bin/rls sets `top`, `program`, `status`, NOT_SAFE, `say`, `refuse`, `find_stored` and `perform`.
# shellcheck disable=SC2154

# Asks on a terminal before something that can't be taken back.
ask() {
  local answer
  [ -t 0 ] && [ -t 2 ] || return 0
  printf 'rls: %s Go on? Type yes: ' "$1" >&2
  read -r answer
  [ "$answer" = yes ] && return 0
  say 'nothing was done.'
  exit "$NOT_SAFE"
}

# --- What is looked at before a command

# Waits until no other command stores into this folder. Commands that only read don't wait, so that `rls text | .. | rls edit` can go on.
lock() {
  # Whoever calls this script with RLS_LOCKED=1 holds the lock already.
  [ -n "${RLS_LOCKED:-}" ] && return 0
  command -v flock >/dev/null 2>&1 || {
    say "there is no command \`flock\` here, so nothing keeps two commands from storing into this folder at once: run one at a time." \
      'RLS_LOCKED=1 says that you see to it, and that this line is not wanted.'
    return 0
  }
  # The program inherits it, so it lasts as long as the program, also if this script is killed.
  if { exec 9<.; } 2>/dev/null; then
    flock -n 9 && return 0
    # 1 is the answer of a lock that another one has.
    if [ $? = 1 ]; then
      say 'another command works in this folder, or an editor has it open; waiting for it.'
      flock 9 && return 0
    fi
  fi
  [ -n "${RLS_FORCE:-}" ] || refuse "$PWD can't be locked, so nothing would keep two commands from storing into it at once, and one of the two would be lost." \
    'RLS_LOCKED=1 says that you see to it.'
}

# Takes the lock once the input is there, so that one that is long in coming keeps nobody out. Another command may have noted something since.
lock_late() {
  lock
  [ ! -s replica.stale ] || { . "$top/bin/rls-heads.bash" && look_at_stale "$1"; }
}

# The group that a file gets which is made here.
group_here() { if [ -g . ]; then stat -c %g .; else id -g; fi; }

# The program replaces `replica.rls` by a new file, of the user who runs it. Others are to have the permissions of the old one, and a link would go.
look_at_file() {
  local mode owner group
  [ ! -L replica.rls ] || refuse "replica.rls is a symbolic link. The command would put a file in its place, and what the link names would stay old." \
    'Go to the folder of that file; or move it here.'
  read -r mode owner group file_size < <(stat -c '%a %u %g %s' replica.rls 2>/dev/null) || return 0
  if [ "$owner" != "$EUID" ] || { [ $((8#$mode & 8#060)) != 0 ] && [ "$group" != "$(group_here)" ]; }; then
    refuse "replica.rls belongs to another user or to another group, and the command would put a file in its place that doesn't: they might not read or write it any more." \
      'Who owns it can run the command, in the group of the file. The files replica.0, replica.1 and replica.gate are written as they are, and keep both.'
  fi
  umask "$(printf %o $((~8#$mode & 8#066)))"
}

# Whether the files of the replica may be written, or there is none.
may_store() {
  local stored before
  find_stored || return 0
  if [ "$stored" = replica.rls ]; then [ -w . ]; else [ -w replica.0 ] && [ -w replica.1 ] && [ -w replica.gate ]; fi
}

look_at_session() {
  if ! may_store; then
    set -- "the files of the replica in $PWD may not be written, so nothing that a session does could be stored." \
      'Who may write here? `rls text` and `rls send TO` need no more than reading.'
    [ -n "${RLS_FORCE:-}" ] || refuse "$@"
    say "$@"
  fi
  if [ -t 0 ]; then say "reading requests from the terminal, one a line; the line \`q\` stores and ends."; fi
}

look_first() {
  case $1 in
    edit | take) ;;
    leave) [ -n "${RLS_FORCE:-}" ] || ask 'after this the replica in this folder can never edit again.'; lock ;;
    *) lock ;;
  esac
  case $1 in restart) ;; *) if [ -e replica.rls ] && [ -z "${RLS_FORCE:-}" ]; then look_at_file; fi ;; esac
  if [ "$1" = session ]; then look_at_session; fi
}

look_before() {
  case $1 in
    new)
      . "$top/bin/rls-more.bash"
      look_at_new "$@"
      ;;
    edit) [ ! -t 0 ] || say 'reading a script from the terminal, one edit a line; Ctrl-D at the beginning of a line ends it.' ;;
    take) [ ! -t 0 ] || refuse 'a message is taken from a file or a program: rls take < MESSAGE' ;;
  esac
}

# The name of a folder is in the folder above it, and is kept once that is synced. Where that may not be read there is no way to sync it.
sync_name_of() {
  local above=$1/..
  [ -r "$above" ] || return 0
  sync -- "$above" && return
  say "the disk has not taken the name of this folder: a power failure now might take it away. See whether it is full, and run \`sync\`."
  status=7
  return 7
}

# --- The input

# Makes the input a file that can be read twice. What was read of it already, as `printf %b` spells its end, comes first.
hold_input() {
  local pos file kept=1
  # (as descriptor 0 the file that is read here would tell its own place)
  if [ $# = 0 ] && [ -f /dev/stdin ] && [ -r /dev/stdin ] && read -r -u 8 _ pos 8</proc/self/fdinfo/0 && [ "$pos" = 0 ]; then return 0; fi
  file=$(mktemp) || return 1
  # One byte more than a message or a script may have, at least. If not all of it can be kept, nothing of it may be performed.
  if ! { printf '%s%b' "${1-}" "${2-}" && head -c 67108865; } >"$file" || ! exec <"$file"; then kept=0; fi
  rm -f "$file" || say "$file has what was read here, and can't be removed."
  [ "$kept" = 1 ]
}

# The same for a script. A short one is held in a variable, which starts no other program.
hold_script() {
  local LC_ALL=C text
  if ! [ -p /dev/stdin ]; then
    hold_input || return
    if [ -f /dev/stdin ] && ! IFS= read -r -d '' -n 1024 text </dev/stdin; then held=$text; fi
  elif IFS= read -r -d '' -n 1024 text; then
    # There is more; after a byte 0, if these were less.
    if [ "${#text}" = 1024 ]; then hold_input "$text" ''; else hold_input "$text" '\0'; fi
  else
    held=$text
    if [ -n "$text" ]; then exec <<<"${text%$'\n'}"; else exec </dev/null; fi
  fi
}

# The size of a slot's file, which stands in its first eight bytes.
slot_size() {
  local LC_ALL=C byte k
  number=0
  for k in 1 2 3 4 5 6 7 8; do
    IFS= read -r -d '' -n 1 byte || [ -n "$byte" ] || return
    printf -v byte %d "'$byte"
    number=$((number << 8 | byte & 255))
  done 2>/dev/null <"$1"
}

# The bytes of replica.rls before the command.
file_size=0

# Says that the stored file is nearly full, from nine tenths of its limit on; or that a rename or an exchange is due if it is much larger than its
# text. At that it looks only when the file has just grown to 64 KB, 128 KB and so on: one of the slots has the file from before. After `take` a rename
# isn't advised.
advise() {
  local stored before number new=$file_size old mark=65536
  find_stored || return
  if [ "$before" = 8 ]; then slot_size "$stored" && new=$number || return; fi
  if [ "$new" -ge 241591911 ]; then
    . "$top/bin/rls-explain.bash"
    advise_full "$new"
    return
  fi
  [ "$1" = edit ] && [ "$before" = 8 ] && [ "$new" -ge "$mark" ] && [ "${RLS_RENAME_AT:-}" != 0 ] || return
  slot_size "replica.$((1 - ${stored#replica.}))" && old=$number || old=0
  while [ $((2 * mark)) -le "$new" ]; do mark=$((2 * mark)); done
  if [ "$old" -lt "$mark" ]; then
    . "$top/bin/rls-explain.bash"
    advise_on "$new"
  fi
}

# --- edit

edit() {
  hold_script || { say 'the script could not be kept in a file for a moment.'; exit 8; }
  lock_late edit
  perform edit
  case $status in
    0 | 5)
      advise edit
      # A line of another kind that ends with a carriage return is refused.
      case ${held-} in
        '') [ ! -f /dev/stdin ] || ! LC_ALL=C grep -q $'\r$' /dev/stdin || tell_returns ;;
        *$'\r\n'* | *$'\r') tell_returns ;;
      esac
      ;;
  esac
}

tell_returns() {
  say "lines of the script end with a carriage return, as those of Windows do, and the text has these now: tr -d '\\r' takes them out of a script."
}
