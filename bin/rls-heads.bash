# Heads of messages and of stored files, as docs/FORMATS.md spells them, and what they show: bin/rls reads this for `take`, `send` and `head`,
# and where a message has shown that the files of a folder are old.
# shellcheck shell=bash
# bin/rls sets `program`, `status`, NOT_SAFE, `say`, `refuse`, `find_stored` and `perform`.
# shellcheck disable=SC2154

# A variable can't hold a byte 0. So bytes are split there, and put together twice: `one` has a byte 254 in place of each, and `two` a byte 253.
# Where these differ there is a byte 0. bash takes its time for each step, so numbers are made of bytes only where they are needed.

# The first `wanted` bytes of standard input, or as many as there are.
read_bytes() {
  local IFS='' part wanted=$1
  local -a parts=()
  while [ "$wanted" -gt 0 ]; do
    read -r -d '' -n "$wanted" part || wanted=-1
    parts+=("$part") wanted=$((wanted - ${#part} - 1))
  done
  # (the last byte is a 0)
  [ "$wanted" != 0 ] || parts+=('')
  IFS=$'\376' && one="${parts[*]}"
  IFS=$'\375' && two="${parts[*]}"
}

# The number in four bytes, which both strings have.
number_of() {
  local k byte places='0 1 2 3'
  number=0
  # Most numbers are below 256.
  if [[ $1 = $'\376\376\376'* && $2 = $'\375\375\375'* ]]; then places=3; fi
  for k in $places; do
    byte=0
    [[ ${1:k:1} != "${2:k:1}" ]] || printf -v byte %d "'${1:k:1}"
    number=$((number << 8 | byte & 255))
  done
}

# The group, members and whose it is, of a head in `one` and `two`. Messages and files have them, and then the counts of accepted operations,
# at the same places.
parse_head() {
  local number
  number_of "${one:5:4}" "${two:5:4}" && group=$number
  number_of "${one:9:4}" "${two:9:4}" && printf -v group %u $((group << 32 | number))
  number_of "${one:13:4}" "${two:13:4}" && members=$number
  number_of "${one:17:4}" "${two:17:4}" && whose=$number
}

# The head of this replica in `one` and `two`, `members`, and its own number `me`. A file has many bytes 0, so that splitting it ends soon.
# The oldest form of files has no counts, so there it is the head of a message.
read_own() {
  local stored before number zeros=48 IFS
  local -a parts=()
  find_stored && [ -r "$stored" ] || return
  while :; do
    mapfile -d '' -n "$zeros" parts <"$stored"
    IFS=$'\376' && one="${parts[*]}"
    IFS=$'\375' && two="${parts[*]}"
    one=${one:before} two=${two:before}
    [ "${one:0:4}" = RLSF ] || return
    if [ "${one:4:1}" = $'\1' ]; then read_bytes 277 < <(exec "$program" send 0 2>/dev/null); fi
    number_of "${one:13:4}" "${two:13:4}" && members=$number
    if [ "${#one}" -ge $((21 + 4 * members)) ] || [ "$zeros" != 48 ]; then break; fi
    zeros=$((before + 22 + 4 * 64))
  done
  number_of "${one:17:4}" "${two:17:4}" && me=$number
  [ "${#one}" -ge $((21 + 4 * members)) ]
}

# How many operations of a member the head in `one` and `two` counts.
count_at() { number_of "${one:21 + 4 * $1:4}" "${two:21 + 4 * $1:4}"; }

# --- Files that were put back from a copy

refuse_stale() {
  refuse "member $4 knows $1 operations of member $3, but this replica of member $3 has made $2. $5" \
    'So the files here were put back from a copy, or made anew with a number that was used, or two members have one number. What is' \
    'edited here would get numbers that are taken, and the texts of the members would differ for ever. Use the newer files; or keep' \
    "what \`rls text\` prints, and begin in a new folder with a number that nobody has used (docs/USE.md, \"A replica is lost\")."
}

# Whether an earlier message has shown that the files here are old, before a command that makes operations or sends them. Once the newer ones
# are back, nothing is said any more.
look_at_stale() {
  case $1 in edit | send | leave | session) ;; *) return 0 ;; esac
  local LC_ALL=C one two number group members whose me stale known sender
  read -r stale known sender <replica.stale && [[ $known =~ ^[0-9]{1,10}$ ]] || return 0
  read_own && parse_head && [ "$stale" = "$group-$members-$me" ] && count_at "$me" && [ "$known" -gt "$number" ] || return 0
  if [ -n "${RLS_FORCE:-}" ]; then
    doubt "$stale" "$sender"
    return
  fi
  say "the folder remembers (replica.stale) that a message was refused here. If no other copy of this folder was ever used, somebody has written in" \
    "the name of member $sender what is not so. Then say so once, by RLS_FORCE=1 with this command: from then on no message in that name keeps you" \
    'from editing. Take no message from that member.'
  refuse_stale "$known" "$number" "$me" "$sender" 'Nothing was done.'
}

# A message can be forged, and so can what it counts of this member's operations. Whoever runs a command by RLS_FORCE=1 although it was refused for
# that says that it was: the folder notes the member in whose name it was written, and what such a message counts is noted no more. Each of them is
# refused all the same.
doubt() {
  { echo "$1 $2" >>replica.doubted && rm -f replica.stale; } 2>/dev/null
}
is_doubted() { [ -s replica.doubted ] && grep -qx -- "$1 $2" replica.doubted; }

# --- send

send() {
  perform send "$1"
  if [ "$status" = 0 ] && is_own "$1"; then
    say "$1 is this member's own number, so this message is for nobody: TO is the number of another member."
  fi
}

is_own() {
  local LC_ALL=C one two members me
  read_own && [ "$me" = "$1" ]
}

# --- head

# Reads the head of a message from standard input: `group`, `members`, `whose`, and in `counts` a space before each count.
read_head() {
  local form k
  counts=''
  read_bytes 277
  printf -v form %d "'${one:4:1}"
  if [ "${one:0:4}" != RLSM ] || [ "${one:4:1}" != "${two:4:1}" ] || [ "$form" = 0 ]; then
    say 'this is no message.'
    exit 4
  elif [ "$((form & 255))" -gt 3 ]; then
    say 'the message was written by a newer program.'
    exit 4
  fi
  parse_head
  if [ "${#one}" -lt 21 ] || [ "$members" = 0 ] || [ "$members" -gt 64 ] || [ "$whose" -ge "$members" ] || [ "${#one}" -lt $((21 + 4 * members)) ]; then
    say 'this is no message, or it was cut off or changed on its way: ask for it again.'
    exit 4
  fi
  for ((k = 0; k < members; k++)); do count_at "$k" && counts+=" $number"; done
}

# Prints the head of a message that comes from standard input.
print_head() {
  local LC_ALL=C one two group members whose number counts
  [ ! -t 0 ] || {
    say 'a message is read from a file or a program: rls head < MESSAGE'
    exit "$NOT_SAFE"
  }
  read_head
  trap '' PIPE
  { printf 'group %s\nmembers %s\nsender %s\ncounts%s\n' "$group" "$members" "$whose" "$counts"; } 2>/dev/null || {
    [ -p /dev/stdout ] || say "the output can't be written."
    exit 9
  }
}
