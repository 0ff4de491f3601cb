# `rls take`: bin/rls reads this for it, after rls-store.bash and rls-heads.bash.
# shellcheck shell=bash
# bin/rls sets `top`, `program`, `status`, `say` and `refuse`; rls-heads.bash sets `read_own`, `read_bytes`, `count_at`, `is_doubted` and `refuse_stale`;
# rls-store.bash sets `hold_input`, `lock_late` and `advise`.
# shellcheck disable=SC2154

# Refuses a message whose sender has more operations of this member than this member has made, and notes it. Whether the message is one of
# this group, with as many members, is for `take` to say: then `theirs` is empty.
guard() {
  local LC_ALL=C one two group members whose me number made
  local -a mine
  theirs=()
  read_own || return 0
  mine=("$one" "$two") && count_at "$me" && made=$number
  read_bytes $((21 + 4 * members)) </dev/stdin
  [ "${one:0:4}" = RLSM ] && [[ ${one:4:1} = [$'\1'$'\2'$'\3'] ]] && [ "${#one}" = $((21 + 4 * members)) ] &&
    [ "${one:5:12}" = "${mine[0]:5:12}" ] && [ "${two:5:12}" = "${mine[1]:5:12}" ] || return 0
  theirs=("$one" "$two")
  count_at "$me"
  if [ "${one:17:4}" = "${mine[0]:17:4}" ] && [ "${two:17:4}" = "${mine[1]:17:4}" ]; then
    if [ "$number" -gt "$made" ]; then refuse_used_twice; fi
    say "the message is from number $me, which is this replica's own. If \`rls send\` didn't make it in this folder, number $me is used twice (docs/USE.md, \"A number used twice\")."
  fi
  [ "$number" -gt "$made" ] || return 0
  parse_head
  is_doubted "$group-$members-$me" "$whose" || { echo "$group-$members-$me $number $whose" >replica.stale; } 2>/dev/null
  refuse_stale "$number" "$made" "$me" "$whose" 'Nothing was taken.'
}

refuse_used_twice() {
  refuse "the message is from number $me, which is this replica's own, and has $number operations of it; this replica has made $made. So number $me is" \
    'used twice, or the files here were put back from a copy. Nothing was taken. Keep what `rls text` prints, and begin in a new folder with a' \
    'number that nobody has used (docs/USE.md, "A number used twice").'
}

# After a message was taken: says whose operations its sender knows and this replica doesn't. These weren't in the message, or they wait.
tell_missing() {
  local LC_ALL=C one two members me number k from known made
  [ "${#theirs[@]}" != 0 ] && read_own || return
  [ "${one:21:4 * members}" != "${theirs[0]:21}" ] || [ "${two:21:4 * members}" != "${theirs[1]:21}" ] || return
  for ((k = 0; k < members; k++)); do
    number_of "${theirs[0]:21 + 4 * k:4}" "${theirs[1]:21 + 4 * k:4}" && known=$number
    count_at "$k"
    if [ "$known" -gt "$number" ]; then
      made=$number && number_of "${theirs[0]:17:4}" "${theirs[1]:17:4}" && from=$number
      say "member $from has $known operations of member $k, and this replica $made of them: a message was lost, or is still to come, or this one was for another member. What \`rls send $me\` of member $from writes now has them."
      return
    fi
  done
}

# Takes the message, and reads the report before it prints it. It is the first line of what the program writes; lines on operations that were
# refused come after it, and may have many megabytes, so that a pattern would take time with the square of it.
take() {
  local all report='' errors
  local -a theirs=()
  hold_input || { say 'the message could not be kept in a file for a moment.'; exit 8; }
  lock_late take
  [ -n "${RLS_FORCE:-}" ] || guard
  all=$(exec "$program" take 2>&1)
  status=$? errors=$all
  if [ "${all:0:8}" = 'applied ' ]; then
    report=${all:0:200}
    report=${report%%$'\n'*}
    errors=${all:$((${#report} + 1))}
    trap '' PIPE
    { printf '%s\n' "$report"; } 2>/dev/null || { errors+=${errors:+$'\n'}'sink fault' status=9; }
  fi
  [ "$status$errors" = 0 ] || { . "$top/bin/rls-explain.bash" && tell take; }
  if [ "$status" = 0 ]; then tell_missing; fi
  tell_report "$report"
  case $status in 0 | 5) advise take ;; esac
}

# Notes that operations came, for `rls edit --text`, and says how many wait.
tell_report() {
  local applied released held came=0
  read -r _ applied _ released _ _ _ held _ <<<"$1"
  [ -n "$held" ] || return 0
  if [ "$((applied + released))" != 0 ]; then
    [ ! -s replica.taken ] || read -r came <replica.taken
    { echo "$((came + applied + released))" >replica.taken; } 2>/dev/null
  fi
  [ "$held" = 0 ] || say "operations that wait here for others that haven't come: $held. If they still do when the messages of all members are taken, they may wait for what never comes (docs/USE.md, \"Operations that wait for ever\")."
}
