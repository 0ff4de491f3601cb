# The lock of a folder: each command that stores waits for whoever has it, also where the launcher that took it is gone and its program still works, and
# not where the caller says that it holds it. Input that is long in coming keeps nobody out. Who only reads takes no lock, and sees what was stored.
# bin/test-rls reads this and sets `here`, `room` and `rls`.
# shellcheck shell=bash disable=SC2154

two_members
echo other >words
real=${RLS_PROGRAM:-$here/.built/rls}
storing=(edit edit-text take leave new retire restart session)
# One of these commands, in the current folder.
store() {
  case $1 in
    edit) echo 'i 0 x' | "$rls" edit ;;
    edit-text) "$rls" edit --text ../words ;;
    take) "$rls" take <../m1 ;;
    leave) "$rls" leave ;;
    new) "$rls" new 7 1 2 ;;
    retire) "$rls" retire 2 ;;
    restart) "$rls" restart 8 0 2 "$room/begun" ;;
    session) printf 'i 0 x\nq\n' | "$rls" session ;;
  esac
}
# A fresh folder for the command: ada's of three members, of whom the last may be retired, or an empty one.
mkdir ada3 && (cd ada3 && "$rls" new 7 0 3 >../out && echo 'i 0 text' | "$rls" edit >../out)
begin_folder() {
  rm -rf locked begun err
  case $1 in
    new) mkdir locked ;;
    take) cp -r ben locked ;;
    *) cp -r ada3 locked ;;
  esac
}
is_free() { flock -n "$room/locked" true; }
# Waits for what is to happen within half a minute: until COMMAND..
until_it() { for _ in $(seq 300); do if "$@"; then return 0; fi; sleep 0.1; done; return 1; }
is_taken() { ! is_free; }
is_gone() { ! kill -0 "$1" 2>/dev/null; }
says_or_gone() { grep -qs 'waiting for it' "$room/err" || is_gone "$1"; }
# Runs a command in the folder: whether it waits for the lock, and its status once the process that has it is gone.
waits_for() {
  local waiter waited=
  (cd locked && store "$1" >../out 2>../err) &
  waiter=$!
  until_it says_or_gone "$waiter"
  is_gone "$waiter" || waited='waits, '
  kill "$2" 2>/dev/null
  wait "$waiter"
  echo "$waited$?"
}

if ! command -v flock >/dev/null 2>&1; then
  skip 'the lock' "flock isn't there"
else
  for command in "${storing[@]}"; do
    begin_folder "$command"
    flock locked sleep 60 &
    holder=$!
    until_it is_taken
    # (flock runs another process, which has the lock too)
    sleeper=$(pgrep -P "$holder")
    expect "the lock is held by another: $command" 'waits, 0' "$(waits_for "$command" "$sleeper")"
    begin_folder "$command"
    flock locked sleep 60 &
    until_it is_taken
    sleeper=$(pgrep -P $!)
    expect "the lock is held by the caller: $command" 0 "$(RLS_LOCKED=1 waits_for "$command" "$sleeper")"
    wait
  done

  # A session is an open document.
  for command in "${storing[@]}"; do
    [ "$command" != new ] || continue
    begin_folder "$command"
    mkfifo requests
    (cd locked && exec "$rls" session <../requests >../replies 2>&1) &
    exec 5>requests
    until_it is_taken
    (exec 5>&- && cd locked && store "$command" >../out 2>../err) &
    waiter=$!
    until_it says_or_gone "$waiter"
    echo 'i 0 s' >&5
    expect "beside a session: $command waits" no "$(is_gone "$waiter" || echo no)"
    exec 5>&-
    wait "$waiter"
    expect "beside a session: $command then goes on" 0 "$?"
    [ "$command" != edit-text ] || expect 'beside a session: the text is that of the file, whatever was stored meanwhile' other "$(cd locked && "$rls" text)"
    wait
    rm requests
  done

  # What has changed in the folder while a command waited is looked at: a message that was refused, and newer files.
  waits_while() {
    flock locked sleep 60 &
    until_it is_taken
    sleeper=$(pgrep -P $!)
    (cd locked && "$rls" "$1" >../out 2>../err) <"$2" &
    waiter=$!
    until_it says_or_gone "$waiter"
    "${@:3}"
    kill "$sleeper"
    wait "$waiter"
  }
  note_stale() { echo '7-3-0 9 1' >locked/replica.stale; }
  begin_folder edit
  echo 'i 0 x' >script
  waits_while edit script note_stale
  expect 'a message was refused while an edit waited' 71 "$?"
  expect 'a message was refused while an edit waited: nothing is stored' text "$(cd locked && "$rls" text)"
  rm -rf locked err && cp -r backup locked
  waits_while take m2 cp ada/replica.0 ada/replica.1 ada/replica.gate locked
  expect 'newer files came while a message waited' 0 "$?"

  # The program inherits the lock: a launcher that is killed lets nobody in while its program stores.
  cat >slow <<END
#!/bin/sh
case \$1 in edit | take | leave | new) [ -s $room/started ] || { echo \$\$ >$room/started; exec sleep 60; } ;; esac
exec $real "\$@"
END
  chmod +x slow
  for command in edit edit-text take leave new restart retire; do
    begin_folder "$command"
    rm -f started
    (cd locked && exec setsid env RLS_PROGRAM="$room/slow" bash -c "rls=$rls room=$room; $(declare -f store); store $command" >../out 2>../err &)
    until_it test -s started
    # All that the command has started but the program.
    program=$(<started)
    session=$(ps -o sid= -p "$program" | tr -d ' ')
    # shellcheck disable=SC2046
    kill -9 $(pgrep -s "$session" | grep -vx "$program")
    expect "a launcher that is killed: $command" taken "$(sleep 1; is_free || echo taken)"
    kill "$program"
    wait 2>/dev/null
    expect "and then its program: $command" 0 "$(until_it is_free; echo $?)"
  done
fi

# --- Input that is long in coming
late() { until_it test -e "$room/comes"; printf '%s' "$1"; cat "$room/m1"; }
for command in edit take edit-text; do
  begin_folder take
  rm -f comes
  case $command in
    edit) (cd locked && late '' >/dev/null && echo 'i 0 late' | cat) | (cd locked && status_of "$rls" edit >../late.status) & ;;
    take) late '' | (cd locked && "$rls" take >../late.status 2>&1) & ;;
    edit-text) (cd locked && "$rls" edit --text <(until_it test -e "$room/comes"; echo late) >../late.status 2>&1) & ;;
  esac
  sleep 0.5
  expect "input that is long in coming keeps nobody out: $command" 'edits 1 released 0 refused 0' "$(cd locked && echo 'i 0 y' | timeout 20 "$rls" edit 2>&1)"
  : >comes
  wait
done
expect 'input that was long in coming' late "$(cd locked && "$rls" text)"

# --- All at once
begin_folder edit
for _ in 1 2 3; do (cd locked && store edit >/dev/null 2>&1) & done
for command in take retire restart session edit; do (cd locked && { store "$command" || echo "$command"; } >"../of-$command" 2>/dev/null) & done
for _ in 1 2 3; do (cd locked && "$rls" check >/dev/null 2>>../of-check || echo check >>../of-check) & done
wait
expect 'all at once: who fails' 'take' "$(cat of-* | grep -x -e take -e retire -e restart -e session -e edit)"
expect 'all at once: nothing is lost' 'xxxxxtext accepted 6 0 1' "$(cd locked && "$rls" text && echo " $("$rls" stat | grep accepted)")"
begin_folder edit
flock locked sleep 60 &
until_it is_taken
for command in text ids stat 'send 1' check; do
  # shellcheck disable=SC2086
  expect "who reads waits for nobody: $command" 0 "$(cd locked && status_of timeout 30 "$rls" $command)"
done
kill "$(pgrep -P $!)"
expect 'all at once: a check waits for nobody' '' "$(grep 'waiting for' of-check)"

# --- Who only reads
cat >torn <<END
#!/bin/sh
echo x >>$room/reads
[ "\$(wc -l <$room/reads)" -ge "\$(cat $room/right_at)" ] || { echo 'damaged at 0' >&2; exit 3; }
exec $real "\$@"
END
chmod +x torn
for command in text ids stat 'send 0'; do
  echo 3 >right_at && rm -f reads
  # shellcheck disable=SC2086
  expect "others stored while it was read: $command" "0 $(cd ben && "$rls" $command | cksum)" "$(cd ben && RLS_PROGRAM=$room/torn status_of "$rls" $command | tr '\n' ' '; cksum <"$room/out")"
  expect "others stored while it was read: $command: nothing is said" '' "$(cat err)"
done
echo 1000 >right_at && : >reads
expect 'a damaged file is read a few times' '3 5' "$(cd ben && RLS_PROGRAM=$room/torn status_of "$rls" text) $(wc -l <"$room/reads")"
echo 2 >right_at && : >reads
expect 'a command that stores is not repeated' 3 "$(cd ben && echo 'i 0 x' | RLS_PROGRAM=$room/torn status_of "$rls" edit)"
begin_folder take
for _ in $(seq 600); do echo 'i 0 x'; echo w; done | (cd locked && "$rls" session >../saved) &
writer=$!
: >seen
while ! is_gone "$writer" && [ "$(wc -l <seen)" -lt 200 ]; do
  for command in text stat; do (cd locked && "$rls" "$command" >../shown 2>&1; echo "$? $command $(tr -d '\n' <../shown)") >>seen; done
done
wait
expect 'readers beside a session that stores again and again: all are right' '' "$(grep -v -E -x '0 (text x*onetwo|stat group 7.*)' seen | head -3)"
expect 'readers beside a session that stores again and again: all is stored' "600 $((600 + 6))" "$(grep -c saved saved | tr '\n' ' ' | sed 's/^601 /600 /')$(cd locked && "$rls" text | wc -c)"
