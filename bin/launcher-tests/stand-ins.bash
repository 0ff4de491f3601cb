# What bin/rls does where a program that it calls, such as head, flock or awk, fails or finds no room: a stand-in answers in its place.
# bin/test-rls reads this and sets `room` and `rls`.
# shellcheck shell=bash disable=SC2154

two_members
# While `with NAME SCRIPT COMMAND...` runs a command, NAME on the path is this script.
with() {
  local name=$1 answer
  mkdir -p "$room/stand-ins"
  printf '#!/bin/sh\n%s\n' "$2" >"$room/stand-ins/$name"
  chmod +x "$room/stand-ins/$name"
  shift 2
  PATH="$room/stand-ins:$PATH" "$@"
  answer=$?
  rm "$room/stand-ins/$name"
  return "$answer"
}
cp -r ben tools
tools() { (cd "$room/tools" && "$@"); }
many_lines() { for k in $(seq 1000 1999); do echo "i 0 $k"; done | "$rls" edit; }
no_room="$(command -v head) -c 2000; exit 1"
expect 'no room for a script' 8 "$(tools with head "$no_room" status_of many_lines)"
expect 'no room for a script: nothing is performed' onetwo "$(tools "$rls" text)"
# Files of at most so many KB: no room, without a stand-in.
no_more() { (ulimit -f "$1" && shift && "$@"); }
expect 'no room for a script of 8 KB' 8 "$(tools no_more 4 status_of many_lines)"
expect 'no room for a script of 8 KB: nothing is performed' onetwo "$(tools "$rls" text)"
for k in $(seq 3500); do echo x; done >many_lines.text
expect 'no room for the lines of a text' 8 "$(tools no_more 8 status_of "$rls" edit --text ../many_lines.text)"
expect 'no room for the lines of a text: what it means' yes "$(says 'Nothing was done')"
expect 'no room for the lines of a text: nothing is performed' onetwo "$(tools "$rls" text)"
mkdir moment
expect 'a file for a moment that stays' 0 "$(export TMPDIR=$room/moment; tools with rm 'exit 1' status_of many_lines)"
expect 'a file for a moment that stays: it is said' yes "$(says 'has what was read here, and can.t be removed')"
expect 'a file for a moment that stays: which' "$(sed -n 's/^rls: \(.*\) has what was read here.*/\1/p' err)" "$(echo "$room"/moment/*)"
rm -f moment/*
# shellcheck disable=SC2002
expect 'a long script and a message leave no file for a moment' '0 0 ' "$(TMPDIR=$room/moment tools status_of many_lines | tr '\n' ' '; cat m1 | TMPDIR=$room/moment tools status_of "$rls" take | tr '\n' ' '; ls moment)"
rm -rf tools && cp -r ben tools
(cd ada && for k in 1 2 3; do echo "i 0 $k"; done | "$rls" edit >/dev/null && "$rls" send 1 >../m3)
# shellcheck disable=SC2002
expect 'no room for a message' 8 "$(cat m3 | tools with head "$no_room" status_of "$rls" take)"
for answer in 'exit 71' 'exit 1' 'kill -9 $$' '[ "$1" != -n ] || exit 1; kill -9 $$'; do
  expect "no lock: $answer" 71 "$(echo 'i 0 x' | tools with flock "$answer" status_of "$rls" edit)"
  expect "no lock, forced: $answer" 0 "$(echo 'i 0 x' | RLS_FORCE=1 tools with flock "$answer" status_of "$rls" edit)"
done
expect 'no lock: nobody waits' no "$(echo 'i 0 x' | tools with flock 'exit 71' status_of "$rls" edit >status; says 'waiting for it' | head -c 2)"
expect 'no lock: nothing else was done' xxxxonetwo "$(tools "$rls" text)"
if command -v flock >/dev/null; then
  (cd tools && exec flock . sleep 60) &
  holder=$!
  while flock -n tools true; do sleep 0.1; done
  expect 'a folder in use' 124 "$(echo 'i 0 x' | tools status_of timeout 1 "$rls" edit)"
  expect 'a folder in use: what may be there' yes "$(says 'or an editor has it open; waiting for it')"
  kill "$holder"
fi
printf 'another text\n' >file
for tool in sed awk tr cat; do
  expect "no comparison: $tool" 8 "$(tools with "$tool" 'exit 2' status_of "$rls" edit --text ../file)"
done
expect 'no comparison: nothing was done' xxxxonetwo "$(tools "$rls" text)"
expect 'no sums' '' "$(tools with cksum 'exit 1' "$rls" check 2>/dev/null || echo ''; cat out)"
expect 'a message is looked at without the command od' 71 "$(cd backup && with od 'exit 1' status_of "$rls" take <../m2)"
expect 'no sums: what it means' yes "$(tools with cksum 'exit 1' status_of "$rls" check >out; says 'the sums could not be made')"
expect 'no look at a number' 7 "$(tools with od 'exit 1' status_of "$rls" retire 0)"

expect 'a comparison without the command diff' 0 "$(rm -rf differing && cp -r tools differing && cd differing && with diff 'exit 2' status_of "$rls" edit --text ../file)"

# --- What the system says where the keeper of the files failed.
printf '#!/bin/sh\necho "keeper fault" >&2\nexit 7\n' >broken && chmod +x broken
keeper() { (cd "$room/$1" && shift && RLS_PROGRAM=$room/broken "$@"); }
expect 'a keeper fault' 7 "$(keeper tools status_of "$rls" text)"
expect 'a keeper fault of which the system says nothing' yes "$(says 'is the disk full, or who may write there. The command may have been stored')"
expect 'a full disk' 7 "$(keeper tools with head 'echo "head: error writing: No space left on device" >&2; exit 1' status_of "$rls" text)"
expect 'a full disk: what the system says' yes "$(says 'The system says: No space left on device. The command may')"
cp -r tools odd-file && rm odd-file/replica.1 && mkdir odd-file/replica.1
expect 'a folder in place of a file' 7 "$(keeper odd-file status_of "$rls" text)"
expect 'a folder in place of a file: what the system says' yes "$(says 'The system says: Is a directory')"
expect 'a keeper fault leaves nothing in the folder' '' "$(ls tools/replica.probe* 2>/dev/null)"
if mkdir small && mount -t tmpfs -o size=100k none small 2>/dev/null; then
  expect 'a disk that is full' 7 "$(cd small && "$rls" new 7 0 1 >/dev/null && head -c 150000 /dev/zero | tr '\0' x | sed 's/^/i 0 /' | status_of "$rls" edit)"
  expect 'a disk that is full: what the system says' yes "$(says 'The system says: No space left on device')"
  umount small
fi
