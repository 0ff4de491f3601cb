# What bin/rls asks and refuses where its input or its output is a terminal, and what it holds meanwhile.
# bin/test-rls reads this and sets `here`, `room` and `rls`.
# shellcheck shell=bash disable=SC2154

if ! command -v python3 >/dev/null 2>&1; then
  skip 'questions on a terminal' "python3 isn't there"
  return
fi
two_members
mkdir three && (cd three && "$rls" new 7 0 3 >../out && echo 'i 0 text' | "$rls" edit >../out)
cat >terminal.py <<'E2'
"""Runs a command on a terminal, types a text once it has said something, and prints what was said and the status."""
import os, pty, select, sys, time

typed, words = sys.argv[1].encode().decode("unicode_escape").encode("latin-1"), sys.argv[2:]
pid, terminal = pty.fork()
if pid == 0:
    os.execvp(words[0], words)
said, end = b"", time.time() + 60
while time.time() < end:
    if not select.select([terminal], [], [], 0.1)[0]:
        continue
    try:
        more = os.read(terminal, 4096)
    except OSError:
        break
    if not more:
        break
    said += more
    if typed:
        os.write(terminal, typed)
        typed = b""
print(said.decode().replace("\r\n", "\n").rstrip("\n"))
# (what still waits for words is hung up)
os.close(terminal)
status = os.waitpid(pid, 0)[1]
print("status %d" % (os.WEXITSTATUS(status) if os.WIFEXITED(status) else 1000 + os.WTERMSIG(status)))
E2
# typing TEXT COMMAND..: in a copy of the folder `three`, called `here`.
typing() {
  local text=$1
  shift
  rm -rf here && cp -r three here
  if [ -f taken ]; then cp taken here/replica.taken; fi
  (cd here && python3 ../terminal.py "$text" "$@" >../said)
}
ended() { tail -1 said; }
said() { if grep -q -- "$1" said; then echo yes; else echo "no: $(cat said)"; fi; }
left() { (cd here && "$rls" stat | sed -n 's/^accepted //p'); }

for answer in 'yes|status 0|2 0 0' 'no|status 71|1 0 0' 'Yes|status 71|1 0 0' '|status 71|1 0 0' 'yes please|status 71|1 0 0'; do
  IFS='|' read -r word status counts <<<"$answer"
  typing "$word\\n" "$rls" leave
  expect "leave on a terminal, answered by '$word'" "$status" "$(ended)"
  expect "leave on a terminal, answered by '$word': it asks" yes "$(said 'can never edit again. Go on? Type yes: ')"
  expect "leave on a terminal, answered by '$word': what is done" "$counts" "$(left)"
  [ "$word" = yes ] || expect "leave on a terminal, answered by '$word': it is said" yes "$(said 'nothing was done')"
done
# shellcheck disable=SC2016
typing '' sh -c '"$1" leave 2>../asked' sh "$rls"
expect 'leave where errors go to a file: nobody is asked' 'status 0 2 0 0' "$(ended) $(left)"
expect 'leave where errors go to a file: nothing is said' '' "$(cat asked)"
for answer in 'yes|status 0|1 0 1' 'no|status 71|1 0 0'; do
  IFS='|' read -r word status counts <<<"$answer"
  typing "$word\\n" "$rls" retire 2
  expect "retire on a terminal, answered by '$word'" "$status" "$(ended)"
  expect "retire on a terminal, answered by '$word': it asks" yes "$(said 'can ever use number 2.*Go on')"
  expect "retire on a terminal, answered by '$word': what is done" "$counts" "$(left)"
done
echo 5 >taken
echo less >words
for answer in 'yes|status 0|less' 'no|status 71|text'; do
  IFS='|' read -r word status now <<<"$answer"
  typing "$word\\n" "$rls" edit --text ../words
  expect "a text that is older than what came, answered by '$word'" "$status" "$(ended)"
  expect "a text that is older than what came, answered by '$word': it asks" yes "$(said 'to keep it, put it into the file first. Go on')"
  expect "a text that is older than what came, answered by '$word': what is done" "$now" "$(cd here && "$rls" text)"
done
typing '' "$rls" text
expect 'a text on a terminal' 'text status 0' "$(tr '\n' ' ' <said | sed 's/ $//')"
expect 'a text on a terminal is none that was kept' 5 "$(cat here/replica.taken)"
rm taken

typing '' "$rls" send 1
expect 'a message on a terminal' 'status 71' "$(ended)"
expect 'a message on a terminal: why' yes "$(said 'not for a terminal')"
typing '' "$rls" take
expect 'a message from a terminal' 'status 71' "$(ended)"
expect 'a message from a terminal: why' yes "$(said 'taken from a file or a program')"
typing '' "$rls" head
expect 'the head of a message from a terminal' 'status 71' "$(ended)"
typing 'i 0 typed\n\4' "$rls" edit
expect 'a script from a terminal' 'status 0' "$(ended)"
expect 'a script from a terminal: it is said' yes "$(said 'reading a script from the terminal')"
expect 'a script from a terminal: what is done' typedtext "$(cd here && "$rls" text)"
typing 'q 1\n\4' "$rls" edit
expect 'a bad script from a terminal' 'status 4' "$(ended)"
expect 'a bad script from a terminal: which line' yes "$(said 'line 1 of the script is .q 1.')"
typing 'i 0 s\nq\n' "$rls" session
expect 'a session on a terminal' 'status 0' "$(ended)"
expect 'a session on a terminal: it is said' yes "$(said 'reading requests from the terminal')"
expect 'a session on a terminal: what is done' stext "$(cd here && "$rls" text)"

# Nobody waits for a person who types.
for command in edit leave; do
  rm -rf here && cp -r three here
  # shellcheck disable=SC2016
  (cd here && python3 ../terminal.py '' timeout 10 "$rls" "$command" >../said 2>&1) &
  sleep 1
  expect "while somebody types: $command" 'edits 1 released 0 refused 0' "$(cd here && echo 'i 0 y' | timeout 8 "$rls" edit 2>&1)"
  kill %% 2>/dev/null
  wait
done
