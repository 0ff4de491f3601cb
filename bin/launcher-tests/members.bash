# What members do with each other: messages, equal copies, numbers that nobody uses, and a text that goes on in a new group.
# bin/test-rls reads this and sets `room` and `rls`.
# shellcheck shell=bash disable=SC2154

# --- Messages that others wait for.
mkdir nothing x0 x1 x2
for k in 0 1 2; do (cd x$k && "$rls" new 7 $k 3 >/dev/null); done
(cd x0 && echo 'i 0 one' | "$rls" edit >/dev/null && "$rls" send 1 >../x0-1)
(cd x1 && "$rls" take <../x0-1 >/dev/null 2>../err)
expect 'a message that has all: nothing is said' '' "$(cat err)"
(cd x1 && "$rls" send 0 >../x1-0)
(cd x0 && "$rls" take <../x1-0 >/dev/null && echo 'i 0 two' | "$rls" edit >/dev/null && "$rls" send 1 >../x0-1)
expect 'a message for another' 0 "$(cd x2 && status_of "$rls" take <../x0-1)"
expect 'a message for another: what is missing' yes "$(says 'member 0 has 2 operations of member 0, and this replica 0 of them')"
expect 'a message for another: what to do' yes "$(says 'rls send 2. of member 0')"
(cd x0 && "$rls" send 2 >../x0-2)
(cd x2 && "$rls" take <../x0-2 >/dev/null)
(cd x1 && "$rls" take <../x0-1 >/dev/null)

# --- Equal copies.
expect 'two copies are equal' "$(cd x1 && "$rls" check)" "$(cd x2 && "$rls" check)"
expect 'what check prints' 'accepted 2 0 0
ids N
text N' "$(cd x1 && "$rls" check | sed 's/^\([it][a-z]*\) [0-9]*$/\1 N/')"
(cd x2 && echo 'd 0 1' | "$rls" edit >/dev/null)
expect 'two copies are not equal' differ "$([ "$(cd x1 && "$rls" check)" = "$(cd x2 && "$rls" check)" ] || echo differ)"
(cd x1 && "$rls" check >../x1.check)
expect 'a check with the lines of an equal copy' 0 "$(cd x1 && status_of "$rls" check ../x1.check)"
expect 'a check with the lines of an equal copy, in words' yes "$(says 'the two copies are equal')"
expect 'a check with the lines of an equal copy prints its own' "$(cat x1.check)" "$(cat out)"
expect 'a check with the lines of another copy' 72 "$(cd x2 && status_of "$rls" check ../x1.check)"
expect 'a check with the lines of another copy: what to do' yes "$(says 'exchange messages in both directions')"
sed 's/^\(text .\)/\19/' x1.check >x1.other
expect 'a check where a rule was broken' 72 "$(cd x1 && status_of "$rls" check ../x1.other)"
expect 'a check where a rule was broken: in words' yes "$(says 'a rule was broken')"
sed 's/$/\r/' x1.check >x1.windows
expect 'a check with lines that went through Windows' 0 "$(cd x1 && status_of "$rls" check ../x1.windows)"
echo 'i 0 x' >script
expect 'a check with another file' 4 "$(cd x1 && status_of "$rls" check ../script)"
expect 'a check with no file' 8 "$(cd x1 && status_of "$rls" check ../nowhere)"
expect 'a check that can not be printed' 9 "$(cd x1 && "$rls" check >/dev/full 2>../err; echo $?)"
expect 'check without a replica' 2 "$(cd nothing && status_of "$rls" check)"

# --- Numbers that nobody uses.
expect 'a number that is in use' 71 "$(cd x0 && status_of "$rls" retire 1)"
expect 'a number that is in use: why' yes "$(says 'a message of it was taken here')"
(cd x2 && "$rls" send 0 >../x2-0)
(cd x0 && "$rls" take <../x2-0 >/dev/null)
expect 'a number that has edited' 71 "$(cd x0 && status_of "$rls" retire 2)"
expect 'a number that has edited: why' yes "$(says 'number 2 has made 1 operations')"
expect 'a number that has edited, forced' 71 "$(cd x0 && RLS_FORCE=1 status_of "$rls" retire 2)"
expect 'the own number' 71 "$(cd x0 && status_of "$rls" retire 0)"
expect 'no such number' 71 "$(cd x0 && status_of "$rls" retire 3)"
expect 'no number' 71 "$(cd x0 && status_of "$rls" retire x)"
mkdir y0 y1
for k in 0 1; do (cd y$k && "$rls" new 18446744073709551615 $k 4 >/dev/null); done
(cd y0 && echo 'i 0 text' | "$rls" edit >/dev/null)
pass() { (cd "y$1" && "$rls" send "$2" >"../y$1-$2") && (cd "y$2" && "$rls" take <"../y$1-$2" >/dev/null); }
pass 0 1 && pass 1 0
expect 'a number that nobody uses' 'retired 2' "$(cd y0 && "$rls" retire 2)"
expect 'a number that nobody uses, again' 71 "$(cd y0 && status_of "$rls" retire 2)"
expect 'a number that nobody uses, again: why' yes "$(says 'was retired already')"
expect 'another number that nobody uses' 'retired 3' "$(cd y1 && "$rls" retire 3)"
for _ in 1 2 3; do pass 0 1 && pass 1 0; done
expect 'then nothing is kept' 'unstable 0' "$(cd y0 && "$rls" stat | grep unstable)"
expect 'nor at the other member' 'unstable 0' "$(cd y1 && "$rls" stat | grep unstable)"
for number in 4 5 99 01 x; do
  expect "no number of a member: $number" 71 "$(cd y0 && status_of "$rls" retire $number)"
  expect "no number of a member: $number: which there are" yes "$(says 'the members are numbered from 0 to 3')"
done
expect 'a number that only took, forced' 71 "$(cd y0 && RLS_FORCE=1 status_of "$rls" retire 1)"
# The last member looks at lower numbers: one that nobody uses, and one that has taken only what the last member wrote.
mkdir z0 z2 && for k in 0 2; do (cd z$k && "$rls" new 7 $k 4 >/dev/null); done
(cd z2 && echo 'i 0 text' | "$rls" edit >/dev/null && "$rls" send 0 >../z2-0)
(cd z0 && "$rls" take <../z2-0 >/dev/null && "$rls" send 2 >../z0-2)
(cd z2 && "$rls" take <../z0-2 >/dev/null)
expect 'a lower number that only took' 71 "$(cd z2 && status_of "$rls" retire 0)"
expect 'a lower number that only took: why' yes "$(says 'number 0 is in use: a message of it was taken here')"
expect 'a lower number that nobody uses' 'retired 1' "$(cd z2 && "$rls" retire 1)"
mkdir journal && cp "$here/../examples/hello/replica.rls" journal
expect 'a file of the oldest form' 71 "$(cd journal && status_of "$rls" retire 1)"

# --- Operations that wait for ever, and a text that goes on in a new group.
message '\0\0\0\1\0\0\0\2\0\0\0\0\0\0\0\1\0\0\0\0\0\1\1\177\377\377\377\0\0\0\1\0\0\0\2\0\0\0\0\0\0\0\1x' >waits
mkdir old && (cd old && "$rls" new 7 0 2 >/dev/null && printf 'i 0 one\\ntwo\\n' | "$rls" edit >/dev/null)
expect 'an operation that waits' 'applied 0 released 0 repeated 0 held 1 refused 0' "$(cd old && "$rls" take <../waits 2>../err)"
expect 'an operation that waits: it is said' yes "$(says 'operations that wait here for others that haven.t come: 1')"
expect 'an operation that waits: what to do' yes "$(says 'Operations that wait for ever')"
expect 'the same group again' 71 "$(cd old && status_of "$rls" restart 7 0 2)"
for words in 'x 0 2' '8 x 2' '8 0 x' '8 -1 2' '8 0 2 there more'; do
  # shellcheck disable=SC2086
  expect "restart with the words $words" 1 "$(cd old && status_of "$rls" restart $words)"
  expect "restart with the words $words: what to do" yes "$(says 'three numbers come after it, and the new folder if you want')"
done
expect 'a member that can not be' 4 "$(cd old && status_of "$rls" restart 8 2 2)"
expect 'a member that can not be: what it means' yes "$(says 'it is below MEMBERS')"
expect 'a member that can not be leaves no folder' old "$(echo old*)"
expect 'a new group' "restarted 8 0 2 in $room/old-8" "$(cd old && "$rls" restart 8 0 2)"
expect 'a new group has the text' "$(cd old && "$rls" text; echo .)" "$(cd old-8 && "$rls" text; echo .)"
expect 'a new group: nothing waits' 'held 0' "$(cd old-8 && "$rls" stat | grep held)"
expect 'a new group: the old one stays' 'held 1' "$(cd old && "$rls" stat | grep held)"
expect 'a new group, again' 7 "$(cd old && status_of "$rls" restart 8 0 2)"
expect 'a new group, again: what to do' yes "$(says 'A fourth word names another one')"
expect 'a new group in a folder that is named' "restarted 9 1 3 in $room/old/there" "$(cd old && "$rls" restart 9 1 3 there)"
expect 'a new group has the counts that it was given' 'group 9 me 1 members 3' "$(cd old/there && "$rls" stat | head -3 | tr '\n' ' ' | sed 's/ $//')"
mkdir new1 && (cd new1 && "$rls" new 8 1 2 >/dev/null)
(cd old-8 && "$rls" send 1 >../restarted) && (cd new1 && "$rls" take <../restarted >/dev/null && echo 'i 3 !' | "$rls" edit >/dev/null && "$rls" send 0 >../answer)
(cd old-8 && "$rls" take <../answer >/dev/null)
expect 'two members go on in the new group' "$(cd old-8 && "$rls" check)" "$(cd new1 && "$rls" check)"
expect 'two members go on in the new group: the text' 'one!
two' "$(cd new1 && "$rls" text)"
expect 'the waiting operation does not come into it' 4 "$(cd old-8 && status_of "$rls" take <../waits)"
expect 'a new group of no replica' 2 "$(cd nothing && status_of "$rls" restart 8 0 2)"
mkdir empty && (cd empty && "$rls" new 7 0 1 >/dev/null)
expect 'a new group of an empty text' "restarted 8 0 1 in $room/empty-8" "$(cd empty && "$rls" restart 8 0 1)"
printf 'a\0\\b\r\n\303\251' >odd
expect 'a new group of odd characters' 0 "$(cd empty && "$rls" edit --text ../odd >/dev/null 2>&1; "$rls" restart 9 0 1 >/dev/null && cd ../empty-9 && "$rls" text | cmp - ../odd; echo $?)"

# A large file: what waits is left out of what is read, so that memory is enough. An operation of member 1 that waits, of 16,777,216 bytes and one tuple.
mkdir large && (cd large && "$rls" new 7 0 2 >/dev/null && printf 'i 0 one\\ntwo\ni 3 , \nr\nd 1 2\ni 0 \303\251\ni 1 x\nd 2 1\nr\ni 0 y\n' | "$rls" edit >/dev/null)
kept_of() { local slot=$1/replica.$(($(od -An -tu1 -N1 "$1/replica.gate") & 1)); tail -c +9 "$slot" | head -c $((0x$(od -An -tx1 -N8 "$slot" | tr -d ' '))); }
kept_of large >kept
{
  printf 'RLSM\3\0\0\0\0\0\0\0\7\0\0\0\2\0\0\0\1\0\0\0\0\0\0\0\2\0\0\0\1\0\0\0\1\0\0\0\2\0\0\0\0\0\0\0\1\0\1\0\0\0\1\0\377\377\322'
  head -c 16777169 /dev/zero && printf '\1\177\377\377\377\0\0\0\1\0\0\0\1\0\0\0\0\0\0\0\1'
} >waits-long
expect 'a large operation waits' 'applied 0 released 0 repeated 0 held 1 refused 0' "$(cd large && "$rls" take <../waits-long 2>/dev/null)"
if command -v python3 >/dev/null 2>&1; then
  kept_of large >with-waiting
  size=$(wc -c <with-waiting)
  while read -r bytes wanted; do
    expect "a file without what waits: $bytes of $size bytes" "$wanted" "$({
      PYTHONPATH=$here/../examples/python PYTHONDONTWRITEBYTECODE=1 status_of python3 -S -m rls.waiting with-waiting 0 "$bytes"
      cmp -s out kept && echo same
    } | xargs)"
  done <<END
$size 0 same
$((size - 1)) 0 same
60 1
$((size + 1)) 1
END
  # A program that has no memory for what waits.
  printf '#!/bin/bash\ncase "$PWD $1" in */large\\ [st]*) echo "out of memory" >&2; exit 10 ;; esac\nexec %q "$@"\n' "${RLS_PROGRAM:-$here/.built/rls}" >little && chmod +x little
  expect 'a new group of a large file' 0 "$(cd large && RLS_PROGRAM=$room/little status_of "$rls" restart 8 0 2)"
  expect 'a new group of a large file has the text' "$(cd large && "$rls" text)" "$(cd large-8 && "$rls" text)"
  mkdir failing && printf '#!/bin/sh\nexit 1\n' >failing/python3 && chmod +x failing/python3
  expect 'a new group of a large file that is read whole' 0 "$(cd large && PATH=$room/failing:$PATH status_of "$rls" restart 9 0 2)"
  expect 'a new group of a large file that is read whole has the text' "$(cd large && "$rls" text)" "$(cd large-9 && "$rls" text)"
  expect 'a new group of a large file, where no memory is enough' 10 "$(cd large && PATH=$room/failing:$PATH RLS_PROGRAM=$room/little status_of "$rls" restart 10 0 2)"
fi

# --- The head of a message.
expect 'the head of a message' 'group 8
members 2
sender 1
counts 1 1' "$("$rls" head <answer)"
# shellcheck disable=SC2002
expect 'the head of a message from a pipe' 'group 8' "$(cat answer | "$rls" head | head -1)"
expect 'the head of what is no message' 4 "$(echo hello | status_of "$rls" head)"
expect 'the head of what is no message: what it means' yes "$(says 'this is no message')"
expect 'the head of nothing' 4 "$(status_of "$rls" head </dev/null)"
expect 'the head of a message that was cut off' 4 "$(head -c 28 answer | status_of "$rls" head)"
for byte in 4 9 255; do
  printf 'RLSM%b%0300d' "\\0$(printf %o $byte)" 0 >newer
  expect "the head of a newer message, form $byte" 4 "$(status_of "$rls" head <newer)"
  expect "the head of a newer message, form $byte: what it means" yes "$(says 'a newer program')"
done
expect 'the head of a message of no member' 4 "$(printf 'RLSM\3\0\0\0\0\0\0\0\7\0\0\0\2\0\0\0\2\0\0\0\0\0\0\0\0\0\0\0\0' | status_of "$rls" head)"
expect 'the head of a message that can not be printed' 9 "$("$rls" head <answer >/dev/full 2>err; echo $?)"
expect 'the head of a file' 4 "$(cat old/replica.rls old/replica.0 2>/dev/null | status_of "$rls" head)"

# --- A number that two replicas use.
mkdir u0 u1
for k in 0 1; do (cd u$k && "$rls" new 7 0 2 >/dev/null && echo "i 0 by-$k" | "$rls" edit >/dev/null && "$rls" send 1 >../u$k.message); done
expect 'a message of the own number' 0 "$(cd u0 && status_of "$rls" take <../u1.message)"
expect 'a message of the own number: what it may mean' yes "$(says 'from number 0, which is this replica.s own. If .rls send. didn.t make it in this folder, number 0 is used twice')"
(cd u1 && echo 'i 0 more' | "$rls" edit >/dev/null && "$rls" send 1 >../u1.message)
expect 'a message of the own number that has more' 71 "$(cd u0 && status_of "$rls" take <../u1.message)"
expect 'a message of the own number that has more: what it means' yes "$(says 'has 2 operations of it; this replica has made 1. So number 0 is')"
expect 'a message of the own number that has more: nothing was taken' by-0 "$(cd u0 && "$rls" text)"
# Corrections go on with the run of identifiers that they correct.
mkdir corrected && (cd corrected && "$rls" new 7 0 2 >/dev/null && for k in wrold worls worlz world; do printf 'hello %s' $k >../file && "$rls" edit --text ../file >/dev/null; done)
expect 'a text that is corrected has few runs' yes "$(cd corrected && [ "$("$rls" stat | sed -n 's/^runs //p')" -le 3 ] && echo yes)"

# --- A message by what its receiver told.
mkdir told0 told1
for k in 0 1; do (cd told$k && "$rls" new 7 $k 3 >/dev/null); done
(cd told0 && echo 'i 0 one' | "$rls" edit >/dev/null && "$rls" send 1 >../told0-1)
(cd told1 && "$rls" take <../told0-1 >/dev/null && "$rls" send 0 >../told1-0)
(cd told0 && echo 'i 3 two' | "$rls" edit >/dev/null)
expect 'a message by what TO told' 0 "$(cd told0 && status_of "$rls" send 1 --told ../told1-0)"
cp out told0-1
expect 'a message by what TO told is shorter' yes "$([ "$(wc -c <told0-1)" -lt "$(cd told0 && "$rls" send 1 | wc -c)" ] && echo yes)"
expect 'a message by what TO told has what it lacks' onetwo "$(cd told1 && "$rls" take <../told0-1 >/dev/null && "$rls" text)"
expect 'by a message of another member' 4 "$(cd told0 && status_of "$rls" send 2 --told ../told1-0)"
expect 'by a message of another member: in words' yes "$(says 'is a message of member 1, and not of member 2')"
expect 'by no message' 4 "$(cd told0 && echo no >../no-message && status_of "$rls" send 1 --told ../no-message)"
expect 'by no file' 8 "$(cd told0 && status_of "$rls" send 1 --told ../no-file)"
expect 'by another word' 1 "$(cd told0 && status_of "$rls" send 1 --tell ../told1-0)"
