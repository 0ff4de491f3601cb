# The folder of a replica: what bin/rls does where its files are older than what others know, are half made, are edited by several commands at once, or
# may not be written.
# bin/test-rls reads this and sets `here`, `room`, `rls` and `rooms`.
# shellcheck shell=bash disable=SC2154

two_members
expect 'a message is taken' 'onetwo' "$(ben text)"

# --- Files that are older than what others know.
cp -r ada newest && rm -r ada && cp -r backup ada
expect 'a folder put back from a copy' 71 "$(ada status_of "$rls" take <m2)"
expect 'a folder put back from a copy: why' yes "$(says 'knows 2 operations of member 0, but this replica of member 0 has made 1')"
for command in edit 'send 1' session leave; do
  # shellcheck disable=SC2086
  expect "the folder remembers it: $command" 71 "$(ada status_of "$rls" $command </dev/null)"
  expect "the folder remembers it: $command: why" yes "$(says 'knows 2 operations of member 0, but this replica of member 0 has made 1')"
  expect "the folder remembers it: $command: what to do" yes "$(says 'begin in a new folder with a number that nobody has used')"
done
expect 'the folder remembers it: and if it is not so' yes "$(says 'say so once, by RLS_FORCE=1 with this command')"
echo other >words
expect 'the folder remembers it: a text of a file' 71 "$(ada status_of "$rls" edit --text ../words)"
cp -r ada forced
expect 'the folder remembers it, forced' 0 "$(cd forced && echo 'i 0 x' | RLS_FORCE=1 status_of "$rls" edit)"
expect 'the newer files are back' 0 "$(cp -r ada newer.ada && cd newer.ada && cp ../newest/replica.* . && status_of "$rls" send 1)"
expect 'a new text in the folder' 0 "$(cp -r ada fresh && cd fresh && rm replica.[0g1]* && "$rls" new 7 1 2 >../out && status_of "$rls" send 0)"
expect 'nothing was taken' 'one' "$(ada text)"
# shellcheck disable=SC2002
expect 'from a pipe too' 71 "$(cat m2 | ada status_of "$rls" take)"
expect 'forced' 0 "$(RLS_FORCE=1 ada status_of "$rls" take <m2)"
mkdir again
(cd again && "$rls" new 7 0 2 >/dev/null)
expect 'a number that was used' 71 "$(cd again && status_of "$rls" take <../m2)"
mkdir third
(cd third && "$rls" new 8 0 2 >/dev/null)
expect 'another group is for the program to say' 4 "$(cd third && status_of "$rls" take <../m2)"
expect 'no message is for the program to say' 4 "$(cd third && echo hello | status_of "$rls" take)"
expect 'a message cut short' 4 "$(cd third && head -c 30 ../m2 | status_of "$rls" take)"
expect 'an empty message' 4 "$(cd third && status_of "$rls" take </dev/null)"
expect 'a message behind other input' 0 "$(cd ben && { echo x; cat ../m1; } >../both && { read -r _; status_of "$rls" take; } <../both)"
expect 'a message behind other input is looked at' 71 "$(cd again && { echo x; cat ../m2; } >../both && { read -r _; status_of "$rls" take; } <../both)"

mkdir many
(cd many && "$rls" new 7 0 1 >/dev/null)
for _ in 1 2 3 4 5 6 7 8; do (cd many && printf 'i 0 x\n' | "$rls" edit >/dev/null 2>&1) & done
wait
expect 'eight edits at once' xxxxxxxx "$(cd many && "$rls" text)"

(cd many && rm replica.gate)
expect 'half a replica' 71 "$(cd many && status_of "$rls" new 7 0 1)"
expect 'half a replica: why' yes "$(says 'replica.gate is missing')"
cp "$here/../examples/hello/replica.rls" third
expect 'two replicas in a folder' 71 "$(cd third && status_of "$rls" text)"
expect 'two replicas in a folder, forced' '0 hello' "$(cd third && RLS_FORCE=1 status_of "$rls" text | tr '\n' ' '; cat ../out)"

# --- A `new` that was stopped in the middle.
mkdir begun && cd begun || exit 1
"$rls" new 7 0 2 >/dev/null && rm replica.gate
expect 'a new that was stopped, with other words' 71 "$(status_of "$rls" new 7 1 2)"
expect 'a new that was stopped, with other words: what to do' yes "$(says 'rm replica.0 replica.1')"
expect 'a new that was stopped' 'new 7 0 2' "$("$rls" new 7 0 2)"
: >replica.gate
expect 'a new that was stopped, and the gate is empty, with other words' 71 "$(status_of "$rls" new 7 1 2)"
expect 'a new that was stopped, and the gate is empty' 'new 7 0 2' "$("$rls" new 7 0 2)"
cp replica.1 slot && rm replica.gate replica.1
expect 'a new that was stopped after one slot' 71 "$(status_of "$rls" new 7 0 2)"
mv slot replica.1
expect 'and then' 'new 7 0 2' "$("$rls" new 7 0 2)"
echo 'i 0 x' | "$rls" edit >/dev/null
rm replica.gate
expect 'a gate that was lost' 71 "$(status_of "$rls" new 7 0 2)"
cd ..

# --- Where nothing may be written.
# A user who may write everywhere becomes another one for this.
user=()
if [ -w /proc/version ]; then
  user=(setpriv --reuid 65534 --regid 65534 --clear-groups)
  chmod 711 "$rooms" "$room"
fi
cp -r ben readable && chmod a-w,a+rX readable readable/replica.*
if ! (cd readable && "${user[@]}" "$rls" --version) >/dev/null 2>&1 || (cd readable && "${user[@]}" test -w replica.0); then
  skip 'a session where nothing may be stored' 'this user may write everywhere, and can not become another one'
else
  expect 'a session where nothing may be stored' 71 "$(cd readable && echo q | status_of "${user[@]}" "$rls" session)"
  expect 'a session where nothing may be stored: why' yes "$(says 'may not be written')"
  expect 'a session where nothing may be stored, forced: it is said at once' yes "$(cd readable && printf 't\nq\n' | RLS_FORCE=1 "${user[@]}" "$rls" session >../out 2>../err; head -1 ../err >../first; grep -q 'may not be written' ../first && echo yes)"
  for file in replica.0 replica.1 replica.gate; do
    cp -r ben "without-$file" && chmod -R a+rwX "without-$file" && chmod a-w "without-$file/$file"
    expect "a session where $file may not be written" 71 "$(cd "without-$file" && echo q | status_of "${user[@]}" "$rls" session)"
  done
  mkdir of-one && cp "$here/../examples/hello/replica.rls" of-one && chmod a-w,a+rx of-one && chmod a+rw of-one/replica.rls
  if [ ${#user[@]} != 0 ]; then chown 65534:65534 of-one/replica.rls; fi
  expect 'a session where the folder of replica.rls may not be written' 71 "$(cd of-one && echo q | status_of "${user[@]}" "$rls" session)"
  expect 'a text where nothing may be stored' onetwo "$(cd readable && "${user[@]}" "$rls" text)"
fi
chmod u+w readable readable/replica.* of-one 2>/dev/null

# --- Completion.
# shellcheck source-path=SCRIPTDIR source=../rls-completion.bash
complete_send() (. "$here/rls-completion.bash" && COMP_WORDS=(rls send '') COMP_CWORD=2 && _rls && echo "${COMPREPLY[*]}")
expect 'the other members are completed' 0 "$(cd ben && complete_send 2>&1)"
for slot in 0 1; do
  rm -rf torn && cp -r ben torn && cp "ben/replica.$(($(od -An -tu1 -N1 ben/replica.gate) % 2))" "torn/replica.$slot"
  : >"torn/replica.$((1 - slot))" && printf %b "\\0$slot" >torn/replica.gate
  expect "the other members are completed by the slot that the gate names, $slot" 0 "$(cd torn && complete_send 2>&1)"
done
expect 'an empty gate is completed by nothing' '' "$(cd begun && : >replica.gate && rm replica.[01] && complete_send 2>&1)"

# --- A replica in one file.
mkdir single linked && cp "$here/../examples/hello/replica.rls" single && cp "$here/../examples/hello/replica.rls" whole
for mode in 600 644 660; do
  chmod "$mode" single/replica.rls
  expect "permissions of replica.rls: $mode" "$mode" "$(cd single && umask 022 && echo 'i 0 x' | "$rls" edit >/dev/null && stat -c %a replica.rls)"
done
ln -s ../whole linked/replica.rls
expect 'a link in place of a replica' 71 "$(cd linked && echo 'i 0 x' | status_of "$rls" edit)"
expect 'a link in place of a replica: what to do' yes "$(says 'is a symbolic link')"
expect 'a link in place of a replica is read' 0 "$(cd linked && status_of "$rls" text)"
expect 'a link in place of a replica: its text goes on elsewhere' 0 "$(cd linked && status_of "$rls" restart 8 0 2 ../from-link)"
expect 'a link in place of a replica stays' yes "$([ -L linked/replica.rls ] && echo yes)"
