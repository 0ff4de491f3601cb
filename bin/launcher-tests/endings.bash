# How a command of bin/rls ends where one of its parts fails: the program crashes, is killed, isn't there or meets a limit, at each time that the command
# calls it; or a program fails that the launcher calls. The status isn't 0, nothing is printed as if all were well, nothing is left over, and the text
# stays.
# bin/test-rls reads this and sets `here`, `room` and `rls`.
# shellcheck shell=bash disable=SC2154

two_members
echo other >words
real=${RLS_PROGRAM:-$here/.built/rls}
mkdir three moment && (cd three && "$rls" new 7 0 3 >../out && echo 'i 0 text' | "$rls" edit >../out)
export TMPDIR=$room/moment
# A command in a fresh folder, `of`.
command_of() {
  case $1 in
    edit) echo 'i 0 x' | "$rls" edit ;;
    edit-text) "$rls" edit --text ../words ;;
    take) "$rls" take <../m1 ;;
    new) "$rls" new 7 1 2 ;;
    retire) "$rls" retire 2 ;;
    restart) "$rls" restart 8 0 2 ../begun ;;
    session) printf 'i 0 x\nq\n' | "$rls" session ;;
    send) "$rls" send 1 ;;
    trial) "$rls" trial 42 1 ;;
    *) "$rls" "$1" ;;
  esac
}
begin_folder() {
  rm -rf of begun* calls
  case $1 in new) mkdir of ;; *) cp -r three of ;; esac
}
# The program, but that it ends as is said at one of its calls.
cat >ends <<END
#!/bin/bash
echo "\$1" >>$room/calls
if [ "\$(wc -l <$room/calls)" = "\$(cat $room/ends_at)" ]; then eval "\$(cat $room/how)"; fi
exec $real "\$@"
END
chmod +x ends
ulimit -c 0
for command in edit edit-text take new leave retire restart session text ids stat send trial check; do
  for how in '139|kill -SEGV $$' '137|kill -KILL $$' '134|echo lost; kill -ABRT $$'; do
    echo "${how#*|}" >how
    for number in 1 2 3 4 5 6 7; do
      echo "$number" >ends_at
      begin_folder "$command"
      # (bash says of a program how it was killed)
      { status=$(cd of && RLS_PROGRAM=$room/ends command_of "$command" >../out 2>../err </dev/null; echo $?); } 2>/dev/null
      # (one call less than that)
      [ "$(wc -l <calls)" -ge "$number" ] || break
      found=ok
      # `check` sums up once more where `stat` says something else, and a sum that can't be made has a status of the launcher.
      case "$command $number $status" in
        "$command $number ${how%%|*}" | 'check 2 8' | 'check 3 8') ;;
        'check 4 0') ;;
        *) found="status $status" ;;
      esac
      [ "$command $number" = 'check 4' ] || ! grep -q -e '^edits' -e '^applied' -e '^new' -e '^restarted' -e '^retired' -e '^text' out || found="printed $(head -1 out)"
      [ "$command" = new ] || [ "$(cd of && "$rls" text)" = text ] || found='the text changed'
      [ "$(echo begun*)" = 'begun*' ] || found="left $(echo begun*)"
      [ -z "$(ls moment)" ] || found="left $(ls moment)"
      expect "$command, call $number of the program ends by ${how%%|*}" ok "$found"
    done
  done
  [ "$number" -gt 1 ] || expect "$command calls the program" yes no
done
for command in edit edit-text take new leave retire restart session text ids stat send trial check; do
  begin_folder "$command"
  expect "no program: $command" 70 "$(cd of && RLS_PROGRAM=$room/nowhere command_of "$command" >../out 2>../err; echo $?)"
  expect "no program: $command: it is said" yes "$(says 'there is no program')"
done

# --- Files may not become larger than this: the program isn't killed for it, and says that it can't write.
head -c 20000 /dev/zero | tr '\0' x >large
for command in edit take session leave; do
  begin_folder "$command"
  (cd of && "$rls" edit --text ../large >../out 2>&1 && "$rls" send 1 >../large-message)
  case $command in take) rm -r of && mkdir of && (cd of && "$rls" new 7 1 3 >../out) ;; esac
  before=$(cd of && "$rls" check)
  status=$(cd of && ulimit -f 8 && case $command in take) "$rls" take <../large-message ;; *) command_of "$command" ;; esac >../out 2>../err; echo $?)
  expect "files of at most 8 KB: $command" 7 "$status"
  expect "files of at most 8 KB: $command: the text stays" "$before" "$(cd of && "$rls" check)"
done

# --- What the launcher calls
with_tool() {
  local name=$1 answer
  mkdir -p "$room/tools"
  printf '#!/bin/sh\n%s\n' "$2" >"$room/tools/$name"
  chmod +x "$room/tools/$name"
  shift 2
  PATH="$room/tools:$PATH" "$@"
  answer=$?
  rm "$room/tools/$name"
  return "$answer"
}
while read -r command tool status; do
  begin_folder "$command"
  expect "$command without $tool" "$status" "$(cd of && with_tool "$tool" 'exit 1' command_of "$command" >../out 2>../err; echo $?)"
  expect "$command without $tool: nothing is printed" '' "$(cat out)"
  expect "$command without $tool: nothing is left" 'begun*' "$([ "$tool" = sync ] || echo begun*; [ "$tool" != sync ] || echo 'begun*')"
  expect "$command without $tool: no file for a moment is left" '' "$(ls moment)"
done <<'END'
restart mktemp 8
restart split 8
restart mkdir 7
restart mv 7
restart awk 8
restart sync 7
retire mktemp 8
retire od 7
edit-text mktemp 8
edit-text awk 8
edit-text tr 8
check cksum 8
END
# A script in parts: as if one command might have 1,200,000 bytes. Its lines have 1,048,576 characters at most.
head -c 2500000 /dev/zero | tr '\0' x >parts
in_parts="mode=\$1; shift 2; exec $(command -v split) \"\$mode\" 1200000 \"\$@\""
begin_folder restart
(cd of && "$rls" edit --text ../parts >../out)
expect 'a new group with a long text' 0 "$(cd of && with_tool split "$in_parts" command_of restart >../out 2>../err; echo $?)"
expect 'a new group with a long text: the text' 0 "$(cd begun && "$rls" text | cmp - ../parts; echo $?)"
echo 'kill -KILL $$' >how
# (`stat`, `text` and `new` come before the first part)
for number in 4 5; do
  rm -rf begun calls
  echo "$number" >ends_at
  { status=$(cd of && RLS_PROGRAM=$room/ends with_tool split "$in_parts" command_of restart >../out 2>../err; echo $?); } 2>/dev/null
  expect "a new group with a long text, of which part $((number - 3)) fails" '137 none' "$status $([ -e begun ] || echo none)"
done
begin_folder restart
ln -s nowhere begun
expect 'a new group where a link leads nowhere' 7 "$(cd of && command_of restart >../out 2>../err; echo $?)"
expect 'a new group where a link leads nowhere: it stays' nowhere "$(readlink begun)"
# A program that is named from its folder is found from others.
begin_folder retire
cp "$real" of/program
expect 'a number that nobody uses, by a program that is named from its folder' 'retired 2' "$(cd of && RLS_PROGRAM=./program command_of retire)"
# Another command stores while copies are summed up.
begin_folder check
cat >changing <<END
#!/bin/bash
if [ "\$1" = ids ] && [ ! -e $room/changed ]; then : >$room/changed; echo 'i 0 y' | $real edit >/dev/null; fi
exec $real "\$@"
END
chmod +x changing
expect 'a check while another command stores is one of one moment' same "$([ "$(cd of && RLS_PROGRAM=$room/changing command_of check)" = "$(cd of && command_of check)" ] && echo same)"
begin_folder new
expect 'new without sync' 7 "$(cd of && with_tool sync 'exit 1' command_of new >../out 2>../err; echo $?)"
expect 'new without sync: it is said' yes "$(says 'a power failure now might take it away')"
expect 'new without sync: the replica is there' 0 "$(cd of && status_of "$rls" text)"

# --- The name of a new folder is kept by the folder above it, which is synced before anything is said.
noting="for path; do case \$path in --) ;; *) echo \"\$(cd \"\$path\" && pwd): \$(ls \"\$path\" | tr '\\n' ' ')\" >>$room/synced ;; esac; done; exec /bin/sync \"\$@\""
mkdir -p above/named && : >synced
expect 'new: the folder above is synced' "$room/above: named " "$(cd above/named && with_tool sync "$noting" "$rls" new 7 0 2 >../../out && cat "$room/synced")"
mkdir elsewhere && : >synced
expect 'restart: the folder above is synced, with the name' "$room/elsewhere: begun " "$(cd three && with_tool sync "$noting" "$rls" restart 8 0 2 "$room/elsewhere/begun" >../out && cat "$room/synced")"
expect 'restart: and then it is said' "restarted 8 0 2 in $room/elsewhere/begun" "$(cat out)"
unset TMPDIR
