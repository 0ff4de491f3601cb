# What bin/rls looks at before it takes a message or stores a file: whose group and number a message tells, in all bytes of these; that a message which was
# forged keeps nobody from editing for good; whose a file is that a store would replace; and a replica of one file that becomes three.
# bin/test-rls reads this and sets `here`, `room`, `rls` and `rooms`.
# shellcheck shell=bash disable=SC2154

# Numbers of four bytes.
u32() { local n; for n; do printf '%b' "$(printf '\\x%02x\\x%02x\\x%02x\\x%02x' $((n >> 24 & 255)) $((n >> 16 & 255)) $((n >> 8 & 255)) $((n & 255)))"; done; }
# A message without operations, of form 3 or the one that `form` says: head HIGH LOW MEMBERS SENDER COUNTS..
head_of() { printf 'RLSM%b' "\\${form:-3}"; u32 "$@" 0; }
# The replica of group 0x0102030405060708 that has made 300 operations, as member 0 of 2.
mkdir made && (cd made && "$rls" new 72623859790382856 0 2 >../out && for _ in $(seq 300); do echo 'i 0 x'; done | "$rls" edit >../out 2>&1)
high=16909060 low=84281096
takes() { rm -rf taking && cp -r "$1" taking && shift && head_of "$@" >forged && (cd taking && status_of "$rls" take <../forged); }
for count in 0 1 44 299 300; do expect "it knows $count of 300" 0 "$(takes made $high $low 2 1 $count 0)"; done
# (in two of these, three bytes are those that stand for a byte 0 while the head is read)
for count in 301 511 556 65536 65836 16777216 16777516 4261281285 4278124037 4294967295; do
  expect "it knows $count of 300" 71 "$(takes made $high $low 2 1 $count 0)"
  expect "it knows $count of 300: it is said" yes "$(says "knows $count operations of member 0, but this replica of member 0 has made 300")"
  expect "it knows $count of 300: it is noted" "72623859790382856-2-0 $count 1" "$(cat taking/replica.stale)"
done
for shift in 0 8 16 24; do
  expect "another group, high byte at $shift" 4 "$(takes made $((high ^ 1 << shift)) $low 2 1 301 0)"
  expect "another group, high byte at $shift: nothing is noted" no "$([ -e taking/replica.stale ] || echo no)"
  expect "another group, low byte at $shift" 4 "$(takes made $high $((low ^ 1 << shift)) 2 1 301 0)"
  expect "another group, low byte at $shift: nothing is noted" no "$([ -e taking/replica.stale ] || echo no)"
  expect "other members, byte at $shift" 4 "$(takes made $high $low $((2 ^ 1 << shift)) 1 301 0 0)"
  expect "other members, byte at $shift: nothing is noted" no "$([ -e taking/replica.stale ] || echo no)"
done
for form in 1 2 3; do expect "it knows more, form $form" 71 "$(takes made $high $low 2 1 301 0)"; done
for form in 0 4; do expect "another form is for the program to say: $form" 4 "$(takes made $high $low 2 1 301 0)"; done
unset form
# Groups that differ in bytes that stand for a byte 0 while the head is read.
mkdir small && (cd small && "$rls" new 7 0 2 >../out && echo 'i 0 x' | "$rls" edit >../out)
for byte in 253 254; do
  expect "another group, with bytes $byte" 4 "$(takes small $((byte * 16843009)) $((byte * 16843008 + 7)) 2 1 301 0)"
  expect "another group, with bytes $byte: nothing is noted" no "$([ -e taking/replica.stale ] || echo no)"
done
# A gate that a stop has torn may hold any byte: an even one names slot 0, and an odd one slot 1.
for byte in 2 3 127 128 255; do
  rm -rf torn && cp -r small torn && cp torn/replica.1 torn/stored
  cp torn/stored "torn/replica.$((byte % 2))" && printf '0' >"torn/replica.$((1 - byte % 2))" && printf %b "\\0$(printf %o $byte)" >torn/replica.gate
  expect "a gate with byte $byte: it knows as many" '0 x' "$(takes torn 0 7 2 1 1 0 | tr '\n' ' '; cd taking && "$rls" text)"
  expect "a gate with byte $byte: it knows more" 71 "$(takes torn 0 7 2 1 2 0)"
done
# The most members; and a file of the oldest form, which has no counts.
mkdir most && (cd most && "$rls" new 7 63 64 >../out && echo 'i 0 x' | "$rls" edit >../out)
mapfile -t others < <(for _ in $(seq 63); do echo 0; done)
expect '64 members: it knows as many' 0 "$(takes most 0 7 64 0 "${others[@]}" 1)"
expect '64 members: it knows more' 71 "$(takes most 0 7 64 0 "${others[@]}" 2)"
mkdir oldest && { printf 'RLSF\1' && u32 0 7 2 0 1 && printf '\0' && u32 0 1 0 0 && printf '\0\0\0\0\0\1\1\177\377\377\377' && u32 0 1 0 5 && printf hello && u32 0; } >oldest/replica.rls
expect 'a file of the oldest form: its text' hello "$(cd oldest && "$rls" text)"
expect 'a file of the oldest form: it knows as many' 0 "$(takes oldest 0 7 2 1 1 0)"
expect 'a file of the oldest form: it knows more' 71 "$(takes oldest 0 7 2 1 2 0)"
head_of 0 7 2 1 1 5 | head -c -1 >cut.off
expect 'a message that was cut off' 4 "$(cd small && status_of "$rls" take <../cut.off)"
expect 'a message that was cut off: no other one was lost' '' "$(grep 'was lost' err)"
mkdir of300 && (cd of300 && "$rls" new 72623859790382856 1 2 >../out)
expect 'what it knows of others is no matter' 0 "$(takes of300 $high $low 2 0 4294967295 0)"
expect 'the own count is at the own place' 71 "$(takes of300 $high $low 2 0 0 1)"

# --- A message that was forged
mkdir victim && (cd victim && "$rls" new 7 1 3 >../out && echo 'i 0 mine' | "$rls" edit >../out)
edits() { (cd victim && echo 'i 0 x' | status_of "$rls" edit); }
forge() { head_of 0 7 3 "$1" 0 "$2" 0 >forged && (cd victim && status_of "$rls" take <../forged); }
expect 'a forged message is refused' 71 "$(forge 2 9)"
expect 'a forged message keeps from editing' 71 "$(edits)"
expect 'a forged message keeps from editing: the way out' yes "$(says 'Then say so once, by RLS_FORCE=1 with this command')"
expect 'the way out' 0 "$(RLS_FORCE=1 edits)"
expect 'the way out is for good' 0 "$(edits)"
for count in 9 10 4294967295; do
  expect "the message comes again, with $count" 71 "$(forge 2 $count)"
  expect "the message comes again, with $count: nothing is taken" yes "$(says 'Nothing was taken')"
  expect "the message comes again, with $count: who edits goes on" 0 "$(edits)"
  expect "the message comes again, with $count: who sends goes on" 0 "$(cd victim && status_of "$rls" send 0)"
done
expect 'in the name of another' '71 71' "$(forge 0 9) $(edits)"
expect 'in the name of another: the way out, by a session' 0 "$(cd victim && echo q | RLS_FORCE=1 status_of "$rls" session)"
expect 'in the name of another: the way out is for good' '71 0' "$(forge 0 10) $(edits)"
expect 'in the name of the first one again' '71 0' "$(forge 2 11) $(edits)"
expect 'a command that reads says nothing of it' '' "$(cd victim && quiet "$rls" text)"
(cd victim && rm replica.[01g]* && "$rls" new 8 1 3 >../out && echo 'i 0 x' | "$rls" edit >../out)
head_of 0 8 3 2 0 9 0 >forged
expect 'another text in the folder begins anew' '71 71' "$(cd victim && status_of "$rls" take <../forged) $(edits)"

# Whom the folder doubts is a whole number.
rm -rf victim && mkdir victim && (cd victim && "$rls" new 7 0 13 >../out && echo 'i 0 mine' | "$rls" edit >../out)
name_of_13() { head_of 0 7 13 "$1" 9 0 0 0 0 0 0 0 0 0 0 0 0 >forged && (cd victim && status_of "$rls" take <../forged); }
expect 'in the name of member 12' '71 0' "$(name_of_13 12) $(RLS_FORCE=1 edits)"
expect 'in the name of member 12, again' '71 0' "$(name_of_13 12) $(edits)"
expect 'in the name of member 1' '71 71' "$(name_of_13 1) $(edits)"

# --- Whose a file is
if [ -w /proc/version ] && command -v setpriv >/dev/null 2>&1; then
  nobody=(setpriv --reuid 65534 --regid 65534 --clear-groups)
  chmod 711 "$rooms" "$room"
  owned() { rm -rf owned && mkdir owned && cp "$here/../examples/hello/replica.rls" owned && chown "$1" owned/replica.rls && chmod "$2" owned/replica.rls && chmod 777 owned; }
  is_of() { stat -c '%u:%g %a' owned/replica.rls; }
  if ! (cd "$room" && "${nobody[@]}" "$rls" help) >/dev/null 2>&1; then
    skip 'whose a file is' 'another user can not run bin/rls here'
  else
    while read -r owner mode user status; do
      owned "$owner" "$mode"
      as=() && [ "$user" = root ] || as=("${nobody[@]}")
      for command in edit leave; do
        expect "a file of $owner $mode, $command of $user" "$status $owner $mode" "$(cd owned && printf '' | status_of "${as[@]}" "$rls" "$command" >../status; tr '\n' ' ' <../status; cd .. && is_of)"
        [ "$status" = 0 ] || expect "a file of $owner $mode, $command of $user: why" yes "$(says 'belongs to another user or to another group')"
      done
    done <<'END'
65534:65534 600 root 71
65534:65534 660 root 71
0:65534 660 root 71
0:65534 640 root 71
0:0 600 root 0
0:0 666 nobody 71
65534:65534 600 nobody 0
65534:65534 664 nobody 0
END
    # Where the folder above may not be read there is no way to sync the new name.
    mkdir above && chmod 711 above && mkdir above/of-nobody && chown 65534:65534 above/of-nobody
    expect 'new in a folder whose parent may not be read' 0 "$(cd above/of-nobody && status_of "${nobody[@]}" "$rls" new 7 0 2)"
    owned 65534:65534 600
    expect 'a file of another user, forced' 0 "$(cd owned && printf '' | RLS_FORCE=1 status_of "$rls" edit)"
    owned 0:65534 660 && chgrp 65534 owned && chmod g+s owned
    expect 'a file of the group that new files get' '0 0:65534 660' "$(cd owned && printf '' | status_of "$rls" edit | tr '\n' ' '; cd .. && is_of)"
    rm -rf owned && cp -r made owned && chown 65534:65534 owned/replica.* && chmod 600 owned/replica.*
    expect 'three files of another user keep owner and mode' '0 65534:65534 600' "$(cd owned && printf '' | status_of "$rls" edit | tr '\n' ' '; stat -c '%u:%g %a' replica.0)"
  fi
else
  skip 'whose a file is' 'this user can not become another one'
fi

# --- A replica of one file becomes three, by the lines of docs/USE.md.
sed -n '/^    size=.*replica.rls/,/^$/p' "$here/../docs/USE.md" >becomes
expect 'the page has the lines' yes "$(grep -q replica.gate becomes && echo yes)"
# Each form of files too: the first command that stores writes the newest.
old_forms() {
  local hello='01 7fffffff 00000000 00000001 00000000 00000005 00000005 68656c6c6f 00000001 00000000 00000001 0000000000000000 00 00 00000001 01 7fffffff 00000000 00000001 00000000 00000005 68656c6c6f 00000000'
  local head='0000000000000007 00000002 00000000 0000000100000000 0000000000000000'
  echo "3 524c5346 03 $head 00000001 00000001 00000000 00000005 00000000 00000001 00 00000001 00000001 $hello"
  echo "2 524c5346 02 $head 00000001 00000001 00000005 00000000 00000001 00 00000001 00000001 $hello"
  echo "1 $(od -An -v -tx1 oldest/replica.rls | tr -d '\n')"
}
form_of() { od -An -tu1 -j $((8 + 4)) -N1 "$1/replica.$(($(od -An -tu1 -N1 "$1/replica.gate") & 1))" | tr -d ' '; }
while read -r form bytes; do
  rm -rf one && mkdir one && printf %b "$(sed 's/ //g; s/../\\x&/g' <<<"$bytes")" >one/replica.rls
  expect "a file of form $form: its text" hello "$(cd one && "$rls" text)"
  (cd one && "$rls" stat >../before && "$rls" ids >>../before)
  (cd one && bash -e ../becomes >../out 2>../err)
  expect "a file of form $form becomes three: nothing else" "$form" "$(cd one && { "$rls" stat && "$rls" ids; } | cmp ../before - 2>&1; form_of .)"
  expect "a file of form $form becomes three: it is edited" '0 4 xhello' "$(cd one && echo 'i 0 x' | status_of "$rls" edit | tr '\n' ' '; form_of . | tr '\n' ' '; "$rls" text; rm -f ../replica.old)"
done < <(old_forms)
for script in '' "i 0 $(head -c 70000 /dev/zero | tr '\0' y)"; do
  rm -rf one && mkdir one && cp "$here/../examples/hello/replica.rls" one
  [ -z "$script" ] || (cd one && echo "$script" | "$rls" edit >../out 2>&1)
  (cd one && "$rls" stat >../before && "$rls" ids >>../before && "$rls" text >>../before)
  (cd one && bash -e ../becomes >../out 2>../err)
  expect 'one file becomes three: the files' 'replica.0 replica.gate ' "$(cd one && printf '%s ' *)"
  expect 'one file becomes three: nothing else' '' "$(cd one && { "$rls" stat && "$rls" ids && "$rls" text; } | cmp ../before - 2>&1)"
  expect 'one file becomes three: it is edited' 0 "$(cd one && echo 'i 0 x' | status_of "$rls" edit; rm -f ../replica.old)"
done
