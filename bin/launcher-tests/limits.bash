# What bin/rls says where a limit is met: which one, both numbers, and the command that helps; what still works, and that this command does help: each
# row of docs/USE.md, "Where a limit is met". A stand-in answers in place of the program, over a replica whose files tell a size that they don't have,
# so that no large file is made. bin/test-rls reads this and sets `here`, `room` and `rls`.
# shellcheck shell=bash disable=SC2154

mkdir slots file && (cd slots && "$rls" new 7 0 2 >/dev/null)
# The slot with the replica tells this size, and the other one the same or another: sized BYTES [OTHER]
sized() {
  local stored=$(($(od -An -tu1 -N1 "$room/slots/replica.gate") & 1))
  tells "$stored" "$1" && tells $((1 - stored)) "${2-$1}"
}
tells() {
  local hex
  printf -v hex %016x "$2"
  # shellcheck disable=SC2001
  printf %b "$(sed 's/../\\x&/g' <<<"$hex")" | dd of="$room/slots/replica.$1" conv=notrunc status=none
}
# A replica.rls of this size, which takes no room: long BYTES
long() { rm -f "$room/file/replica.rls" && truncate -s "$1" "$room/file/replica.rls"; }
# A command in the folder, while the program answers with this status and line: answered STATUS LINE FOLDER COMMAND..
answered() {
  printf '#!/bin/sh\ncat >/dev/null\n[ -z "%s" ] || echo "%s" >&2\nexit %s\n' "$2" "$2" "$1" >"$room/program" && chmod +x "$room/program"
  (cd "$room/$3" && shift 3 && RLS_PROGRAM=$room/program status_of "$@")
}
edits() { echo "$1" | "$rls" edit; }
takes() { "$rls" take <"$room/a-message"; }
message '' >a-message
# Whether a command says that the file is nearly full.
full() { case $(<"$room/err") in *'rls: the stored file has '*' bytes of the 268,435,456 that it may have.'*'`rls restart GROUP ME MEMBERS`'*) echo yes ;; *'stored file'*) cat "$room/err" ;; *) echo no ;; esac; }

# --- A stored file that would be too long.
sized 263884874 && long 263884874
for how in 'slots edits i' 'slots takes' 'slots rls leave' 'file edits i' 'file takes'; do
  read -r folder words <<<"$how"
  # shellcheck disable=SC2086
  expect "too large: $how" 11 "$(answered 11 'too large' "$folder" ${words/rls/"$rls"} </dev/null)"
  expect "too large: $how: which limit" yes "$(says 'the stored file has 263,884,874 bytes, and would have more than the 268,435,456 that it may have')"
  expect "too large: $how: what helps" yes "$(says '`rls restart GROUP ME MEMBERS` begins a new group')"
done
sized 1000
expect 'too large, and the file is short' 11 "$(answered 11 'too large' slots edits 'i 0 x')"
expect 'too large, and the file is short: its size' yes "$(says 'the stored file has 1,000 bytes, and would have')"

# --- An input that is too long.
expect 'a script that is too large' 11 "$(head -c 67108865 /dev/zero | answered 11 'too large' slots "$rls" edit)"
expect 'a script that is too large: which limit' yes "$(says 'the script has 67,10[0-9],[0-9]* bytes or more, and may have 67,108,864')"
truncate -s 70000000 script
expect 'a file that is too large a script' 11 "$(answered 11 'too large' slots "$rls" edit <script)"
expect 'a file that is too large a script: its size' yes "$(says 'the script has 70,000,000 bytes or more, and may have 67,108,864')"
in_parts=$(sed -n 's/^rls: \(split .*\)$/\1/p' err)
sized 66 && rm -rf slots && mkdir slots && (cd slots && "$rls" new 7 0 2 >/dev/null)
printf 'i 0 b\ni 0 a\n' >script
# (`rls` of the words that it says is this one)
expect 'a script that is too large: in parts' ab "$(cd slots && rls() { "$here/rls" "$@" >/dev/null; } && eval "${in_parts/SCRIPT/../script}" && rls text && "$rls" text)"
truncate -s 70000000 long-message
expect 'a message that is too large' 11 "$(answered 11 'too large' slots "$rls" take <long-message)"
expect 'a message that is too large: which limit' yes "$(says 'the message has 70,000,000 bytes or more, and may have 67,108,864')"
rm script long-message

# --- A file that is nearly full: said once a day, after a command that stored.
rm -f slots/part.* slots/replica.told
sized 241591910 && long 241591910
for how in 'slots edits i' 'slots takes' 'file edits i' 'file takes'; do
  read -r folder words <<<"$how"
  # shellcheck disable=SC2086
  expect "room for a tenth: $how" '0 no' "$(answered 0 '' "$folder" $words) $(full)"
done
sized 241591911 && long 241591911
for how in 'slots edits i' 'slots takes' 'file edits i' 'file takes'; do
  read -r folder words <<<"$how"
  rm -f "$folder/replica.told"
  # shellcheck disable=SC2086
  expect "nearly full: $how" '0 yes' "$(answered 0 '' "$folder" $words) $(full)"
  # shellcheck disable=SC2086
  expect "nearly full: $how: it is said once" '0 no' "$(answered 0 '' "$folder" $words) $(full)"
done
expect 'nearly full, without advice on renames' yes "$(rm slots/replica.told; RLS_RENAME_AT=0 answered 0 '' slots edits i >/dev/null; full)"
expect 'nearly full: who only reads is told nothing' no "$(rm slots/replica.told; answered 0 '' slots "$rls" stat >/dev/null; full)"
while read -r told wanted; do
  echo "$told" >slots/replica.told
  expect "nearly full, which was told at $told" "$wanted" "$(answered 0 '' slots edits i >/dev/null; full)"
done <<END
$((EPOCHSECONDS - 86000)) no
$((EPOCHSECONDS - 86401)) yes
$((EPOCHSECONDS + 100000)) yes
0$((EPOCHSECONDS - 1000)) no
yesterday yes
END

# --- An operation that is too large.
while IFS='|' read -r line words; do
  expect "an operation too large: $line" 6 "$(answered 6 'line 1: operation too large 43731222' slots edits "$line")"
  expect "an operation too large: $line: both numbers" yes "$(says 'it would need 43,731,222 bytes, and an operation may have 16,777,216')"
  expect "an operation too large: $line: what helps" yes "$(says "$words")"
done <<'END'
r|`rls restart GROUP ME MEMBERS`
d 0 9|Delete in parts, or rename before: echo r | rls edit. Nothing was stored
i 0 x|Rename before: echo r | rls edit. Nothing was stored
END

# --- More characters than one edit may have.
while IFS='|' read -r number line; do
  expect "too many characters: $line" 6 "$(answered 6 "line 1: too many characters $number" slots edits "$line")"
  expect "too many characters: $line: the limits" yes "$(says "it has $number characters: an insertion may have 1,048,576, and a deletion or a rename 4,194,304. Nothing was stored")"
done <<'END'
1048577|i 0 x
4194305|d 0 4194305
4194305|r
END

# --- The input of a session is counted from its last `w` on, with the lines of messages. What came since then isn't stored.
while IFS='|' read -r between wanted; do
  rm -rf slots && mkdir slots && (cd slots && "$rls" new 7 0 2 >/dev/null)
  expect "a session with two messages of 40 MB, between them '$between'" "$wanted" "$(
    { printf 'i 0 a\nm 40000000\n' && head -c 40000000 /dev/zero && printf '%bi 0 b\nm 40000000\n' "$between" && head -c 40000000 /dev/zero; } |
      (cd slots && status_of "$rls" session && "$rls" text) | xargs
  )"
done <<'END'
|11
w\n|0 ba
i 0 c\nw\ni 0 d\n|0 bdca
END
rm -rf slots && mkdir slots && (cd slots && "$rls" new 7 0 2 >/dev/null && echo 'i 0 a' | "$rls" edit >/dev/null)
expect 'a session with too much since its last w' '11 too large' "$(
  { printf 'i 0 b\nw\ni 0 c\nm 70000000\n' && head -c 70000000 /dev/zero; } | (cd slots && status_of "$rls" session && cat ../err) | xargs
)"
expect 'a session with too much since its last w: what it stored is there' ba "$(cd slots && "$rls" text)"

# --- A full file: what reads still works, and so does `rls restart`, which stores nothing there.
real=${RLS_PROGRAM:-$here/.built/rls}
printf '#!/bin/bash\ncase $PWD/$1 in */slots/edit | */slots/take | */slots/leave) cat >/dev/null; echo "too large" >&2; exit 11 ;; esac\nexec %q "$@"\n' "$real" >program
while IFS='|' read -r wanted words; do
  # shellcheck disable=SC2086
  expect "a file that is full: $words" "$wanted" "$(cd slots && RLS_PROGRAM=$room/program status_of "$rls" $words <../a-message)"
done <<'END'
0|text
0|stat
0|ids
0|check
0|send 1
11|edit
11|take
11|leave
0|restart 8 0 2 ../goes-on
END
expect 'a file that is full: the text goes on' xba "$(cd goes-on && echo 'i 0 x' | "$rls" edit >/dev/null && "$rls" text)"
expect 'a file that is full: it stays' ba "$(cd slots && "$rls" text)"

# --- The numbers of one member.
mkdir spent && (cd spent && "$rls" new 7 0 1 >/dev/null)
printf '\377\377\377\376' | dd of="spent/replica.$(($(od -An -tu1 -N1 spent/replica.gate) & 1))" bs=1 seek=29 conv=notrunc status=none
expect 'the last number of a member' 0 "$(cd spent && echo 'i 0 a' | status_of "$rls" edit)"
for words in edit leave; do
  expect "no number is left: $words" 6 "$(cd spent && echo 'i 0 b' | status_of "$rls" $words)"
  expect "no number is left: $words: what helps" yes "$(says 'this member has made as many operations as there may be: begin with another number. Nothing was stored')"
done
expect 'no number is left: it is sent and taken' 'applied 0 released 0 repeated 0 held 0 refused 0' "$(cd spent && "$rls" send 0 >../spent.message 2>/dev/null && "$rls" take <../spent.message 2>/dev/null)"
expect 'no number is left: the text goes on elsewhere' '0 xa' "$(cd spent && { status_of "$rls" restart 8 0 1 ../goes-on-too && cd ../goes-on-too && echo 'i 0 x' | "$rls" edit >/dev/null && "$rls" text; } | xargs)"

# --- A file that has just grown: a rename is advised after `edit` where runs are many and all have the last rename, or the file is large; else an exchange.
rm -f slots/replica.told
while read -r command size old runs epochs wanted; do
  sized "$size" "$old"
  printf '#!/bin/sh\n[ "$1" != stat ] || { printf "total 1000\nruns %s\nunstable 9\nepochs %s\n"; exit; }\ncat >/dev/null\n' "$runs" "$epochs" >program
  expect "grown to $size bytes, $command, with $runs runs in $epochs epochs" "$wanted" "$(cd slots && RLS_PROGRAM=$room/program "$command" i 2>&1 |
    sed -n "s/.*$size bytes.*\`echo r .*/rename/p; s/.*$size bytes.*9 operations stay.*/exchange/p")"
done <<'END'
edits 200000 60000 501 1 rename
edits 200000 60000 500 1 exchange
edits 200000 60000 9999 2 exchange
edits 4194304 4194303 501 2 rename
edits 4194303 2000000 501 2 exchange
edits 4194304 4194303 500 9 exchange
takes 200000 60000 4001 1
END
