# What bin/rls says of words and input that are refused, beside the line of the program: what that means, and what to do.
# bin/test-rls reads this and sets `here`, `room` and `rls`.
# shellcheck shell=bash disable=SC2154

two_members

# --- Words, input and output.
# shellcheck disable=SC2016
expect 'no output' 9 "$(cd ben && status_of sh -c '"$1" text >&-' sh "$rls")"
expect 'no output leaves the replica' onetwo "$(ben text)"
# shellcheck disable=SC2016
expect 'no input' 4 "$(cd ben && status_of sh -c '"$1" take <&-' sh "$rls")"
expect 'no input leaves the replica' onetwo "$(ben text)"
expect 'the words are handed on' 1 "$(cd ben && status_of "$rls" text more)"
expect 'a message as a word' 1 "$(cd ben && status_of "$rls" take ../m1)"
expect 'a message as a word: what to write' yes "$(says 'rls take < MESSAGE')"
expect 'a member by name' 1 "$(cd ben && status_of "$rls" send ada)"
expect 'a member by name: what to write' yes "$(says 'rls send TO > MESSAGE')"
expect 'help after a command' 0 "$(cd ben && status_of "$rls" take --help)"
expect 'help fits a terminal of 80 columns' '' "$("$rls" help | awk 'length($0) > 79')"
expect 'help fits a screen' yes "$([ "$("$rls" help | wc -l)" -le 23 ] && echo yes)"
commands=(share join sync who where drop give new edit text ids stat check send take head leave retire restart trial session build)
expect 'help names every command' '' "$(for word in "${commands[@]}"; do "$rls" help | grep -qw "$word" || echo "$word"; done)"
expect 'help of every command, in 80 columns' '' "$(for word in "${commands[@]}" help version status; do "$rls" help "$word" | awk -v word="$word" 'length($0) > 79 { print word } END { if (!NR) print word }'; done)"
expect 'help of a command' 'rls send TO > MESSAGE' "$("$rls" help send | head -1)"
expect 'help after a command is about it' 'rls take < MESSAGE' "$("$rls" take --help | head -1)"
expect 'help of what is no command' 1 "$(status_of "$rls" help nothing)"

# What can't be printed: only of a command that stores it is said that this is stored.
while read -r words wanted; do
  # shellcheck disable=SC2016,SC2086
  expect "a full device: $words" "9 $wanted" "$(cd ben && status_of sh -c 'exec "$@" >/dev/full' sh "$rls" ${words//-/ } </dev/null) $(grep -c 'What the command stores is stored' "$room/err")"
done <<'END'
text 0
ids 0
stat 0
send-0 0
trial-1-1 0
edit 1
END

# --- What a line of the program means.
fails() {
  local name=$1 status=$2 words=$3
  shift 3
  expect "$name" "$status" "$(cd "$room/ben" && status_of "$@")"
  expect "$name: what it means" yes "$(says "$words")"
  expect "$name: nothing on standard output" '' "$(cat "$room/out")"
}
script() { printf '%b' "$1" | "$rls" edit; }
mkdir nothing third && (cd third && "$rls" new 8 0 2 >/dev/null)
expect 'no replica' 2 "$(cd nothing && status_of "$rls" stat)"
expect 'no replica: the line of the program is the first' 'no replica' "$(head -1 "$room/err")"
expect 'no replica: what it means' yes "$(says 'rls new GROUP ME MEMBERS')"
fails 'a number with a zero' 1 'a zero or a sign in front' "$rls" send 01
fails 'a replica is there' 2 'a folder of its own' "$rls" new 7 1 2
expect 'too many members' 4 "$(cd nothing && status_of "$rls" new 7 0 65)"
expect 'too many members: what it means' yes "$(says 'from 1 to 64')"
expect 'a number that is too high' 4 "$(cd nothing && status_of "$rls" new 7 2 2)"
expect 'a number that is too high: what it means' yes "$(says 'it is below MEMBERS')"
fails 'no such member' 4 'numbered from 0' "$rls" send 5
fails 'a bad line' 4 'line 2 of the script is `hello`. A line is `i POS TEXT`' script 'i 0 x\nhello\n'
fails 'a long bad line' 4 'is `x\{57\}\.\.\.`\. A line' script "$(printf 'x%.0s' $(seq 100))\\n"
fails 'a bad line after many' 4 'line 400 of the script is `hello`' script "$(printf 'i 0 x\\n%.0s' $(seq 399))hello\\n"
expect 'a byte 0 in a script' 'a.b.c' "$(mkdir zero && cd zero && "$rls" new 7 0 1 >/dev/null && printf 'i 0 a\0b\0c' | "$rls" edit >/dev/null && "$rls" text | tr '\0' .)"
expect 'a byte 0 in a long script' 2005 "$(cd zero && { printf 'i 0 '; head -c 1000 /dev/zero; head -c 1000 /dev/zero | tr '\0' x; } | "$rls" edit >/dev/null && "$rls" text | wc -c)"
expect 'an empty script' 'edits 0 released 0 refused 0' "$(cd zero && printf '' | "$rls" edit)"
expect 'a script of one empty line' 4 "$(cd zero && echo | status_of "$rls" edit)"
fails 'an empty line' 4 'line 2 of the script. A script has no empty lines' script 'i 0 x\n\ni 0 y\n'
fails 'a carriage return' 4 'is `d 0 1?`. It ends with a carriage return' script 'd 0 1\r\n'
fails 'a backslash' 4 'nothing else follows a backslash' script 'i 0 C:\\temp\n'
fails 'a backslash after a tab' 4 'nothing else follows a backslash' script 'i 0 a\t1 C:\\temp\n'
fails 'a byte order mark' 4 'begins with a byte order mark' script '\0357\0273\0277i 0 x\n'
fails 'no UTF-8 in a script' 4 'is no text in UTF-8' script 'i 0 caf\0351\n'
fails 'a tab between the parts' 4 'one space, and no tab' script 'd 0\t1\n'
fails 'a number with a zero in a script' 4 'a zero or a sign in front' script 'i 00 x\n'
fails 'a number with a sign in a script' 4 'a zero or a sign in front' script 'd 0 -1\n'
fails 'no numbers' 1 'three numbers' "$rls" new seven 0 4
status_of "$rls" send ada >/dev/null
expect 'wrong words: what is wrong comes first' 'rls: TO is the number of a member, and FILE a message of that member: rls send TO > MESSAGE; or: rls send TO --told FILE > MESSAGE' "$(head -1 "$room/err")"
expect 'wrong words: the line of the program is the last' 'usage: new GROUP' "$(tail -1 "$room/err" | cut -c 1-16)"
fails 'no such command' 1 'there is no command `status`' "$rls" status
fails 'no such command, and which there are' 1 'new, edit, text, send, take, head, stat, check, ids, session, leave, retire, restart' "$rls" undo
fails 'one number in place of three' 1 'rls new GROUP ME MEMBERS' "$rls" new 7
fails 'words for a new text that are no numbers' 1 'rls restart GROUP ME MEMBERS FOLDER' "$rls" restart eight 0 2
fails 'a number of twenty digits in a script' 4 'A number is too great' script 'd 0 99999999999999999999\n'
fails 'a message to oneself' 0 '1 is this member.s own number' sh -c '"$1" send 1 >../own' sh "$rls"
fails 'no message' 4 'ask for it again' "$rls" take <"$here/test-rls"
printf 'RLSM\011%0300d' 0 >newer
fails 'a newer message' 4 'a newer program' "$rls" take <newer
(cd third && "$rls" send 1 >../other)
# One that deletes a character nobody has inserted, whose identifier has as many parts as are said (in hexadecimal) and one more.
hostile() {
  message "\\0\\0\\0\\1\\0\\0\\0\\1\\0\\0\\0\\0\\0\\0\\0\\0\\0\\1\\0\\0\\0\\1\\x${1:0:2}\\x${1:2:2}\\x${1:4:2}\\x01"
  head -c "$((0x$1 << 8))" /dev/zero
  printf '\1\177\377\377\377\0\0\0\1\0\0\0\1\0\0\0\0\0\0\0\1'
}
hostile 00003f >hostile.small
hostile 001000 >hostile.large
declare -A most=([small]=500 [large]=4000)
for size in small large; do
  rm -rf attacked && mkdir attacked && (cd attacked && "$rls" new 7 0 2 >../out)
  expect "a hostile message, $size" 5 "$(cd attacked && status_of "$rls" take <../hostile.$size)"
  expect "a hostile message, $size: all of its line is told" "$((4 * ($(wc -c <hostile.$size) - 80) + 44))" "$(head -1 err | wc -c)"
  expect "a hostile message, $size: it takes no long time" yes "$(cd attacked && rm replica.* && "$rls" new 7 0 2 >../out && within "${most[$size]}" "$rls" take <../hostile.$size)"
done
fails 'another group' 4 'of text number 8 with 2 members' "$rls" take <other
fails 'past the end' 6 'line 1 is `d 0 100`: it deletes 100 characters from position 0 on, and the text has 6 then' script 'd 0 100\n'
fails 'past the end, an insertion' 6 'line 1 is `i 9 x`: position 9 is asked for, and the text has 6 characters' script 'i 9 x\n'
fails 'nothing to insert' 6 'nothing to insert' script 'i 0 \n'
fails 'nothing to rename' 6 'line 3 is `r`: the text is empty' script 'i 0 x\nd 0 7\nr\n'
fails 'no character ends there' 6 'as a reader sees it' script 'i 0 e\0314\0201\nb 1\n'
fails 'too large' 11 '67,108,864' sh -c 'head -c 67108865 /dev/zero | "$1" take' sh "$rls"
cp -r ben left
expect 'who left' 0 "$(cd left && status_of "$rls" leave)"
expect 'who left and edits' 6 "$(cd left && status_of script 'i 0 x\n')"
expect 'who left and edits: what it means' yes "$(says 'has left or was retired')"
cp -r ben damaged
for file in damaged/replica.[01]; do printf 'damaged' | dd of="$file" bs=1 seek=10 conv=notrunc 2>/dev/null; done
expect 'a damaged file' 3 "$(cd damaged && status_of "$rls" text)"
expect 'a damaged file: what it means' yes "$(says 'A replica is lost')"
expect 'and so nothing changed' onetwo "$(ben text)"
expect 'who reads errors alone sees one line more' 2 "$(cd ben && script 'hello\n' 2>&1 >/dev/null | wc -l)"

expect 'what reads a text has stopped' 9 "$(cd ben && status_of sh -c '"$1" text >/dev/full' sh "$rls")"
expect 'what reads a text has stopped: what it means' yes "$(says 'or what reads it has stopped')"
expect 'a report that can not be printed' 9 "$(cp -r ben reported && cd reported && "$rls" take <../m1 >/dev/full 2>../err; echo $?)"
expect 'a report that can not be printed: the line of the program' 'sink fault' "$(head -1 err)"
expect 'a report that can not be printed: what it means' yes "$(says 'What the command stores is stored')"
# What reads these by a pipe has gone before they begin.
reading=(text ids stat 'send 0' 'trial 1 5' take)
# shellcheck disable=SC2086
{ sleep 0.3 && cd reported && for command in "${reading[@]}"; do "$rls" $command <../m1 2>>../gone.err; echo "$? $command" >>../gone; done; } | true
expect 'what reads by a pipe has gone' "$(printf '9 %s\n' "${reading[@]}")" "$(cat gone)"
expect 'what reads by a pipe has gone: a word is said of what was stored alone' 'sink fault' "$(grep -v '^rls: ' gone.err)"
head -c 3000000 /dev/zero | tr '\0' x >long
expect 'what reads a text by a pipe has stopped: nothing is said' '' "$(mkdir piped && cd piped && "$rls" new 7 0 1 >../out && "$rls" edit --text ../long >../out && { "$rls" text 2>&1 >&3 | cat; } 3> >(head -c 1 >/dev/null))"
# shellcheck disable=SC2216
expect 'what reads a text by a pipe has stopped: the status' '9 0' "$(cd piped && "$rls" text 2>../err | head -c 1 >../out; echo "${PIPESTATUS[*]}")"
expect 'what reads a text by a pipe has stopped: nothing is said, 2' '' "$(cat err)"
expect 'a large file with one run: nothing is said' '' "$(cd piped && echo 'd 0 2' >../two && rm replica.* && "$rls" new 7 0 2 >../out && quiet "$rls" edit --text ../long)"

# --- Line ends of Windows, and a byte order mark.
expect 'a carriage return in a script' 'edits 1 released 0 refused 0' "$(cd piped && printf 'i 0 a\r\n' | "$rls" edit 2>../err)"
expect 'a carriage return in a script: what it means' yes "$(says 'lines of the script end with a carriage return')"
printf 'i 0 a\r\ni 0 b' >windows
expect 'a carriage return in a file' yes "$(cd piped && "$rls" edit <../windows >../out 2>../err; says 'lines of the script end with a carriage return')"
for _ in $(seq 300); do printf 'i 0 x\r\n'; done >windows
# shellcheck disable=SC2002
expect 'a carriage return in a long script' yes "$(cd piped && cat ../windows | "$rls" edit >../out 2>../err; says 'lines of the script end with a carriage return')"
# shellcheck disable=SC2002
expect 'no carriage return in a long script' '' "$(cd piped && tr -d '\r' <../windows >../unix && cat ../unix | quiet "$rls" edit; quiet "$rls" edit <../unix)"
expect 'a carriage return at the very end' yes "$(cd piped && printf 'i 0 a\r' | "$rls" edit >../out 2>../err; says 'lines of the script end with a carriage return')"
expect 'a carriage return that is spelled' '' "$(cd piped && printf 'i 0 a\\r\n' | quiet "$rls" edit)"
mkdir windows.d
printf '\357\273\277one\r\ntwo\r\n' >windows
expect 'a text of Windows' 'edits 1 released 0 refused 0' "$(cd windows.d && "$rls" new 7 0 1 >../out && "$rls" edit --text ../windows 2>../err)"
expect 'a text of Windows: its byte order mark' yes "$(says 'windows begins with a byte order mark')"
expect 'a text of Windows: its line ends' yes "$(says 'lines of ../windows end with a carriage return')"
echo three >>windows
expect 'a text of Windows is told once' '' "$(cd windows.d && quiet "$rls" edit --text ../windows)"
