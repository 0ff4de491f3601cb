# That bin/rls builds the program when it has to and only then: over a small checkout, with a stand-in for rt, which notes what it was asked to build.
# bin/test-rls reads this and sets `here` and `room`.
# shellcheck shell=bash disable=SC2154

top="$room/a checkout"
mkdir -p "$top/bin" "$top"/crates/rls_{low,left,right,cli,other}/{src,proofs} "$room/path" "$room/replica"
cp "$here"/rls* "$top/bin"
printf 'rls_low:\nrls_left: rls_low\nrls_right: rls_low\nrls_other: rls_low\nrls_cli: rls_left rls_right\n' >"$top/crates.txt"
for name in low left right cli other; do echo "source of $name" >"$top/crates/rls_$name/src/lib.rt"; done
cat >"$room/path/rt" <<'END'
#!/usr/bin/env bash
case $1 in
  version) echo 'stand-in 1'; exit ;;
esac
mkdir -p out
echo "$(basename "$PWD")" >>"$RT_NOTES"
grep -q broken src/lib.rt && { echo 'src/lib.rt:1:1: error'; exit 1; }
[ "$1" = lib ] && { mkdir -p out/rlib; : >out/rlib/stamp; }
[ "$1" = run ] && { printf '#!/bin/sh\necho program "$@"\n' >out/rls_cli; chmod +x out/rls_cli; }
exit 0
END
chmod +x "$room/path/rt"
export RT_NOTES=$room/notes
: >"$RT_NOTES"
cd "$room/replica" || exit 1
rls() { PATH="$room/path:$PATH" "$top/bin/rls" "$@"; }
built() { tr '\n' ' ' <"$RT_NOTES" 2>/dev/null; : >"$RT_NOTES"; }

expect 'help asks for no build' 0 "$(status_of rls help)"
expect 'help asks for no build, 2' '' "$(built)"
expect 'the version of a checkout that is not built' yes "$(rls --version | grep -q 'not built yet' && echo yes)"
expect 'the first command builds' 'program text' "$(rls text 2>"$room/err")"
expect 'a line for each crate, with its number' yes "$(says '4 of 4  rls_cli')"
expect 'each crate after those below it, and no other' 'rls_low rls_left rls_right rls_cli ' "$(built | sed 's/rls_right rls_left/rls_left rls_right/')"
expect 'the version tells the kit' yes "$(rls --version | grep -q 'with stand-in 1' && echo yes)"
expect 'build has nothing to do then' 0 "$(status_of rls build)"
expect 'the next one runs at once' 'program ids' "$(rls ids)"
expect 'nothing was built for it' '' "$(built)"
touch "$top/crates/rls_low/src/lib.rt"
expect 'a touched file' 'program ids' "$(rls ids)"
expect 'a touched file builds nothing' '' "$(built)"
cp -r "$top" "$room/copy"
expect 'a copied checkout' 'program ids' "$(PATH="$room/path:$PATH" "$room/copy/bin/rls" ids)"
expect 'a copied checkout builds nothing' '' "$(built)"
echo 'another proof' >"$top/crates/rls_low/proofs/New.antt"
expect 'a new proof alone' 'program ids' "$(rls ids)"
expect 'a new proof alone waits for the next build' '' "$(built)"
echo 'changed' >>"$top/crates/rls_left/src/lib.rt"
expect 'changed, and no rt' 70 "$(PATH=/usr/bin:/bin status_of "$top/bin/rls" text)"
expect 'changed, and no rt: what is missing' yes "$(says 'command rt')"
expect 'changed, and no rt: what runs without it' yes "$(says 'RLS_PROGRAM=FILE runs a program')"
expect 'a changed source' 'program text' "$(rls text 2>/dev/null)"
expect 'a changed source builds, the new proof too' 'rls_low rls_left rls_right rls_cli ' "$(built | sed 's/rls_right rls_left/rls_left rls_right/')"
echo 'changed again' >>"$top/crates/rls_left/src/lib.rt"
expect 'a changed source once more' 'program text' "$(rls text 2>/dev/null)"
expect 'a changed source builds its crate and those above it' 'rls_left rls_cli ' "$(built)"
echo 'changed' >>"$top/crates/rls_other/src/lib.rt"
expect 'a source that the program does not use' 'program text' "$(rls text)"
expect 'a source that the program does not use builds nothing' '' "$(built)"
echo 'broken' >>"$top/crates/rls_right/src/lib.rt"
expect 'a source that is not proved' 70 "$(status_of rls text)"
expect 'a source that is not proved: which' yes "$(says 'rls_right')"
ln -s "$room/copy/bin/rls" "$room/link"
expect 'through a symbolic link' 'program text' "$(PATH="$room/path:$PATH" "$room/link" text)"
mkdir "$room/links" && ln -s ../link "$room/links/first" && ln -s links/first "$room/second"
expect 'through links that are relative, from elsewhere' 'program text' "$(PATH="$room/path:$PATH" "$room/second" text)"
expect 'unknown words' yes "$(PATH="$room/path:$PATH" "$room/link" nonsense 2>&1 | grep -q 'rls help' && echo yes)"
cp "$room/copy/bin/.built/rls" "$room/elsewhere"
expect 'a program that is named' 'program text' "$(RLS_PROGRAM="$room/elsewhere" rls text)"
expect 'a program that is named, from its folder' 'program text' "$(cd "$room" && RLS_PROGRAM=elsewhere "$top/bin/rls" text)"
expect 'a program that is named and not there' 70 "$(RLS_PROGRAM="$room/nowhere" status_of rls text)"
expect 'a program that is named and may not be run' 70 "$(RLS_PROGRAM="$top/crates.txt" status_of rls text)"
built >/dev/null
expect 'a program that is named builds nothing' '' "$(RLS_PROGRAM="$room/elsewhere" rls ids >/dev/null; built)"

expect 'a version with a program that is named' yes "$(RLS_PROGRAM="$room/elsewhere" rls --version | grep -q "with the program $room/elsewhere" && echo yes)"
expect 'a version with a program that is named: what it is' yes "$(RLS_PROGRAM="$room/path/rt" rls --version | grep -q 'neither the released one nor one that was built here' && echo yes)"
expect 'a version with the program that was built here' yes "$(RLS_PROGRAM="$top/bin/.built/rls" rls --version | grep -q 'it is the one that was built here' && echo yes)"
expect 'from the checkout, while other folders are searched first' 'program text' "$(cd "$room/copy" && CDPATH="$top" PATH="$room/path:$PATH" bin/rls text)"
cp "$here/rls" "$room/alone"
expect 'a launcher that was copied' 70 "$(RLS_PROGRAM="$room/elsewhere" status_of "$room/alone" text)"
expect 'a launcher that was copied: what to do' yes "$(says 'make a link')"
printf '#!/bin/sh\n[ -e /proc/self/fd/7 ] && echo held\n' >"$room/holds" && chmod +x "$room/holds"
expect 'a lock of the caller is handed on, whatever its number' held "$(RLS_PROGRAM="$room/holds" RLS_LOCKED=1 rls text 7<.)"
printf '#!/bin/sh\necho first >&2\nhead -c 400000 /dev/zero | tr "\\0" a >&2\nexit 5\n' >"$room/long" && chmod +x "$room/long"
expect 'a long line of the program takes no long time' 5 "$(RLS_PROGRAM="$room/long" status_of timeout 20 "$top/bin/rls" take </dev/null)"
expect 'a long line of the program: what it means' yes "$(says 'a member that broke a rule')"
printf '#!/bin/sh\necho "bad line 1" >&2\nexit 4\n' >"$room/bad" && chmod +x "$room/bad"
printf '#!/bin/sh\ncat >/dev/null\nexit 5\n' >"$room/refuses" && chmod +x "$room/refuses"
expect 'a script of which something was refused' 5 "$(printf 'i 0 a\r\n' | RLS_PROGRAM="$room/refuses" status_of "$top/bin/rls" edit)"
expect 'a script of which something was refused: its line ends' yes "$(says 'lines of the script end with a carriage return')"
{ printf 'i 1 '; yes 'a b' | head -c 2000000 | tr '\n' ' '; echo; } >"$room/spaces"
expect 'a bad line of many words takes no long time' 4 "$(RLS_PROGRAM="$room/bad" status_of timeout 20 "$top/bin/rls" edit <"$room/spaces")"
expect 'a bad line of many words: which' yes "$(says 'line 1 of the script is `i 1 a b a b')"
expect 'heads of messages need no program' 'group 18446744073709551615
members 2
sender 1
counts 10 4280319745' "$(printf 'RLSM\3\377\377\377\377\377\377\377\377\0\0\0\2\0\0\0\1\0\0\0\12\377\40\177\1\0\0\0\0' | RLS_PROGRAM=nowhere "$top/bin/rls" head)"
expect 'nothing was built for it' '' "$(built)"
