# What bin/rls does with the text of a file, and what it says of a replica that is much larger than its text.
# bin/test-rls reads this and sets `room` and `rls`.
# shellcheck shell=bash disable=SC2154

# --- What is said of a file that is much larger than its text.
mkdir runs typed
(cd runs && "$rls" new 7 0 2 >/dev/null)
{ printf 'i 0 '; head -c 3000 /dev/zero | tr '\0' x; echo; for k in $(seq 700); do echo "i $((3 * k)) y"; done; } >script
expect 'many runs' 0 "$(cd runs && status_of "$rls" edit <../script)"
expect 'many runs: a rename is due' yes "$(says 'for 3700 characters in 1401 runs: .echo r | rls edit.')"
expect 'many runs: it is said once' '' "$(cd runs && echo 'i 0 x' | "$rls" edit 2>&1 >/dev/null)"
rm -r runs && mkdir runs && (cd runs && "$rls" new 7 0 2 >/dev/null)
expect 'many runs: nothing is said if that is not wanted' '' "$(cd runs && RLS_RENAME_AT=0 "$rls" edit <../script 2>&1 >/dev/null)"
(cd typed && "$rls" new 7 0 2 >/dev/null && for k in $(seq 0 1999); do echo "i $k x"; done | "$rls" edit >/dev/null 2>../err)
expect 'many operations: an exchange is due' yes "$(says 'since 2000 operations stay')"

# --- A file that is older than what came.
mkdir t0 t1
for k in 0 1; do (cd t$k && "$rls" new 7 $k 2 >/dev/null); done
(cd t1 && echo 'i 0 more' | "$rls" edit >/dev/null && "$rls" send 0 >../more)
(cd t0 && echo 'i 0 text' | "$rls" edit >/dev/null && "$rls" text >../notes && "$rls" take <../more >/dev/null)
cp -r t0 t2
echo ' and mine' >>notes
expect 'a file that is older than what came' yes "$(cd t0 && "$rls" edit --text ../notes >../out 2>../err; says 'operations taken here since the last `rls text`: 1')"
expect 'a file that is older than what came: it is said once' '' "$(cd t0 && echo mine >../notes && quiet "$rls" edit --text ../notes)"
# What was taken twice, and a text that could not be printed in between.
mkdir t3 && (cd t3 && "$rls" new 7 0 2 >../out && "$rls" take <../more >../out && "$rls" text >../notes)
for k in 1 2; do (cd t1 && echo 'i 0 more' | "$rls" edit >../out && "$rls" send 0 >../later && cd ../t3 && "$rls" take <../later >../out); done
expect 'a text that could not be printed' 9 "$(cd t3 && "$rls" text >/dev/full 2>../err; echo $?)"
expect 'what was taken twice' yes "$(cd t3 && echo mine >../notes && "$rls" edit --text ../notes >../out 2>../err; says 'operations taken here since the last `rls text`: 2')"
expect 'a file that has what came' '' "$(cd t2 && "$rls" text >../notes && echo ' and mine' >../notes && quiet "$rls" edit --text ../notes)"
expect 'a file that has what came, once more' '' "$(cd t2 && "$rls" take <../more >/dev/null && echo yours >../notes && quiet "$rls" edit --text ../notes)"

# --- The text of a file.
mkdir nothing text
(cd text && "$rls" new 7 0 2 >/dev/null)
# shellcheck disable=SC2059
put() { printf "$1" >file && (cd text && "$rls" edit --text ../file 2>../err) && (cd text && "$rls" text | cmp - ../file); }
expect 'a text from a file' 'edits 1 released 0 refused 0' "$(put 'one\r\ntwo \\ three\n\tsmile \360\237\230\200 e\314\201 \0 end')"
expect 'a character of another' 'edits 2 released 0 refused 0' "$(put 'one\r\ntwo \\ three\n\tsmile \360\237\230\201 e\314\201 \0 end')"
expect 'the same text' 'edits 0 released 0 refused 0' "$(put 'one\r\ntwo \\ three\n\tsmile \360\237\230\201 e\314\201 \0 end')"
expect 'changes in two lines' 'edits 3 released 0 refused 0' "$(put 'One\r\ntwo \\ three\n\tsmile \360\237\230\201 e\314\201 \0 end.\n')"
expect 'an empty file' 'edits 1 released 0 refused 0' "$(put '')"
expect 'no UTF-8' 4 "$(printf '\377' >file && cd text && status_of "$rls" edit --text ../file)"
expect 'no UTF-8: what it means' yes "$(says 'no text in UTF-8')"
expect 'no file' 8 "$(cd text && status_of "$rls" edit --text ../nowhere)"
expect 'no file: what it means' yes "$(says '../nowhere can.t be read')"
echo x >file
expect 'a text, and no replica' 2 "$(cd nothing && status_of "$rls" edit --text ../file)"
head -c 1500000 /dev/zero | tr '\0' x >file
expect 'a long text' 'edits 2 released 0 refused 0' "$(cd text && RLS_RENAME_AT=0 "$rls" edit --text ../file)"
expect 'a long text is there' 1500000 "$(cd text && "$rls" text | wc -c)"
