# `rls share`, `join`, `sync` and `who` by the launcher; examples/python/test_share.py tests what they do over bad carriers.
# bin/test-rls reads this and sets `here`, `room`, `rls` and `rooms`.
# shellcheck shell=bash disable=SC2154

if ! command -v python3 >/dev/null 2>&1; then
  skip 'share, join, sync and who' "python3 isn't installed"
  return 0
fi
# A machine of its own for each: of NAME COMMAND...
of() (
  export RLS_HOME=$room/home.$1 RLS_NAME=$1
  mkdir -p "$room/at.$1" && cd "$room/at.$1" || exit
  shift
  status_of "$rls" "$@"
)
mkdir at.ada
printf 'Bread and tea\n' >at.ada/list.md
expect 'share' 0 "$(of ada share ../shared list.md)"
expect 'share: who begins is number 0' yes "$(says 'list.md is shared now')"
expect 'join, while nobody is there who gives numbers' 75 "$(of ben join ../shared texts --wait 0)"
expect 'join: who has to sync' yes "$(says "ada's machine gives it")"
expect 'sync gives a number' 0 "$(of ada sync)"
expect 'sync: it says so' yes "$(says "number 1 is ben's now")"
expect 'join' 0 "$(of ben join ../shared texts)"
expect 'join: the text is there' 'Bread and tea' "$(cat at.ben/texts/list.md)"
printf 'Bread and green tea\n' >at.ben/texts/list.md
expect 'a changed file' 0 "$(of ben sync texts/list.md)"
expect 'a changed file is sent' 0 "$(of ada sync list.md)"
expect 'a changed file comes' 'Bread and green tea' "$(cat at.ada/list.md)"
expect 'who' 0 "$(of ada who ../shared)"
expect 'who: names and what they have' 2 "$(grep -cE '^ 0 ada .*this machine$|^ 1 ben .*has all$' out)"
expect 'a file in the shared folder' 71 "$(of ada share ../shared ../shared/x.md)"
expect 'a folder without a circle' 2 "$(of ada sync ../at.ben)"
expect 'give' 0 "$(of ada give 1 ../shared)"
expect 'give: the other one gives the numbers then' 0 "$(of ben sync)"
expect 'give: it says so' yes "$(says 'this machine gives the numbers')"
expect 'again' 0 "$(of ben share ../shared --again --members 4)"
for one in ada ben ada ben ada; do
  expect "again: $one goes over" 0 "$(of "$one" sync ../shared)"
done
expect 'again: who' 0 "$(of ada who ../shared)"
expect 'again: numbers and names' 2 "$(grep -cE '^ 0 ben |^ 1 ada .*this machine$' out)"
printf 'Bread and black tea\n' >at.ada/list.md
expect 'again: a changed file' 0 "$(of ada sync list.md)"
expect 'again: it is sent' 0 "$(of ben sync texts/list.md)"
expect 'again: it comes' 'Bread and black tea' "$(cat at.ben/texts/list.md)"
expect 'part, of who gives the numbers' 71 "$(of ben part ../shared)"
expect 'part' 0 "$(of ada part ../shared)"
expect 'part: there is no part any more' 2 "$(of ada sync ../shared)"
# What Python is told: the program, and where it keeps what it compiles, which isn't the checkout.
mkdir telling && printf '#!/bin/sh\necho "$RLS, $PYTHONPYCACHEPREFIX, $PYTHONDONTWRITEBYTECODE."\n' >telling/python3 && chmod +x telling/python3
while IFS='|' read -r words wanted; do
  # shellcheck disable=SC2086
  expect "what Python is told, with $words" "${RLS_PROGRAM:-$here/.built/rls}, $wanted" "$(PATH=$room/telling:$PATH env -u HOME -u XDG_CACHE_HOME -u PYTHONDONTWRITEBYTECODE $words "$rls" who)"
done <<'END'
HOME=/home/ada|/home/ada/.cache/rls, .
HOME=/home/ada XDG_CACHE_HOME=/cache|/cache/rls, .
A=|, 1.
END
# All programs but python3.
mkdir none && ln -s /usr/bin/* /bin/* none/ 2>/dev/null
rm -f none/python3
expect 'without python3' 70 "$(PATH=$room/none status_of "$rls" who)"
expect 'without python3: what to do' yes "$(says 'apt install python3')"
expect 'without python3 the others work' 0 "$(PATH=$room/none status_of "$rls" trial 1 5)"
# What comes of files that are late, half or there twice, and of machines that stop: examples/python/share_tests. The longer ones run by themselves.
expect 'sharing over bad carriers' 0 "$(RLS=${RLS_PROGRAM:-$here/.built/rls} status_of python3 "$here/../examples/python/test_share.py" --short)"
grep -v '^ok ' out || :
