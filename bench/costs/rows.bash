# The rows of bench/costs: what is counted, and how. `run` and `check` read this.
# shellcheck shell=bash
# The scripts that read this use what is set here.
# shellcheck disable=SC2034
here=$(cd -P "$(dirname "${BASH_SOURCE[0]}")" && pwd)
top=$(cd -P "$here/../.." && pwd)
program=${RLS_PROGRAM:-$top/bin/.built/rls}
[ -n "${RLS_PROGRAM:-}" ] || "$top/bin/rls" build
room=$(mktemp -d)
trap 'rm -rf "$room"' EXIT

# Each row: its name, the least n, and the growth that a doubling may have, in tenths: 23 is linear. After more than that comes why. A
# number: the definition itself asks for a square, mostly because a character that is put or deleted between two others gets a tuple more
# in each epoch, and once because a rule looks at a whole row; so many instructions are allowed for each n times n. The word slow: nothing asks for it, and the code isn't there yet.
rows=(
  in_order:2000:23 reverse:2000:23 shuffled:2000:23 waiting:2000:23 waiting_reverse:2000:23 colliding:2000:23 forked:500:23
  gone:500:23 same:500:23 each:250:23 again:50:23 refused:250:23 refused_in_turn:250:23 refused_standing:50:23 refused_gone:50:23 refused_between:50:23
  gone_renamed:50:42:8000 gone_deep:50:23 chain:50:42:5500 deep:50:42:5500 rename_each:50:48:9000 old_deletions:50:23
  old_deletions_apart:50:23 wrong_epoch:250:23 two_chains:500:23 two_chains_lesser_first:500:23 two_chains_in_turn:500:23
  small_renames:500:23 wide:25:23 scattered:20000:23 scattered_each:250:23
  renamed_file:25:23 back:250:23 rename:20000:23 members:16:23
  marks:250:23 flags:250:42:450 cursor_renames:500:23 undo_renames:500:23 step_again:500:23 acked_refused:500:23 acked_gone:100:23 acked_each:100:23
  acked_sends:1000:23 typed:2000:23 replaced:500:23
)

# Beside each row of `take` one of what its changes cost: the same message, taken with what it changes (bench/changes.rt.in). The factor of
# a square isn't bounded there.
for entry in "${rows[@]}"; do
  case $entry in
    deep:* | renamed_file:* | back:* | rename:* | members:*) ;;
    marks:* | flags:* | cursor_renames:* | undo_renames:* | step_again:* | acked_* | typed:* | replaced:*) ;;
    *)
      IFS=: read -r name least most why <<<"$entry"
      rows+=("changes_$name:$least:$most:${why//[0-9]/}")
      ;;
  esac
done

# A fresh replica of this member of three, or of so many, in a folder of its own, which becomes the current one.
fresh() {
  rm -rf "${room:?}/$1"
  mkdir "$room/$1"
  cd "$room/$1"
  "$program" new 7 "$1" "${2:-3}" >/dev/null
}

at() { cd "$room/$1"; }

# The number of instructions of a command. A message whose operations are refused ends with status 5, and is counted too.
instructions() { counted "$program" "$@"; }

# The same of any program.
counted() {
  local status=0 count
  valgrind --tool=callgrind --callgrind-out-file=/dev/null "$@" >/dev/null 2>"$room/told" || status=$?
  count=$(awk '/Collected/ { print $4 }' "$room/told")
  if [ -z "$count" ] || { [ "$status" != 0 ] && [ "$status" != 5 ]; }; then
    echo "costs: $* ended with status $status:" >&2
    cat "$room/told" >&2
    exit 1
  fi
  echo "$count"
}

# What it costs to take a message of make.py.
taken() {
  python3 "$here/make.py" "$1" "$2" >"$room/message"
  fresh 0
  instructions take <"$room/message"
}

# What a session of requests.py costs.
held() {
  python3 "$here/requests.py" "$1" "$2" >"$room/requests"
  fresh 0 2
  instructions session <"$room/requests"
}

# The program that tells changes. It is built once, in a copy of the crates that it uses, which proves what isn't proved there yet;
# RLS_CHANGES names one that is there.
follower=${RLS_CHANGES:-$room/built/crates/rls_follow/out/rls_follow}
build_follower() {
  "$top/bin/copy-crates" "$room/built" rls_follow rls_replica rls_sync rls_changes
  cp "$top/bench/changes.rt.in" "$room/built/crates/rls_follow/src/main.rt"
  (cd "$room/built/crates/rls_follow" && rt run) >"$room/log" 2>&1 || { cat "$room/log" >&2; exit 1; }
}

# What it costs to take the last of these messages with its changes, after the others.
followed() {
  local before all
  [ -x "$follower" ] || build_follower
  before=$(counted "$follower" "${@:1:$#-1}") || exit 1
  all=$(counted "$follower" "$@") || exit 1
  echo $((all - before))
}

# The same of the message of a row of `take`.
changes() {
  case $1 in
    gone_renamed | chain)
      "$1" "$2" >/dev/null
      followed "$room/first" "$room/second"
      ;;
    *)
      python3 "$here/make.py" "$1" "$2" >"$room/message"
      followed "$room/message"
      ;;
  esac
}

# A text by member 1 that members 0 and 2 have: so many characters.
shared_text() {
  fresh 2
  fresh 0
  fresh 1
  echo "i 0 $(head -c "$1" /dev/zero | tr '\0' a)" | "$program" edit >/dev/null
  for member in 0 2; do
    at 1
    "$program" send "$member" >"$room/message"
    at "$member"
    "$program" take <"$room/message" >/dev/null
  done
}

# Member 0 takes what member 1 did, and then, counted, what member 2 did meanwhile.
met() {
  at 1
  "$program" send 0 >"$room/first"
  at 2
  "$program" send 0 >"$room/second"
  at 0
  "$program" take <"$room/first" >/dev/null
  instructions take <"$room/second"
}

# Member 1 renames and deletes n times in turn; member 2 has deleted all at once.
gone_renamed() {
  shared_text $((2 * $1))
  at 1
  for ((k = 0; k < $1; k++)); do echo r; echo "d $k 1"; done | "$program" edit >/dev/null
  at 2
  echo "d 0 $((2 * $1))" | "$program" edit >/dev/null
  met
}

# Member 1 renames n times; member 2 has inserted n characters, each between two others.
chain() {
  shared_text $((2 * $1))
  at 1
  for ((k = 0; k < $1; k++)); do echo r; done | "$program" edit >/dev/null
  at 2
  for ((k = 0; k < $1; k++)); do echo "i $((2 * k + 1)) b"; done | "$program" edit >/dev/null
  met
}

# The same, with an insertion after each rename.
deep() {
  shared_text $((2 * $1))
  at 1
  for ((k = 0; k < $1; k++)); do echo r; echo "i $((3 * k + 1)) c"; done | "$program" edit >/dev/null
  at 2
  for ((k = 0; k < $1; k++)); do echo "i $((2 * k + 1)) b"; done | "$program" edit >/dev/null
  met
}

# n lines `b` of one script, in a text of n characters.
back() {
  fresh 0
  echo "i 0 $(head -c "$1" /dev/zero | tr '\0' a)" | "$program" edit >/dev/null
  for ((k = $1; k > 0; k--)); do echo "b $k"; done >"$room/script"
  instructions edit <"$room/script"
}

# One rename of n characters.
rename() {
  fresh 0
  echo "i 0 $(head -c "$1" /dev/zero | tr '\0' a)" | "$program" edit >/dev/null
  instructions edit <<<r
}

# Reading a file with n renames, each after 10 insertions: the others have acknowledged nothing, so all of it is kept.
renamed_file() {
  fresh 0
  for ((k = 0; k < $1; k++)); do
    for ((place = 0; place < 10; place++)); do echo "i $((10 * k * place / 10)) a"; done
    echo r
  done | "$program" edit >/dev/null
  instructions text
}

# 1,000 insertions by a member of n.
members() {
  fresh 0 "$1"
  for ((k = 0; k < 1000; k++)); do echo "i $k a"; done >"$room/script"
  instructions edit <"$room/script"
}

# The instructions of a row for this n.
work_of() {
  case $1 in
    gone_renamed | chain | deep | renamed_file | back | rename | members) "$1" "$2" ;;
    marks | flags | cursor_renames | undo_renames | step_again | acked_* | typed | replaced) held "$1" "$2" ;;
    changes_*) changes "${1#changes_}" "$2" ;;
    *) taken "$1" "$2" ;;
  esac
}

# Whether these words are none, or this row is one of them: is_asked ROW WORD..
is_asked() {
  local row=$1
  shift
  [ $# = 0 ] || [[ " $* " == *" $row "* ]]
}

name_program() { echo "program: $(cat "${program%/*}/version" 2>/dev/null || echo "$program")"; }
