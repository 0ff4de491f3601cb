# Proves and builds the program from the checkout: rls-choose.bash reads this when it has to build, and calls `build`.
# shellcheck shell=bash
# bin/rls sets `top`, `built`, NOT_BUILT and `say`; rls-sources.bash sets `order` and `libraries`.
# shellcheck disable=SC2034,SC2154

# How many processors are used: all, but one for each 3 GB of free memory.
jobs_here() {
  local processors free
  processors=$(nproc 2>/dev/null || echo 2)
  free=$(awk '/^MemAvailable/ { print int($2 / 3000000) }' /proc/meminfo 2>/dev/null)
  [ "${free:-2}" -lt "$processors" ] && processors=${free:-2}
  [ "$processors" -lt 1 ] && processors=1
  echo "$processors"
}

# Whether another crate may begin beside those that are being proved: there are 2.5 GB of memory for it.
has_memory() {
  local free
  free=$(awk '/^MemAvailable/ { print int($2 / 1000) }' /proc/meminfo 2>/dev/null)
  [ "${free:-2500}" -ge 2500 ]
}

duration() { if [ "$1" -lt 60 ]; then echo "$1 s"; else echo "$(($1 / 60)) min $(($1 % 60)) s"; fi; }

# The seconds of processor time that each crate took in an earlier run (build-times); `cost` has them, and 90 for a crate that is new.
read_costs() {
  local name seconds
  for name in "${order[@]}"; do cost[$name]=90; done
  while read -r name seconds; do [ -z "${cost[$name]-}" ] || cost[$name]=$seconds; done < <(grep -v '^#' "$top/bin/build-times" 2>/dev/null)
}

# --- Rooms

# What tells one build of these libraries from another: the format of a library holds the sum of its files, and its stamp that of its text.
print_of() {
  local name files=()
  for name; do files+=("$top/crates/$name/out/rlib/stamp" "$top/crates/$name/out/rlib/$name.rlib/format"); done
  { cat "${files[@]}" 2>/dev/null || echo none; } | sum_of_input
}

# The format of a crate's library in a checkout.
format_of() { { sum_of_input <"$1/crates/$2/out/rlib/$2.rlib/format" || echo none; } 2>/dev/null; }

# Gives files a second name in a folder, or copies them where that can't be done.
link_to() { cp -al "$1" "$2" 2>/dev/null || { rm -rf "$2" && cp -a "$1" "$2"; }; }

# Moves out/ of a crate from one checkout to another, once no other `rt` works in the crate's folder of this checkout.
move_out() {
  [ -d "$1/crates/$3/out" ] || return 0
  (
    ! command -v flock >/dev/null 2>&1 || flock 9
    rm -rf "$2/crates/$3/out" && mv "$1/crates/$3/out" "$2/crates/$3/out"
  ) 9<"$top/crates/$3"
}

# `rt` holds the folders of a crate and of all below it as long as it works, so each crate is proved in a room of its own: a checkout
# that has this crate and those below it. Their text is that at the beginning of the build; their libraries are those of the checkout,
# by a second name, which is safe because `rt` removes such a file before it makes it anew. What an earlier build left in the crate's
# out/ moves into the room, and back when the crate is done or the build ends.
make_room() {
  local name=$1 room=$built/room.$1 one
  shift
  mkdir -p "$room/crates" || return 1
  # (`rt` wants the folder of each crate that crates.txt names)
  for one in "$@" "$name"; do grep "^$one:" "$built/text/crates.txt"; done >"$room/crates.txt"
  [ ! -f "$built/text/HANDLES" ] || cp "$built/text/HANDLES" "$room/" || return 1
  for one in "$@" "$name"; do link_to "$built/text/crates/$one" "$room/crates/$one" || return 1; done
  for one; do
    mkdir "$room/crates/$one/out" && link_to "$top/crates/$one/out/rlib" "$room/crates/$one/out/rlib" || return 1
  done
  move_out "$top" "$room" "$name"
}

# Puts the out/ of a room back into the checkout, and removes the room.
leave_room() { move_out "$built/room.$1" "$top" "$1" && rm -rf "$built/room.$1"; }

leave_rooms() {
  local room
  for room in "$built"/room.*; do [ ! -d "$room" ] || leave_room "${room##*/room.}" || return; done
  rm -rf "$built/text"
}

# Ends what this build started, each with what it started itself, and leaves the checkout so that a later build goes on from here.
end_rooms() {
  local pid
  for pid in "${!running[@]}"; do kill -TERM -- "-$pid" 2>/dev/null; done
  for pid in "${!running[@]}"; do wait "$pid" 2>/dev/null; done
  # (what `rt` started is killed when it ends, which takes a moment)
  [ "${#running[@]}" = 0 ] || sleep 1
  running=() left=()
  leave_rooms
}

stopped() {
  trap '' INT TERM HUP
  say 'stopped; what is proved is kept, and a later build goes on from here.'
  end_rooms
  exit 130
}

# Copies the text of the crates, so that what is edited during the build doesn't come into it.
take_text() {
  rm -rf "$built/text"
  mkdir -p "$built/text/crates" && cp "$top/crates.txt" "$built/text/" || return 1
  [ ! -f "$top/HANDLES" ] || cp "$top/HANDLES" "$built/text/" || return 1
  (cd "$top/crates" && tar -cf - --exclude=out --exclude=must-fail "${order[@]}") | (cd "$built/text/crates" && tar -xf -)
}

# --- Proving

# Proves and builds each crate as soon as those below it are there, and first the one that the longest chain of others waits for. A crate
# whose content, and that of all below it, is as it was when it was proved is kept; `rt` says the same, but takes up to a minute for it.
build_crates() {
  local -a left=()
  local -A key=() finished=() running=() started=() jobs=() below=() chain=() anew=()
  local all=${#order[@]} number=0 most=${RLS_JOBS:-$(jobs_here)} used=0 failed='' name
  [[ $most =~ ^[1-9][0-9]{0,2}$ ]] || { say "RLS_JOBS is a number of processors, from 1 on, and not \`$most\`."; return 1; }
  read_costs
  find_kept
  [ "${#left[@]}" -gt 0 ] || return 0
  find_chains
  say "$number of $all crates are kept; the others take about $(time_left), and each has a line when it is done."
  trap stopped INT TERM HUP
  while [ "${#left[@]}" -gt 0 ] || [ "${#running[@]}" -gt 0 ]; do
    start_ready
    [ "${#running[@]}" -gt 0 ] || break
    finish_one
  done
  trap - INT TERM HUP
  [ -z "$failed" ]
}

# Finds out what is kept: the last crate counts as kept only with its program.
find_kept() {
  local keys one of was print kit line
  local -A own=()
  kit=$(rt version 2>/dev/null)
  # (a line of crates.txt, or a sum and a file)
  while IFS= read -r line; do
    of=${line#*  crates/}
    own[${of%%[:/]*}]+=$line$'\n'
  done < <(sums "$built/text" "${order[@]}")
  for name in "${order[@]}"; do
    keys=
    below[$name]=' '
    for one in ${libraries[$name]}; do
      keys+=" ${key[$one]}"
      for of in ${below[$one]} "$one"; do case ${below[$name]} in *" $of "*) ;; *) below[$name]+="$of " ;; esac; done
    done
    key[$name]=$(sum_of_input <<<"${own[$name]}$keys $kit")
    was=
    [ ! -f "$built/made.$name" ] || was=$(<"$built/made.$name")
    # shellcheck disable=SC2086
    print=$(print_of ${below[$name]} "$name")
    if [ "$name" != rls_cli ] && [ -f "$top/crates/$name/out/rlib/stamp" ] && [ "$was" = "${key[$name]} $print" ]; then
      finished[$name]=1
      number=$((number + 1))
    else
      left+=("$name")
      # A library that isn't the one that was noted, or that stands on other ones, isn't taken again.
      case $was in '' | *" $print") ;; *) anew[$name]=own ;; esac
    fi
  done
}

# The longest chain of proofs that begins with each crate, in seconds.
find_chains() {
  local -A above=()
  local at one
  for ((at = ${#order[@]} - 1; at >= 0; at--)); do
    name=${order[at]}
    chain[$name]=$((${cost[$name]} + ${above[$name]:-0}))
    for one in ${libraries[$name]}; do [ "${chain[$name]}" -le "${above[$one]:-0}" ] || above[$one]=${chain[$name]}; done
  done
}

# Starts the crates that may begin. The one that the longest chain waits for may use all processors, since all others end before it; the
# others share those that are free, and each has one at least.
start_ready() {
  local ready='' one best share free longest=0 verb
  local -a rest
  for name in "${left[@]}"; do
    for one in ${below[$name]}; do [ -n "${finished[$one]-}" ] || continue 2; done
    ready+="${chain[$name]} $name"$'\n'
  done
  for name in "${running[@]}"; do [ "${chain[$name]}" -le "$longest" ] || longest=${chain[$name]}; done
  ready=$(sort -rn <<<"$ready" | sed '/^$/d; s/.* //')
  while [ -n "$ready" ] && [ "${#running[@]}" -lt "$most" ]; do
    [ "${#running[@]}" = 0 ] || has_memory || return 0
    best=${ready%%$'\n'*} share=$(wc -l <<<"$ready")
    free=$((most - used))
    jobs[$best]=$(((free + share - 1) / share))
    if [ "${chain[$best]}" -gt "$longest" ]; then longest=${chain[$best]} jobs[$best]=$most; fi
    [ "${jobs[$best]}" -ge 1 ] || jobs[$best]=1
    # shellcheck disable=SC2086
    if ! make_room "$best" ${below[$best]}; then
      say "no room for $best could be made in $built."
      end_rooms
      failed=$best
      return
    fi
    was_format[$best]=$(format_of "$built/room.$best" "$best")
    for one in ${below[$best]} $best; do [ -z "${anew[$one]-}" ] || rm -rf "$built/room.$best/crates/$best/out/rlib"; done
    verb=lib
    [ "$best" != rls_cli ] || { verb=run && : >"$built/begun"; }
    # In a group of its own, so that it can be ended with all that it starts. `rt run` also runs the program, which without words changes
    # nothing.
    set -m
    (
      cd "$built/room.$best/crates/$best" || exit
      TIMEFORMAT='%0U %0S'
      { time rt "$verb" --jobs "${jobs[$best]}" </dev/null >"$built/log.$best" 2>&1; } 2>"$built/seconds.$best"
    ) &
    running[$!]=$best
    set +m
    started[$best]=$SECONDS used=$((used + jobs[$best]))
    ready=${ready#"$best"} ready=${ready#$'\n'}
    rest=()
    for one in "${left[@]}"; do [ "$one" = "$best" ] || rest+=("$one"); done
    left=("${rest[@]}")
  done
}

# Waits for a crate to end, and puts what it made into the checkout. After one that failed no other begins; those that run are waited for,
# since what they prove is kept.
finish_one() {
  local pid status one program
  wait -n -p pid "${!running[@]}"
  status=$?
  name=${running[$pid]}
  unset "running[$pid]"
  used=$((used - jobs[$name]))
  # The status of `rt run` may be that of the program, so what it made says whether it went well.
  if [ "$name" = rls_cli ]; then
    program=$built/room.$name/crates/$name/out/$name
    if [ "$program" -nt "$built/begun" ] || grep -q '^rt: nothing has changed since the last proved build' "$built/log.$name"; then
      cp "$program" "$built/rls.new"
      status=$?
    else
      status=1
    fi
  fi
  # The libraries below must be those of the checkout still.
  for one in ${below[$name]}; do
    [ "$status" != 0 ] || [ "$top/crates/$one/out/rlib/stamp" -ef "$built/room.$name/crates/$one/out/rlib/stamp" ] ||
      cmp -s "$top/crates/$one/out/rlib/$one.rlib/format" "$built/room.$name/crates/$one/out/rlib/$one.rlib/format" || status="0, but over another build of $one"
  done
  leave_room "$name" || status="$status, and its out/ couldn't be put back"
  if [ "$status" != 0 ]; then
    failed+=" $name" left=()
    say "$name isn't proved or built (status $status); $built/log.$name tells why and ends so:"
    tail -5 "$built/log.$name" >&2
    [ "${#running[@]}" = 0 ] || say "${#running[@]} others are being proved and are waited for, since what they prove is kept: ${running[*]}. Ctrl-C ends them."
    return
  fi
  [ "$name" = rls_cli ] || {
    [ "${was_format[$name]}" = "$(format_of "$top" "$name")" ] && anew[$name]='' || anew[$name]=1
    # shellcheck disable=SC2086
    echo "${key[$name]} $(print_of ${below[$name]} "$name")" >"$built/made.$name"
  }
  finished[$name]=1
  number=$((number + 1))
  # (`rt` says nothing of a library that it keeps)
  [ ! -s "$built/log.$name" ] || done_cost=$((done_cost + cost[$name])) done_time=$((done_time + SECONDS - started[$name]))
  tell_done
}

# A line for a crate that is done: its number, of how many, its name and its time; the time gone, and about how much is left.
tell_done() {
  local left_over=''
  [ -n "$failed" ] || [ "$number" = "$all" ] || left_over=", about $(time_left) left"
  printf 'rls: %s  %2d of %d  %s, %s; %s gone%s\n' "$(date +%H:%M:%S)" "$number" "$all" "$name" "$(duration $((SECONDS - started[$name])))" "$(duration $((SECONDS - begun)))" "$left_over" >&2
}

# How long the rest takes, about: the longest chain, or all work shared by the processors, at the pace so far.
time_left() {
  local name longest=0 work=0 seconds gone
  for name in "${left[@]}" "${running[@]}"; do
    seconds=${cost[$name]} gone=0
    [ -z "${started[$name]-}" ] || gone=$((SECONDS - started[$name]))
    [ "$gone" -le "$seconds" ] || gone=$seconds
    work=$((work + seconds - gone))
    seconds=$((chain[$name] - gone))
    [ "$seconds" -le "$longest" ] || longest=$seconds
  done
  work=$((work / most))
  [ "$work" -le "$longest" ] || longest=$work
  longest=$((longest * (done_time + 120) / (done_cost + 120)))
  if [ "$longest" -lt 90 ]; then echo '1 min'; else echo "$(((longest + 30) / 60)) min"; fi
}

# Writes a table like build-times: the times of this run for what it proved, and those of before for the rest.
write_times() {
  local name user system
  {
    grep '^#' "$top/bin/build-times"
    for name in "${order[@]}"; do
      # (`rt` says nothing of a library that it keeps)
      if [ -s "$built/log.$name" ] && ! grep -q '^rt: nothing has changed' "$built/log.$name" && read -r user system 2>/dev/null <"$built/seconds.$name"; then
        echo "$name $((user + system + 1))"
      else
        echo "$name ${cost[$name]}"
      fi
    done
  } >"$built/build-times"
}

# --- The whole

# Says whether the program is the released one, if that is of the same sources.
compare_release() {
  local kit
  has_release && [ "$1" = "${release[sources]-}" ] || return 0
  if cmp -s "$built/rls" "$released_program"; then
    say "It is the released program ${release[version]}, bit for bit."
  else
    kit=$(rt version 2>/dev/null | head -1)
    say "It isn't the released program ${release[version]}, though of the same sources; $(if [ "$kit" = "${release[kit]}" ]; then echo 'and the kit is the same too'; else echo "the kit here is $kit, and there it was ${release[kit]}"; fi)."
  fi
}

build_all() {
  local begun=$SECONDS made done_cost=0 done_time=0
  local -A was_format=() cost=()
  rm -f "$built"/seconds.*
  # (rooms of a build that was killed)
  leave_rooms && read_crates "$top" || return
  take_text || { say "the text of the crates could not be copied to $built."; return 1; }
  made=$(content "$built/text")
  say "building the program from $top: each crate is proved first, and what is proved already is kept. This takes up to 8 GB of disk."
  build_crates || { rm -rf "$built/text"; return 1; }
  rm -rf "$built/text"
  mv "$built/rls.new" "$built/rls" || return
  echo "$made" >"$built/content"
  # (what was chosen before it)
  rm -f "$built/choice"
  echo "rls of commit $(described), proved and built here on $(date +%Y-%m-%d) with $(rt version 2>/dev/null | head -1)" >"$built/version"
  write_times
  say "built in $(duration $((SECONDS - begun))). The program has $(du -k "$built/rls" | cut -f1) KB; crates/*/out has $(cd "$top" && du -ch crates/*/out | tail -1 | cut -f1), which only a later build uses."
  compare_release "$made"
  here=
  is_current || say "a source was changed while it was built, and that change is not in this program: \`rls build\` again builds it."
}

# Builds, while whoever else comes waits and then finds the program built. Its status is that of the launcher.
build() {
  local status
  command -v rt >/dev/null 2>&1 || {
    say "the command rt of the Rattle kit, which proves and builds the program in $top, isn't found (docs/INSTALL.md)."
    if has_release; then
      say 'Every command but this one runs the released program, which needs no kit.'
    else
      say 'RLS_PROGRAM=FILE runs a program that was built already, on this machine or on another one with Linux on x86-64.'
    fi
    return "$NOT_BUILT"
  }
  mkdir -p "$built" 2>/dev/null || { say "$built can't be made."; return "$NOT_BUILT"; }
  if command -v flock >/dev/null 2>&1; then
    { exec 8>"$built/lock"; } 2>/dev/null || { say "$built can't be written."; return "$NOT_BUILT"; }
    flock -n 8 || { say 'another command builds the program here; waiting for it.'; flock 8 || return "$NOT_BUILT"; }
    here=
    [ -n "${RLS_REBUILD:-}" ] || ! is_current || { exec 8>&-; return 0; }
  fi
  build_all
  status=$?
  if command -v flock >/dev/null 2>&1; then exec 8>&-; fi
  [ "$status" = 0 ] || return "$NOT_BUILT"
}
