# Chooses the program that runs: bin/rls reads this when what it wrote down the last time isn't so any more.
# shellcheck shell=bash
# bin/rls sets `top`, `built`, `program` and `say`; rls-sources.bash sets `release`, `released_program` and `found`.
# shellcheck disable=SC2154
. "$top/bin/rls-sources.bash"

described() { git -C "$top" describe --always --dirty 2>/dev/null || echo unknown; }

# Says version and commit of the program that runs, and whether it is the released one or was built here.
version() {
  if [ -n "${RLS_PROGRAM:-}" ]; then
    echo "rls of commit $(described), with the program $program, which RLS_PROGRAM names: $(named_version)"
  elif is_current; then
    built_version
  elif has_release; then
    check_release
    echo "rls ${release[version]}, the released program, proved and built from commit ${release[commit]:0:12} of ${release[date]} with ${release[kit]}$(of_sources)"
  else
    echo "rls of commit $(described), not built yet"
  fi
}

# What the sources here are beside the released program. A package has none.
of_sources() {
  if ! has_sources; then
    return
  elif is_of_release; then
    echo ', as the sources here are'
  else
    echo "; the sources here, of commit $(described), are others"
  fi
}

# A program that was built here has the version of the release if its sources are those of the release.
built_version() {
  local line
  line=$(<"$built/version")
  if ! has_release; then
    echo "$line"
  elif is_of_release; then
    echo "rls ${release[version]}, ${line#rls }"
  else
    echo "rls later than ${release[version]}, ${line#rls }"
  fi
}

# What a program is that RLS_PROGRAM names: its bytes say it.
named_version() {
  local sum
  sum=$(sum_of_input <"$program") || { echo 'it can not be read'; return; }
  if read_release && [ "$sum" = "${release[program]-}" ]; then
    echo "it is the released program ${release[version]}, bit for bit"
  elif cmp -s "$program" "$built/rls"; then
    echo 'it is the one that was built here'
  else
    echo "it is neither the released one nor one that was built here, and its SHA-256 begins with ${sum:0:12}"
  fi
}

has_sources() { [ -f "$top/crates.txt" ]; }

# The content of the sources, which decides; it is summed once in a command.
here=
sources_here() {
  has_sources || return 1
  [ -n "$here" ] || here=$(content "$top")
}

# Whether the program was built here from these sources. Files that were copied, touched or checked out again have other times, and the same
# content.
is_current() {
  [ -x "$built/rls" ] && [ -f "$built/content" ] && sources_here && [ "$here" = "$(<"$built/content")" ]
}

# Whether there is a released program for this machine.
has_release() {
  [ "$(uname -sm)" = 'Linux x86_64' ] && read_release
}

is_of_release() { sources_here && [ "$here" = "${release[sources]-}" ]; }

# Copies the released program beside the note of the choice, so that nothing else runs until it is chosen anew, with its time, by which bin/rls sees
# another one in its place. Where there is no room for it, the released program is compared for each command.
keep_release() {
  local copy=$built/rls-released.$$
  {
    if cp -p "$released_program" "$copy" && [ "$(sum_of_input <"$copy")" = "${release[program]}" ] && mv -f "$copy" "$built/rls-released"; then
      program=$built/rls-released
      return
    fi
    rm -f "$copy"
  } 2>/dev/null
  return 1
}

# Writes down what was chosen for these times, or this release; whoever may not write there chooses again the next time. The note has the time at which the
# choice began, so that what is changed after it is newer.
note() {
  {
    mkdir -p "$built" && printf '%s\n%s\n' "$1" "$now" >"$built/choice.$$" && touch -d "@$began" "$built/choice.$$" &&
      mv -f "$built/choice.$$" "$built/choice"
  } 2>/dev/null
}

build_if_due() {
  has_sources || {
    say "there are no sources in $top to build from: \`rls build\` is for a checkout."
    return "$NOT_BUILT"
  }
  [ -z "${RLS_REBUILD:-}" ] && is_current && return
  . "$top/bin/rls-build.bash"
  build
}

choose_anew() {
  local began=${EPOCHREALTIME/,/.}
  if is_current; then
    note built
  elif has_release; then
    choose_release
  else
    build_if_due || exit
  fi
}

# Sets `program` to the released one, once its sum is right and it runs.
check_release() {
  local usage
  program=$released_program
  is_released || {
    say "$program isn't the program that release/release.txt names: its SHA-256 is $found, and has to be ${release[program]-}." \
      "Nothing was run. \`git checkout -- release\` in $top puts it back; \`rls build\` proves and builds the program without it."
    exit "$NOT_BUILT"
  }
  usage=$("$program" 2>&1 </dev/null)
  [ "${usage:0:6}" = usage: ] || {
    say "the released program doesn't run on this machine: $usage" "\`rls build\` proves and builds one here (docs/INSTALL.md says what it needs)."
    exit "$NOT_BUILT"
  }
}

# Chooses the released program. That it runs here, and whether it is of these sources, is said once: that it is, on a terminal
# alone.
choose_release() {
  local of
  check_release
  of="this is the released program ${release[version]}, proved and built from commit ${release[commit]:0:7}"
  if ! mkdir -p "$built" 2>/dev/null || ! [ -w "$built" ] || ! keep_release; then return; fi
  if has_sources && ! is_of_release; then
    say "$of, and not from the sources that are here now; \`rls build\` proves and builds these."
  elif [ -t 2 ] && has_sources; then
    say "$of; \`rls build\` proves and builds these sources here."
  else
    note untold
    return
  fi
  note released
}
