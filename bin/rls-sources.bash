# What the program is made from, and the released program: rls-choose.bash, make-release and check-release read this.
# shellcheck shell=bash
# The scripts that read this set `top`, and use what is set here.
# shellcheck disable=SC2034,SC2154

# Reads crates.txt of a checkout: `libraries` has the crates of the repository that each crate stands on, and `order` those that the
# program uses, the lowest first.
read_crates() {
  local name rest word
  declare -gA libraries=()
  declare -ga order=()
  while IFS=: read -r name rest; do
    case $name in '' | '#'*) continue ;; esac
    libraries[$name]=
    for word in $rest; do case $word in rls_*) libraries[$name]+=" $word" ;; esac; done
  done <"$1/crates.txt"
  local -A met=()
  visit_crate rls_cli
}

visit_crate() {
  local below
  [ -z "${met[$1]-}" ] || return 0
  met[$1]=1
  for below in ${libraries[$1]-}; do visit_crate "$below"; done
  order+=("$1")
}

# The sum of each file that these crates of a checkout are proved and built from, and their lines of crates.txt. Tests are crates of their
# own, and edits that have to fail stand in other folders, so neither counts.
sums() {
  local name part
  local -a folders=()
  (
    cd "$1" && shift || exit
    for name; do
      grep "^$name:" crates.txt
      for part in src specs proofs; do [ ! -d "crates/$name/$part" ] || folders+=("crates/$name/$part"); done
    done
    find "${folders[@]}" -type f \( -name '*.rt' -o -name '*.antt' \) -print0 | LC_ALL=C sort -z | xargs -0 sha256sum
  )
}

# The one sum of all that the program is proved and built from.
content() {
  read_crates "$1" && sums "$1" "${order[@]}" | sum_of_input
}

sum_of_input() {
  local sum
  sum=$(sha256sum) && echo "${sum%% *}"
}

# --- The released program

released_program=$top/release/rls-x86_64-linux

# Reads what release.txt says: version, commit, date, sources (their content), kit and program (its SHA-256).
read_release() {
  local name value
  declare -gA release=()
  [ -f "$top/release/release.txt" ] && [ -f "$released_program" ] || return 1
  while read -r name value; do release[$name]=$value; done <"$top/release/release.txt"
}

# Whether the file of the released program is what release.txt says; `found` is its SHA-256.
is_released() {
  found=$(sum_of_input <"$released_program") && [ -n "${release[program]-}" ] && [ "$found" = "${release[program]}" ]
}
