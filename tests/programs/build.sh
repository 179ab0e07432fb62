#!/usr/bin/env bash
# Builds programs of this folder, in which nothing is proved, and prints the path of each. Several are built side by side.
#   tests/programs/build.sh [--checked] NAME ..
# They are optimized as proved programs are (out/programs/NAME); with --checked they have the checks and the address sanitizer of
# `rt try` (out/programs/NAME-checked). A program that is there and newer than its sources and theirs below is taken as it is.
# tools/unproved.py says how they are built. The status is 1 if one could not be built, and then standard error says why.
set -u
top=$(cd "$(dirname "$0")/../.." && pwd)
. "$top/tests/build.sh"
flags=() suffix=
if [ "${1:-}" = --checked ]; then flags=(--checked) suffix=-checked; shift; fi
mkdir -p "$top/out/programs"

# Whether a program stands and no source that it is made of is newer.
is_up_to_date() { # PROGRAM NAME
  [ -x "$1" ] || return 1
  local folders=("$top/crates.txt" "$top/tests/programs/uses.txt" "$top/tests/programs/$2/src") library crate
  for library in $(sed -n "s/^$2://p" "$top/tests/programs/uses.txt"); do
    for crate in $(in_order "$library"); do folders+=("$top/crates/$crate/src"); done
  done
  [ -z "$(find "${folders[@]}" -type f -newer "$1" -print -quit)" ]
}

# Builds a program. It is as old as the begin of its build, so that a source that is changed meanwhile is newer.
build() { # PROGRAM NAME
  local begin status=0
  begin=$(date +%s.%N)
  rm -f "$1"
  "$top/tools/unproved.py" "${flags[@]}" "$2" "$1.new" >&2 && touch -d "@$begin" "$1.new" && mv "$1.new" "$1" || status=1
  return "$status"
}

jobs=() status=0
for name in "$@"; do
  built="$top/out/programs/$name$suffix"
  if ! is_up_to_date "$built" "$name"; then
    need_rt "tests/programs/build.sh"
    build "$built" "$name" &
    jobs+=($!)
  fi
  echo "$built"
done
for job in "${jobs[@]}"; do wait "$job" || status=1; done
exit "$status"
