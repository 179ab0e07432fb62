#!/usr/bin/env bash
# Prints the hash of the sources that a crate is made from: one SHA-256, as 64 hexadecimal digits.
#   tools/source_hash.sh CRATE
# It covers the lines of crates.txt of this crate and of all crates below it, and the names and contents of their files in src/,
# specs/ and proofs/. Pages, scripts and tests (src/tests.rt, must-fail/, data/, stored output) do not count, since no built file
# depends on them. It needs neither git nor the Rattle kit. Status 2 if crates.txt has no such crate.
set -u
export LC_ALL=C
top=$(cd "$(dirname "$0")/.." && pwd)
. "$top/tests/build.sh"
[ $# = 1 ] || { echo 'usage: tools/source_hash.sh CRATE' >&2; exit 2; }
cd "$top" || exit 1
mapfile -t crates < <(in_order "$1" | sort)
[ "${#crates[@]}" -gt 0 ] || { echo "source_hash: crates.txt has no crate '$1'" >&2; exit 2; }

folders=()
for crate in "${crates[@]}"; do
  for part in src specs proofs; do
    if [ -d "crates/$crate/$part" ]; then folders+=("crates/$crate/$part"); fi
  done
done

{
  grep -E "^($(IFS='|' && echo "${crates[*]}"))( staticlib)?:" crates.txt | sort
  find "${folders[@]}" -type f ! -path 'crates/*/src/tests.rt' -print0 | sort -z | xargs -0 sha256sum
} | sha256sum | cut -d ' ' -f 1
