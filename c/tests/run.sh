#!/usr/bin/env bash
# The C, Rust and Python sides of crates/dns_rdata_c: c/tests/library.sh, and the tests of the Rust crate and of Python, all over
# the archive that was built in crates/dns_rdata_c/out. What a machine lacks is said as `skipped: ..`, and not counted. The last
# line is 'N as wanted, M not'.
#   ROUNDS=1000000 c/tests/run.sh    more rounds of the hostile loop than 200000
set -u
top=$(cd "$(dirname "$0")/../.." && pwd)
dir=$(mktemp -d)
trap 'rm -rf "$dir"' EXIT
. "$top/tests/want.sh"
library="$top/crates/dns_rdata_c/out/libdns_rdata_c.a"

# Adds the counts of a script whose last line is 'N as wanted, M not', and shows what is before that line.
add() { # COMMAND ..
  local counts
  "$@" >"$dir/added" 2>&1
  counts=$(tail -n 1 "$dir/added" | sed -nE 's/^([0-9]+) as wanted, ([0-9]+) not$/\1 \2/p')
  if [ -n "$counts" ]; then sed -i '$d' "$dir/added"; else counts='0 1'; echo "not as wanted: $*"; fi
  cat "$dir/added"
  good=$((good + ${counts% *})) bad=$((bad + ${counts#* }))
}

want 'make' make -s -C "$top/c" OUT="$dir/out" ARCHIVE="$library"
want 'the names and numbers' python3 "$top/c/tests/names.py"
add env ARCHIVE="$library" bash "$top/c/tests/library.sh"
add env DNS_RDATA_LIB="${library%/*}" "$top/rust/check.sh"
add "$top/python/check.sh" "$dir/out/libdns_rdata.so"
echo "$good as wanted, $bad not"
[ "$bad" -eq 0 ]
