#!/usr/bin/env bash
# Nanoseconds of the calls over the samples of tests/programs/rdata_bench, beside ldns and libknot where these are installed (Debian:
# libldns-dev, libknot-dev). `make -C c` first. The last lines compare the means over all samples that both sides take, and the walk
# over a message of 20 records with a plain C loop that checks the same (walk.c).
#   c/bench/run.sh [ROUNDS]    rounds of each part, 20000 where left out
set -eu
top=$(cd "$(dirname "$0")/../.." && pwd)
dir=$(mktemp -d)
trap 'rm -rf "$dir"' EXIT
[ -f "$top/c/out/libdns_rdata.a" ] || { echo 'c/out/libdns_rdata.a is not there: make -C c' >&2; exit 1; }
flags=()
for peer in LDNS:ldns KNOT:libknot; do
  if pkg-config --exists "${peer#*:}" 2>/dev/null; then
    read -ra found <<<"-DWITH_${peer%%:*} $(pkg-config --cflags --libs "${peer#*:}")"
    flags+=("${found[@]}")
  else
    echo "skipped: ${peer#*:}, which is not installed"
  fi
done
cc -std=gnu11 -O2 -I"$top/c/include" -o "$dir/bench" "$top/c/bench/bench.c" "$top/c/out/libdns_rdata.a" "${flags[@]}"
cc -std=gnu11 -O2 -I"$top/c/include" -o "$dir/walk" "$top/c/bench/walk.c" "$top/c/out/libdns_rdata.a"
"$dir/bench" "${1:-20000}" <"$top/tests/programs/rdata_bench/data/samples.txt"
"$dir/walk"
