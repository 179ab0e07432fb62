#!/usr/bin/env bash
# Runs the built programs under a counter of requests for memory (tests/requests.c).
# 1. How many requests one call makes, from the difference of two numbers of rounds.
# 2. With the first, the second and each later request refused, until a run meets no refusal (tests/refusals.py): the
#    program `rdata` must print `memory` alone, with status 3, and `zone_text` nothing, with status 1.
# The last line is 'N as wanted, M not'.
set -u
top=$(cd "$(dirname "$0")/.." && pwd)
. "$top/tests/build.sh"
dir=$(mktemp -d)
trap 'rm -rf "$dir"' EXIT
good=0 bad=0
want() { if [ "$2" = "$3" ]; then good=$((good + 1)); else bad=$((bad + 1)); echo "not as wanted: $1: $3 in place of $2"; fi; }

rdata="$top/crates/rdata/out/rdata"
bench="$top/out/programs/rdata_bench"
zone_text="$top/crates/zone_text/out/zone_text"
# Two were proved and built by `rt ci`, where nothing has changed since. Nothing of the benchmark is proved.
if ! is_built "$rdata" rdata; then "$top/prove" 2>&1; fi
if ! is_built "$zone_text" zone_text; then
  (cd "$top/crates/zone_text" && rt run </dev/null >/dev/null 2>"$dir/zone_text.log") || cat "$dir/zone_text.log"
fi
"$top/tests/programs/build.sh" rdata_bench >/dev/null
cc -shared -fPIC -O1 -o "$dir/requests.so" "$top/tests/requests.c" -ldl || { echo "0 as wanted, 1 not"; exit 1; }

counted() { # ROUNDS CALL SAMPLE
  : >"$dir/count"
  if printf '%s\n' "$3" | REQUESTS_COUNT="$dir/count" LD_PRELOAD="$dir/requests.so" "$bench" "$1" "$2" >/dev/null; then
    cat "$dir/count"
  else
    echo $((-1 - $1)) # a sample that is refused is never as wanted
  fi
}

# requests of one call: CALL, how many, SAMPLE
while read -r call times sample; do
  case "$call" in ''|'#'*) continue ;; esac
  none=$(counted 0 "$call" "$sample")
  many=$(counted 1000 "$call" "$sample")
  want "requests of 1000 times $call of ${sample%% *}" "$((times * 1000))" "$((many - none))"
done < "$top/tests/requests.txt"

# each request refused in turn, on the words of all replayed runs
refusals=$(python3 "$top/tests/refusals.py" "$rdata" "$zone_text" "$dir/requests.so" 2>&1)
printf '%s\n' "$refusals" | sed '$d'
counts=$(printf '%s\n' "$refusals" | tail -n 1 | sed -nE 's/^([0-9]+) as wanted, ([0-9]+) not$/\1 \2/p')
counts=${counts:-0 1}
echo "$((good + ${counts% *})) as wanted, $((bad + ${counts#* })) not"
