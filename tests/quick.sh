#!/usr/bin/env bash
# Runs each program that has a stored output and each crate's tests by quick builds (`rt try`), and golden tests (tests/golden.py) by
# such builds that are kept. Nothing is proved. The last line is 'N as wanted, M not': a program's output is one, and so is each test.
set -u
top=$(cd "$(dirname "$0")/.." && pwd)
. "$top/tests/build.sh"
need_rt quick
dir=$(mktemp -d)
trap 'kill $(jobs -p) 2>/dev/null; rm -rf "$dir"' EXIT
# What a run of a program or of a crate's tests may take, so that a busy machine fails nothing: most take less than ten seconds.
limit=1200

# Keeps the counts of a part, and prints them as it ends.
count() { # FILE GOOD BAD TEXT
  echo "$2 $3" >"$dir/$1"
  echo "$4: $2 as wanted, $3 not ($SECONDS s)"
}

# Runs a program on its stored words, input and files, and compares output and status with those that are stored.
program() { # CRATE
  local folder="$top/crates/$1" words=() files=() file status=0
  cd "$folder" || return
  if [ -f args ]; then mapfile -t words <args; fi
  if [ -f status ]; then read -r status <status; fi
  for file in data/*; do
    if [ -f "$file" ]; then files+=(--data "${file#data/}=$file"); fi
  done
  rt try --seconds "$limit" "${files[@]}" -- "${words[@]}" <"$(if [ -f stdin ]; then echo stdin; else echo /dev/null; fi)" >"$dir/$1.out" 2>"$dir/$1.log"
  if [ $? = "$status" ] && cmp -s "$dir/$1.out" stdout && grep -q '^run=ended' "$dir/$1.log"; then
    count "$1.program" 1 0 "$1 prints what is wanted"
  else
    count "$1.program" 0 1 "$1 does not print what is wanted"
    { diff stdout "$dir/$1.out"; tail -n 20 "$dir/$1.log"; } >"$dir/$1.why" 2>&1
  fi
}

tests() { # CRATE
  local counts
  cd "$top/crates/$1" || return
  rt try --test --seconds "$limit" >"$dir/$1.tests.log" 2>&1
  counts=$(sed -nE 's/^test result: .* ([0-9]+) passed; ([0-9]+) failed;.*/\1 \2/p' "$dir/$1.tests.log")
  if [ -n "$counts" ]; then
    count "$1.tests" "${counts% *}" "${counts#* }" "$1: tests"
  else
    count "$1.tests" 0 1 "$1: the tests did not run"
  fi
  case "$counts" in ''|*' '[1-9]*) cp "$dir/$1.tests.log" "$dir/$1.why" ;; esac
}

golden() {
  local counts
  python3 "$top/tests/golden.py" --checked >"$dir/golden.log" 2>&1
  counts=$(tail -n 1 "$dir/golden.log" | sed -nE 's/^([0-9]+) as wanted, ([0-9]+) not$/\1 \2/p')
  counts=${counts:-0 1}
  count golden.tests "${counts% *}" "${counts#* }" 'golden tests'
  case "$counts" in *' '[1-9]*) cp "$dir/golden.log" "$dir/golden.why" ;; esac
}

lanes=$(lanes_of 2)
golden &
for crate in $(sed -n 's/^\([a-z_0-9]*\):.*/\1/p' "$top/crates.txt"); do
  for part in program tests; do
    if [ "$part" = program ] && [ ! -f "$top/crates/$crate/stdout" ]; then continue; fi
    if [ "$part" = tests ] && ! grep -rqs '#\[test\]' "$top/crates/$crate/src"; then continue; fi
    while [ "$(jobs -rp | wc -l)" -ge "$lanes" ]; do wait -n; done
    "$part" "$crate" &
  done
done
wait
good=0 bad=0
for file in "$dir"/*.program "$dir"/*.tests; do
  [ -f "$file" ] || continue
  read -r one other <"$file"
  good=$((good + one)) bad=$((bad + other))
done
for file in "$dir"/*.why; do
  if [ -f "$file" ]; then cat "$file"; fi
done
echo "$good as wanted, $bad not"
