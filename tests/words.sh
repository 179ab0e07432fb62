#!/usr/bin/env bash
# ./run tests its words before it builds anything. Compares that with the golden tests of the program: their words must be
# wrong exactly if `usage` is wanted. Then ./run with ready-made programs that are right, changed, or of other sources, and with
# --fresh. The last line is 'N as wanted, M not'.
set -u
top=$(cd "$(dirname "$0")/.." && pwd)
. "$top/tests/usage.sh"
good=0 bad=0
while IFS= read -r line; do
  # An empty word is between two tabs.
  mapfile -d $'\t' -t fields < <(printf '%s' "$line")
  case "$line" in *$'\t') fields+=('') ;; esac
  status=${fields[0]} words=("${fields[@]:2}")
  wanted=1
  if [ "$status" = 2 ]; then wanted=0; fi
  came=0
  wrong_word "${words[@]}" 2>/dev/null && came=1
  if [ "$came" = "$wanted" ]; then
    good=$((good + 1))
  else
    bad=$((bad + 1))
    echo "not as wanted: ${words[*]:0:3}"
  fi
done < <(grep -v '^#' "$top/tests/programs/rdata_replay/data/rows.tsv")

# A copy of the tree without built programs, in which `rdata` and `zone_text` are ready-made scripts that print their words, and
# `rt` is a command that fails. Its path has a blank.
base=$(mktemp -d)
copy="$base/a b"
trap 'rm -rf "$base"' EXIT
. "$top/tests/build.sh"
. "$top/tools/dist.sh"
machine=$(this_machine)
mkdir -p "$copy/bin" "$copy/crates/rdata" "$copy/crates/zone_text" "$copy/dist/$machine"
ln -s "$top/run" "$top/zone" "$top/tests" "$top/tools" "$top/crates.txt" "$top/README.md" "$copy"
for crate in "$top"/crates/*; do [ -d "$copy/crates/${crate##*/}" ] || ln -s "$crate" "$copy/crates/"; done
for crate in rdata zone_text; do
  cp -r "$top/crates/$crate/src" "$copy/crates/$crate/src"
  printf '#!/bin/sh\necho "%s: $*"\n' "$crate" >"$copy/dist/$machine/$crate"
  manifest_line "$crate" "$crate" "$copy/dist/$machine/$crate" >>"$copy/dist/$machine/MANIFEST"
done
printf '#!/bin/sh\nexit 99\n' >"$copy/bin/rt"
chmod +x "$copy/bin/rt" "$copy/dist/$machine/rdata" "$copy/dist/$machine/zone_text"

# Runs ./run or ./zone of the copy: its output, its status, and what a line of standard error has.
asked() { # OUTPUT STATUS TEXT WORD ..
  local output status
  output=$(PATH="$copy/bin:$PATH" "$copy/$4" "${@:5}" 2>"$copy/error")
  status=$?
  if [ "$output" = "$1" ] && [ "$status" = "$2" ] && grep -qF "$3" "$copy/error"; then
    good=$((good + 1))
  else
    bad=$((bad + 1))
    echo "not as wanted: $output (status $status) from ${*:4}"
    cat "$copy/error"
  fi
}

asked 'rdata: read A 0 4 01020304' 0 "rdata: proved and ready-made: dist/$machine/rdata" run read A 0 4 01020304
asked 'zone_text: message 00' 0 "zone_text: proved and ready-made: dist/$machine/zone_text" zone message 00
asked '' 4 'a quick build in which nothing is proved (--fresh)' run --fresh read A 0 4 01020304
asked '' 4 'a quick build in which nothing is proved (--fresh)' zone --fresh
asked usage 2 'RDATA of LENGTH octets' run --fresh read A 0 4
echo '#' >>"$copy/dist/$machine/rdata"
asked '' 4 "dist/$machine/rdata is damaged" run read A 0 4 01020304
sed -i 's/^zone_text zone_text ./&0/' "$copy/dist/$machine/MANIFEST"
asked '' 4 "dist/$machine/zone_text is made from other sources" zone
rm "$copy/dist/$machine/rdata"
asked '' 4 "dist/$machine has no rdata" run read A 0 4 01020304
rm "$copy/dist/$machine/MANIFEST"
asked '' 4 "there are no ready-made files for $machine" run read A 0 4 01020304
echo "$good as wanted, $bad not"
