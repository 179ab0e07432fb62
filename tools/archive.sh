#!/usr/bin/env bash
# Builds the archive for C, crates/dns_rdata_c/out/libdns_rdata_c.a, over the libraries that `rt ci` has proved and left in
# crates/*/out/rlib: of all crates only dns_rdata_c is proved once more, which takes minutes where `rt lib` from nothing takes
# half an hour. Ends with status 0 exactly if the compiler says that the crate is proved. Its last line is the compiler's.
#   --if-new             ends with status 3 if a library is missing or older than one of its sources
#   --target TRIPLE      for another machine, as aarch64-unknown-linux-gnu
#   --backend rattle     by Rattle's own compiler and not by LLVM; the last line says how much stack a call takes
#   --checked FOLDER     takes the proof from this folder, and makes it there first if it is missing
#   -o FILE              another file for the archive
set -u
top=$(cd "$(dirname "$0")/.." && pwd)
. "$top/tests/build.sh"
need_rt archive
kit=$(dirname "$(rt doc)")
crate=dns_rdata_c
archive="$top/crates/$crate/out/lib$crate.a" if_new='' backend=llvm target='' checked=''
while [ $# -gt 0 ]; do
  case "$1${2:+ }" in
    --if-new*) if_new=1; shift; continue ;;
    '--target ') target=$2 ;;
    '--backend ') backend=$2 ;;
    '--checked ') checked=$(realpath -m "$2") ;;
    '-o ') archive=$(realpath -m "$2") ;;
    *) echo 'usage: tools/archive.sh [--if-new] [--target TRIPLE] [--backend rattle] [--checked FOLDER] [-o FILE]' >&2; exit 2 ;;
  esac
  shift 2
done

# The compiler's words: the libraries of the kit, then those of the repository that the crate uses, and where to find all below.
words=(--crate-name "$crate" src/lib.rt --crate-type staticlib --extern "std=$kit/rlibs/std.rlib")
for name in $(sed -nE "s/^$crate staticlib://p" "$top/crates.txt"); do
  if grep -q "^$name:" "$top/crates.txt"; then
    words+=(--extern "$name=../$name/out/rlib/$name.rlib")
  else
    words+=(--extern "$name=$kit/rlibs/$name.rlib")
  fi
done
words+=(-L "dependency=$kit/rlibs")
for name in $(in_order "$crate"); do
  [ "$name" = "$crate" ] || words+=(-L "dependency=../$name/out/rlib")
done
words+=(--antt-project "$kit/rattle/logic/antt-project.json" --links "$crate=")
[ -z "$target" ] || words+=(--target "$target")
proof=(--logic-built "$kit/logic_built" --jobs "$(lanes_of 4)")
makes=(--backend "$backend" --toolchain "$kit/toolchain" -o "$archive")

# Whether every library is there, and no source of its crate is newer. If not, `old` is its name.
are_new() {
  local name
  for name in $(in_order "$crate"); do
    [ "$name" = "$crate" ] && continue
    old=$name
    [ -d "$top/crates/$name/out/rlib/$name.rlib" ] || return 1
    [ -z "$(find "$top/crates.txt" "$top/crates/$name" -path '*/out' -prune -o -type f -newer "$top/crates/$name/out/rlib/$name.rlib" -print -quit)" ] || return 1
  done
}

# Runs the compiler. Where it does not say that the crate is proved, shows its last lines and removes the archive.
rattle() { # WORD ..
  local log status=0
  log=$(mktemp)
  if "$kit/bin/rattle" "$@" >"$log" 2>&1 && grep -q '^logic=proved ' "$log"; then
    grep -E '^(logic=proved|built:) ' "$log"
  else
    tail -n 20 "$log"
    rm -f "$archive"
    status=1
  fi
  rm -f "$log"
  return "$status"
}

if [ -n "$if_new" ] && ! are_new; then
  echo "archive: crates/$old was not proved here, or a source of it is newer" >&2
  exit 3
fi
cd "$top/crates/$crate" || exit 1
mkdir -p "$(dirname "$archive")"
if [ -n "$checked" ]; then
  [ -d "$checked" ] || rattle check "${words[@]}" "${proof[@]}" -o "$checked" || exit 1
  proof=(--crate-checked "$checked")
fi
rattle build "${words[@]}" "${proof[@]}" "${makes[@]}"
