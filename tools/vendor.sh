#!/usr/bin/env bash
# Copies the crates `dns_rdata`, `dns_message` and `dns_registry`, and with the word `zone` also `dns_rdata_zone`, with all crates that they use,
# into another repository, and writes their lines into its crates.txt:
#   tools/vendor.sh FOLDER [zone]
#   tools/vendor.sh --check FOLDER
# A copy that is in FOLDER already is replaced whole: its crates, also those that are no longer needed, and their lines of
# crates.txt. All other lines and crates stay. FOLDER/crates/dns_rdata/VENDORED says which version and which commit was copied,
# and has the hash of each crate. With --check, each crate that is no longer as it was copied is named, and the status is 1 if
# there is one. Status 2 for other words.
set -u
export LC_ALL=C
top=$(cd "$(dirname "$0")/.." && pwd)
. "$top/tests/build.sh"

usage() {
  echo 'usage: tools/vendor.sh FOLDER [zone], or tools/vendor.sh --check FOLDER' >&2
  exit 2
}

# The hash of a crate of a folder: its line of crates.txt, and the names and contents of its files.
hash_of() { # FOLDER CRATE
  (
    cd "$1" || exit 1
    grep -E "^$2( staticlib)?:" crates.txt
    find "crates/$2" -type f ! -path '*/out/*' ! -name VENDORED -print0 2>/dev/null | sort -z | xargs -0 -r sha256sum
  ) | sha256sum | cut -d ' ' -f 1
}

# The crates that VENDORED of a folder names, each with its hash.
copied() { # FOLDER
  awk '$1 == "crate" { print $2, $3 }' "$1/crates/dns_rdata/VENDORED" 2>/dev/null
}

check_copy() { # FOLDER
  local crate hash bad=0
  [ -f "$1/crates/dns_rdata/VENDORED" ] || { echo "vendor: $1 has no copy with crates/dns_rdata/VENDORED" >&2; exit 1; }
  while read -r crate hash; do
    [ "$(hash_of "$1" "$crate")" = "$hash" ] || { echo "vendor: $crate is not as it was copied"; bad=1; }
  done < <(copied "$1")
  [ "$bad" = 1 ] || echo "vendor: the copy is as it was: $(awk '$1 == "version" || $1 == "commit" { printf "%s%s %s", sep, $1, $2; sep = ", " }' "$1/crates/dns_rdata/VENDORED")"
  exit "$bad"
}

# The commit that is copied, or what can be said of it.
commit_here() {
  local commit
  commit=$(git -C "$top" rev-parse HEAD 2>/dev/null) || { echo unknown; return; }
  [ -z "$(git -C "$top" status --porcelain -- crates crates.txt 2>/dev/null)" ] || commit="$commit-changed"
  echo "$commit"
}

wanted=(dns_rdata dns_message dns_registry)
case "$#-${1:-}-${2:-}" in
  2---check-*) check_copy "$2" ;;
  1-*-) [ "${1#-}" = "$1" ] || usage ;;
  2-*-zone) wanted+=(dns_rdata_zone) ;;
  *) usage ;;
esac
to=$1
mkdir -p "$to/crates" && touch "$to/crates.txt" || exit 1
crates=$(for name in "${wanted[@]}"; do in_order "$name"; done | awk '!seen[$0]++')

# What an earlier copy has left.
for crate in $(copied "$to" | cut -d ' ' -f 1) $crates; do
  rm -rf "${to:?}/crates/$crate"
  sed -i -E "/^$crate( staticlib)?:/d" "$to/crates.txt" || exit 1
done
for crate in $crates; do
  mkdir -p "$to/crates/$crate"
  for part in src specs proofs; do
    if [ -d "$top/crates/$crate/$part" ]; then cp -r "$top/crates/$crate/$part" "$to/crates/$crate/$part" || exit 1; fi
  done
  grep -E "^$crate:" "$top/crates.txt" >>"$to/crates.txt"
done
cp "$top/LICENSE-APACHE" "$top/LICENSE-MIT" "$to/crates/dns_rdata/" || exit 1
{
  echo '# Made by tools/vendor.sh of dns-rdata, which copies anew over this copy, and tells with --check whether it is as it was.'
  echo "version $(sed -nE 's/^Version ([0-9.]+) .*/\1/p' "$top/README.md")"
  echo "commit $(commit_here)"
  echo "kit $(named_kit)"
  for crate in $crates; do echo "crate $crate $(hash_of "$to" "$crate")"; done
} >"$to/crates/dns_rdata/VENDORED" || exit 1
echo "vendor: $(wc -w <<<"$crates") crates are in $to/crates; list those of ${wanted[*]} that you use in the line of your crate"
