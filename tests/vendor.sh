#!/usr/bin/env bash
# Does what docs/GUIDE.md tells users of the library: copies it into another repository by tools/vendor.sh, and runs README's program
# there with the `main.rt` of the guide, by a quick build in which nothing is proved. The last line is 'N as wanted, M not'.
set -u
top=$(cd "$(dirname "$0")/.." && pwd)
. "$top/tests/build.sh"
need_rt vendor
dir=$(mktemp -d)
trap 'rm -rf "$dir"' EXIT
. "$top/tests/want.sh"
to="$dir/over there"

# The first block of a page that is marked with a word and is after a line with a text.
block() { # PAGE WORD TEXT
  awk -v mark='```' -v word="$2" -v text="$3" '
    index($0, text) { after = 1 }
    inside && $0 == mark { exit }
    inside { print }
    after && $0 == mark word { inside = 1 }' "$top/$1"
}

# Without the word `zone`.
few() { "$top/tools/vendor.sh" "$to" && [ -d "$to/crates/dns_message" ] && [ ! -d "$to/crates/dns_rdata_zone" ]; }

# With it, after a copy that is there: no line of crates.txt is there twice.
all() { "$top/tools/vendor.sh" "$to" zone && [ -d "$to/crates/dns_rdata_zone" ] && [ -z "$(sort "$to/crates.txt" | uniq -d)" ]; }

# Another word.
other() {
  "$top/tools/vendor.sh" "$to" other
  [ $? = 2 ]
}

# An upgrade: a line of the copy that was changed is as it is here again, a crate of the earlier copy that is not used any more is
# gone, and a line of the user's own stays.
upgrade() {
  mkdir -p "$to/crates/dns_gone" && echo 'crate dns_gone 0' >>"$to/crates/dns_rdata/VENDORED" || return 1
  sed -i 's/^dns_rows:.*/dns_rows: other/' "$to/crates.txt"
  printf 'dns_gone: dns_rows\n# mine\n' >>"$to/crates.txt"
  "$top/tools/vendor.sh" "$to" zone || return 1
  [ ! -d "$to/crates/dns_gone" ] && ! grep -q '^dns_gone:' "$to/crates.txt" && grep -q '^# mine$' "$to/crates.txt" &&
    [ "$(grep '^dns_rows:' "$to/crates.txt")" = "$(grep '^dns_rows:' "$top/crates.txt")" ]
}

# A copy is as it was; then a file of it is changed, and then a line of crates.txt.
as_it_was() { "$top/tools/vendor.sh" --check "$to" | grep -qE 'as it was: version [0-9.]+, commit '; }

changed() {
  echo >>"$to/crates/dns_rows/src/row.rt"
  sed -i 's/^dns_fields:/dns_fields: thiserror/' "$to/crates.txt"
  "$top/tools/vendor.sh" --check "$to" >"$dir/changed"
  [ $? = 1 ] && [ "$(grep -c 'is not as it was copied' "$dir/changed")" = 2 ] && "$top/tools/vendor.sh" "$to" zone && as_it_was
}

# Whether the program prints what the first module of `guide` prints.
runs() {
  mkdir -p "$to/crates/app/src" && echo 'app: dns_rdata dns_message dns_rdata_zone anyhow' >>"$to/crates.txt" && cd "$to/crates/app" || return 1
  block docs/GUIDE.md text 'main.rt' >src/main.rt
  block README.md rust 'prints every record of a response' >src/response.rt
  rt try --seconds 1200 >"$dir/out"
  head -n 3 "$top/crates/guide/stdout" | diff - "$dir/out"
}

want 'tools/vendor.sh FOLDER' few
want 'tools/vendor.sh FOLDER zone' all
want 'tools/vendor.sh FOLDER with another word' other
want 'tools/vendor.sh over an earlier copy' upgrade
want 'tools/vendor.sh --check of a copy as it was' as_it_was
want 'tools/vendor.sh --check of a changed copy' changed
want "README's program in another repository" runs
echo "$good as wanted, $bad not"
[ "$bad" = 0 ]
