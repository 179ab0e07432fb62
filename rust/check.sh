#!/usr/bin/env bash
# The Rust crates: formatting, clippy, documentation, tests, the example, and packages that are built from themselves alone. No
# network is needed. The last line is 'N as wanted, M not'. What a machine lacks is said, and not counted.
#   DNS_RDATA_LIB=FOLDER rust/check.sh    over the archive in this folder
set -u
top=$(cd "$(dirname "$0")/.." && pwd)
dir=$(mktemp -d)
trap 'rm -rf "$dir"' EXIT
. "$top/tests/want.sh"
export CARGO_TARGET_DIR="$dir/target" CARGO_TERM_COLOR=never

# The example prints the message of the C example, which it has a copy of.
example() {
  cmp ../c/examples/response.bin dns-rdata/examples/response.bin || return 1
  cargo run --offline --locked --quiet --example records >"$dir/printed" && diff -u dns-rdata/examples/records.out "$dir/printed"
}

# Whether the example dnsdump prints what it must of captures and of a folder of messages.
dumped() {
  cargo build --offline --locked --quiet --example dnsdump && bash "$top/tests/captures/check.sh" "$dir/target/debug/examples/dnsdump"
}

# Whether rustdoc has nothing to complain about where no archive is there, as on docs.rs.
documented() {
  (unset DNS_RDATA_LIB && DOCS_RS=1 RUSTDOCFLAGS='-D warnings' cargo doc --offline --locked --quiet --no-deps --target-dir "$dir/doc")
}

# Whether the packages have the archive, heap.c, texts.c, the header, the licences and the README.
packaged() {
  local file
  ./package.sh "$dir/packages" || return 1
  tar -tzf "$dir"/packages/dns-rdata-sys-*.crate >"$dir/files" && tar -tzf "$dir"/packages/dns-rdata-[0-9]*.crate >"$dir/others" || return 1
  for file in lib/x86_64-linux/libdns_rdata heap.c texts.c include/dns_rdata.h LICENSE-MIT LICENSE-APACHE README.md; do
    grep -q "/$file" "$dir/files" || { echo "no $file"; return 1; }
  done
  for file in src/lib.rs LICENSE-MIT LICENSE-APACHE README.md; do
    grep -q "/$file" "$dir/others" || { echo "no $file"; return 1; }
  done
}

# Whether the build script says what to do if there is no archive.
missing() {
  ! DNS_RDATA_LIB="$dir" cargo check --offline --locked --quiet --target-dir "$dir/missing" 2>"$dir/printed" &&
    grep -q 'set DNS_RDATA_LIB' "$dir/printed"
}

cd "$top/rust" || exit 1
if ! command -v cargo >/dev/null; then
  skip 'the Rust crates: no cargo'
  echo '0 as wanted, 0 not'
  exit
fi
if cargo fmt --version >/dev/null 2>&1; then want 'the format of the Rust crates' cargo fmt --check; else skip 'the format of the Rust crates: no rustfmt'; fi
if cargo clippy --version >/dev/null 2>&1; then
  want 'clippy' cargo clippy --offline --locked --quiet --workspace --all-targets -- -D warnings
  want 'clippy without std' cargo clippy --offline --locked --quiet --workspace --no-default-features -- -D warnings
else
  skip 'clippy, which is missing'
fi
want 'the documentation of the Rust crates' documented
want 'the Rust crates' cargo test --offline --locked --quiet --workspace
want 'the Rust crates without std' cargo test --offline --locked --quiet --no-default-features --lib --bins
want 'the Rust example' example
want 'dnsdump in Rust' dumped
want 'the Rust packages' packaged
want 'no archive for the Rust crates' missing
echo "$good as wanted, $bad not"
[ "$bad" -eq 0 ]
