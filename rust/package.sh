#!/usr/bin/env bash
# Makes the packages of both crates in a folder, each built once more from its package alone, without a network. The package of
# dns-rdata-sys has the archives: for x86-64 the one of DNS_RDATA_LIB, and without it the ready-made one or the one that `rt lib`
# made; for aarch64 the ready-made one, if it is there. (tools/ready.sh finds what is ready-made from these sources.)
#   rust/package.sh FOLDER
set -eu
top=$(cd "$(dirname "$0")/.." && pwd)
folder=$(mkdir -p "${1:?usage: rust/package.sh FOLDER}" && cd "$1" && pwd)
dir=$(mktemp -d)
trap 'rm -rf "$dir"' EXIT

# Puts an archive to where the build script of the package looks first.
put() { # PLATFORM ARCHIVE
  mkdir -p "$dir/rust/dns-rdata-sys/lib/$1"
  cp "$2" "$dir/rust/dns-rdata-sys/lib/$1/"
}

ready() { # PLATFORM
  [ -x "$top/tools/ready.sh" ] && "$top/tools/ready.sh" libdns_rdata_c.a "$1" 2>/dev/null
}

# The archive in a folder.
archive_in() { # FOLDER
  local name
  for name in libdns_rdata.a libdns_rdata_c.a; do
    if [ -f "$1/$name" ]; then echo "$1/$name"; return; fi
  done
  echo "package: no archive in $1: make one with \`make -C c\`, or set DNS_RDATA_LIB" >&2
  return 1
}

# The packages are made outside the repository, so that what they have of other folders need not be copied into rust/.
mkdir "$dir/rust"
cp -r "$top"/rust/Cargo.toml "$top"/rust/Cargo.lock "$top"/rust/dns-rdata "$top"/rust/dns-rdata-sys "$dir/rust/"
rm -rf "$dir"/rust/dns-rdata-sys/lib "$dir"/rust/*/target
cp -r "$top"/c/include "$top/c/heap.c" "$top/c/texts.c" "$dir/rust/dns-rdata-sys/"
for crate in dns-rdata dns-rdata-sys; do cp "$top"/LICENSE-APACHE "$top"/LICENSE-MIT "$dir/rust/$crate/"; done
if [ -n "${DNS_RDATA_LIB:-}" ]; then
  archive=$(archive_in "$DNS_RDATA_LIB")
else
  archive=$(ready x86_64-linux || archive_in "$top/crates/dns_rdata_c/out")
fi
put x86_64-linux "$archive"
if other=$(ready aarch64-linux); then put aarch64-linux "$other"; fi
# The packages must not need what is outside them.
unset DNS_RDATA_LIB DNS_RDATA_HEAP
(cd "$dir/rust" && CARGO_TARGET_DIR="$dir/target" cargo package --workspace --offline --locked --quiet)
cp "$dir"/target/package/*.crate "$folder/"
ls "$folder"/*.crate
