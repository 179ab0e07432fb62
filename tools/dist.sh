# For scripts that read or make the ready-made files in dist/, which source it after tests/build.sh. docs/DIST.md describes them.
# shellcheck shell=bash
#
# dist/MACHINE/MANIFEST has a line for the kit, `kit KIT`, and one for each file: FILE CRATE SOURCES SHA256. SOURCES is the hash
# of the sources that the file was made from (tools/source_hash.sh CRATE), and SHA256 that of the file. Lines with # are comments.

# The folder of dist/ for a machine: x86_64-linux of x86_64-linux-gnu, x86_64-unknown-linux-musl and the like. What has 32-bit
# pointers has none.
machine_of() { # TRIPLE
  case "$1" in
    *32) echo "$1" ;;
    *-linux*) echo "${1%%-*}-linux" ;;
    *) echo "$1" ;;
  esac
}

this_machine() { machine_of "$(uname -m)-$(uname -s | tr '[:upper:]' '[:lower:]')"; }

sha256_of() { # FILE
  sha256sum <"$1" | cut -d ' ' -f 1
}

# Whether `find_ready` has found the file before, and neither a source nor anything in its folder was changed since: no time of a
# change (ctime) is later than that of the mark that it left in out/ready.
is_unchanged() { # FILE FOLDER CRATE
  local mark="$top/out/ready/$1" folders=() name
  [ -f "$mark" ] || return 1
  for name in $(in_order "$3"); do folders+=("$top/crates/$name"); done
  [ -z "$(find -H "$top/crates.txt" "$top/$2" "${folders[@]}" -path '*/out' -prune -o -cnewer "$mark" -print -quit)" ]
}

# Looks for a ready-made file that was made from the sources that are here. Sets `ready` to its path, from the top of the
# repository, or to nothing, and then `why` to the reason. The file is read whole, and must be the one that MANIFEST names. If
# nothing was changed since it was found the last time, sources and file are not read again.
find_ready() { # FILE MACHINE
  local folder="dist/$2" crate sources sum mark=''
  ready='' why=''
  [ -f "$top/$folder/MANIFEST" ] || { why="there are no ready-made files for $2"; return 1; }
  read -r crate sources sum < <(awk -v file="$1" '$1 == file { print $2, $3, $4 }' "$top/$folder/MANIFEST")
  [ -n "${sum:-}" ] && [ -f "$top/$folder/$1" ] || { why="$folder has no $1"; return 1; }
  if is_unchanged "$1" "$folder" "$crate"; then
    ready="$folder/$1"
    return
  fi
  # The time of the mark is before anything is read.
  if mkdir -p "$top/out/ready" 2>/dev/null; then mark=$(mktemp "$top/out/ready/XXXXXX" 2>/dev/null); fi
  if [ "$("$top/tools/source_hash.sh" "$crate")" != "$sources" ]; then
    why="$folder/$1 is made from other sources than these"
  elif [ "$(sha256_of "$top/$folder/$1")" != "$sum" ]; then
    why="$folder/$1 is damaged: MANIFEST has another SHA-256"
  else
    ready="$folder/$1"
  fi
  if [ -n "$mark" ] && [ -n "$ready" ]; then
    mv -f "$mark" "$top/out/ready/$1"
  elif [ -n "$mark" ]; then
    rm -f "$mark"
  fi
  [ -n "$ready" ]
}

# The files that the gate builds: the file, its crate, and where it is built.
built_files() {
  echo libdns_rdata_c.a dns_rdata_c crates/dns_rdata_c/out/libdns_rdata_c.a
  echo rdata rdata crates/rdata/out/rdata
  echo zone_text zone_text crates/zone_text/out/zone_text
}

manifest_head() {
  echo '# Made by ./release: FILE CRATE SOURCES SHA256 (docs/DIST.md). `tools/source_hash.sh CRATE` prints SOURCES.'
  echo "kit $(rt version)"
}

manifest_line() { # FILE CRATE PATH
  echo "$1 $2 $("$top/tools/source_hash.sh" "$2") $(sha256_of "$3")"
}

# The lines of MANIFEST for the files that are built here. Fails if one is missing.
built_manifest() {
  local file crate path
  manifest_head
  while read -r file crate path; do
    [ -f "$top/$path" ] || return 1
    manifest_line "$file" "$crate" "$top/$path"
  done < <(built_files)
}

# Whether the C tests can run here over an archive for a machine. Sets `why` if not.
can_test() { # MACHINE
  why=''
  [ "$1" = "$(this_machine)" ] && return
  [ "$1" = aarch64-linux ] || { why="no emulator is known for $1"; return 1; }
  command -v aarch64-linux-gnu-gcc >/dev/null || why='aarch64-linux-gnu-gcc is missing (Debian: gcc-aarch64-linux-gnu)'
  command -v qemu-aarch64 >/dev/null || why="${why:+$why, and }qemu-aarch64 is missing (Debian: qemu-user)"
  [ -z "$why" ]
}

# Runs the C tests over an archive, on another machine by an emulator and with fewer rounds of the hostile loop.
test_archive() { # MACHINE ARCHIVE
  if [ "$1" = "$(this_machine)" ]; then
    ARCHIVE=$2 bash "$top/c/tests/library.sh"
  else
    ARCHIVE=$2 CC=aarch64-linux-gnu-gcc CXX=aarch64-linux-gnu-g++ AR=aarch64-linux-gnu-ar NM=aarch64-linux-gnu-nm \
      RUN='qemu-aarch64 -L /usr/aarch64-linux-gnu' ROUNDS=${ROUNDS:-20000} bash "$top/c/tests/library.sh"
  fi
}
