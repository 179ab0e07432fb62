#!/usr/bin/env bash
# The ready-made files in dist/. One that was made from the sources that are here must have the SHA-256 that MANIFEST says. If it
# is for this machine, it must also be octet for octet what was proved and built here; else the C tests run over it by an emulator
# (Debian: gcc-aarch64-linux-gnu, qemu-user). A file that was made from other sources is skipped, since nothing uses it. The last
# line is 'N as wanted, M not'.
set -u
top=$(cd "$(dirname "$0")/.." && pwd)
. "$top/tests/build.sh"
. "$top/tools/dist.sh"
good=0 bad=0

want() { # TEXT COMMAND ..
  if "${@:2}"; then
    good=$((good + 1))
  else
    bad=$((bad + 1))
    echo "not as wanted: $1"
  fi
}

skip() { echo "skipped: $1"; }

# Compares a file with the one that is built here.
compare() { # FOLDER FILE
  local path
  path=$(built_files | awk -v file="$2" '$1 == file { print $3 }')
  if [ -z "$path" ] || [ ! -f "$top/$path" ]; then skip "$1/$2: nothing is built here to compare it with"; return; fi
  want "$1/$2 is not $path, which was built here by '$(rt version 2>/dev/null)'; MANIFEST says '$(sed -n 's/^kit //p' "$top/$1/MANIFEST")'" \
    cmp -s "$top/$1/$2" "$top/$path"
}

# Runs the C tests over an archive for another machine, and adds their counts.
emulate() { # FOLDER FILE MACHINE
  local output
  if ! can_test "$3"; then skip "$1/$2: $why"; return; fi
  output=$(mktemp)
  test_archive "$3" "$top/$1/$2" | tee "$output"
  if [[ $(tail -n 1 "$output") =~ ^([0-9]+)\ as\ wanted,\ ([0-9]+)\ not$ ]]; then
    good=$((good + BASH_REMATCH[1])) bad=$((bad + BASH_REMATCH[2]))
  else
    bad=$((bad + 1))
  fi
  rm -f "$output"
}

look() { # FOLDER FILE CRATE SOURCES SHA256
  if [ "$("$top/tools/source_hash.sh" "$3")" != "$4" ]; then
    skip "$1/$2 is made from other sources than these (./release makes it again)"
    return
  fi
  want "$1/$2 has another SHA-256 than MANIFEST says" [ "$(sha256_of "$top/$1/$2")" = "$5" ]
  if [ "${1#dist/}" = "$(this_machine)" ]; then
    compare "$1" "$2"
  else
    emulate "$1" "$2" "${1#dist/}"
  fi
}

cd "$top" || exit 1
[ -d dist ] || skip 'there is no dist/ (./release makes it)'
for folder in dist/*/; do
  folder=${folder%/}
  [ -d "$folder" ] || continue
  want "$folder has no MANIFEST" [ -f "$folder/MANIFEST" ]
  listed=$(awk '!/^#/ && $1 != "kit" { print $1 }' "$folder/MANIFEST" | sort)
  there=$(find "$folder" -mindepth 1 ! -name MANIFEST -printf '%P\n' | sort)
  want "$folder has other files than MANIFEST lists" [ "$listed" = "$there" ]
  while read -r file crate sources sum; do
    if [ -f "$folder/$file" ]; then look "$folder" "$file" "$crate" "$sources" "$sum"; fi
  done < <(grep -vE '^(#|kit )' "$folder/MANIFEST")
done
echo "$good as wanted, $bad not"
[ "$bad" -eq 0 ]
