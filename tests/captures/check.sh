#!/usr/bin/env bash
# Whether a dnsdump prints what it must of the captures and of the folder of messages here, and says why it cannot use
# other files. make.py tells how the expected lines were made. The status is 0 if all is as wanted, and else the
# differences are shown.
#   tests/captures/check.sh COMMAND ..                without the name of a file or a folder
#   tests/captures/check.sh --truncated COMMAND ..    takes beginnings of a capture, too: 500 runs
set -u
here=$(cd "$(dirname "$0")" && pwd)
dir=$(mktemp -d)
trap 'rm -rf "$dir"' EXIT
is_truncated=
if [ "${1:-}" = --truncated ]; then is_truncated=1; shift; fi
command=("$@")
bad=0

# Compares what is printed, the counts and the status with those that are wanted.
want() { # STATUS OUTPUT ERRORS WHAT
  "${command[@]}" "$4" >"$dir/printed" 2>"$dir/errors"
  local status=$?
  if ! { [ "$status" = "$1" ] && diff -u "$here/$2" "$dir/printed" && diff -u "$here/$3" "$dir/errors"; }; then
    echo "not as wanted: $4 (status $status)"
    bad=1
  fi
}

# A file that cannot be used: status 2, and standard error says why.
want_error() { # TEXT WHAT
  "${command[@]}" "$2" >"$dir/printed" 2>"$dir/errors"
  local status=$?
  if ! { [ "$status" = 2 ] && grep -q "$1" "$dir/errors" && [ ! -s "$dir/printed" ]; }; then
    echo "not as wanted: $2 (status $status), without '$1':"
    cat "$dir/errors"
    bad=1
  fi
}

# Each beginning of a capture prints a beginning of the lines. It is an error if it ends inside its header or inside a
# packet: so are all of less than 500 octets but WHOLE of them, which are the header and whole packets.
truncated() { # CAPTURE WHOLE
  local whole=0 status count
  for ((count = 0; count < 500; count++)); do
    head -c "$count" "$here/$1" >"$dir/capture"
    "${command[@]}" "$dir/capture" >"$dir/printed" 2>"$dir/errors"
    status=$?
    if [ "$status" -lt 2 ]; then whole=$((whole + 1)); fi
    if [ "$status" -gt 2 ] || ! cmp -s -n "$(stat -c %s "$dir/printed")" "$dir/printed" "$here/all.out" ||
      { [ "$status" = 2 ] && ! grep -q 'capture' "$dir/errors"; }; then
      echo "not as wanted: $count octets of $1 (status $status)"
      cat "$dir/errors"
      bad=1
    fi
  done
  if [ "$whole" != "$2" ]; then
    echo "not as wanted: $whole beginnings of $1 are no error"
    bad=1
  fi
}

for capture in ethernet vlan cooked raw; do want 1 all.out capture.err "$here/$capture.pcap"; done
want 1 all.out folder.err "$here/messages"
mkdir "$dir/query"
cp "$here"/messages/*_query.bin "$dir/query"
if ! "${command[@]}" "$dir/query" >"$dir/printed" 2>"$dir/errors"; then
  echo 'not as wanted: a message without records has another status than 0'
  bad=1
fi
want_error 'capture file' "$here/all.out"
want_error 'capture file' /dev/null
want_error "$dir/none" "$dir/none"
# A link layer of another number, and a packet of 2^32 - 1 octets.
{ head -c 20 "$here/raw.pcap" && printf '\0\0\0\2'; } >"$dir/link.pcap"
want_error 'link layer' "$dir/link.pcap"
{ head -c 32 "$here/raw.pcap" && printf '\377\377\377\377\0\0\0\0'; } >"$dir/long.pcap"
want_error 'packet' "$dir/long.pcap"
if [ -n "$is_truncated" ]; then truncated raw.pcap 5; fi
exit "$bad"
