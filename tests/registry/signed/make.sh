#!/bin/sh
# Makes the signed zones of this folder: tests/registry/signed/make.sh WORK_DIR BIND
# BIND is the program that tests/registry/build.sh makes of bind.c. Debian 12: apt-get install bind9-utils ldnsutils
# The keys are made anew, so signatures and key tags change; everything else stays. `dnssec-verify` checks each zone.
set -eu
here=$(cd "$(dirname "$0")" && pwd)
bind=$(realpath "$2")
mkdir -p "$1"
cd "$1"
rm -f K* zone.*
from=20261201000000 to=20361201000000

# One line for each record as `named-compilezone -s full` prints it, a tab, and the RDATA in hexadecimal digits as BIND reads it.
lines() { # ZONE OUT COMMENT
  dnssec-verify -q -o example. "$1"
  named-compilezone -q -i none -k ignore -s full -o zone.lines example. "$1"
  { echo "# $3"; python3 "$here/beside.py" "$bind" zone.lines; } >"$here/$2"
}

# A key-signing key and a zone-signing key.
bind_keys() { # ALGORITHM BITS
  for flag in "-f KSK" ""; do
    # shellcheck disable=SC2086
    dnssec-keygen -q -a "$1" $2 $flag -n ZONE example.
  done
}

# Signs with dnssec-signzone: ALGORITHM BITS OUT OPTION ..
with_bind() {
  keys=$(bind_keys "$1" "$2")
  out=$3
  shift 3
  # shellcheck disable=SC2086
  dnssec-signzone -q -S -K . -s $from -e $to -o example. -f zone.signed "$@" "$here/example.zone" >/dev/null
  # dnssec-signzone takes all keys of the folder.
  # shellcheck disable=SC2086
  for key in $keys; do rm "$key.key" "$key.private"; done
  lines zone.signed "$out" "dnssec-signzone -S -s $from -e $to -o example. $*"
}

# Signs with ldns-signzone: ALGORITHM OUT OPTION ..
with_ldns() {
  ksk=$(ldns-keygen -k -a "$1" example)
  zsk=$(ldns-keygen -a "$1" example)
  out=$2
  shift 2
  ldns-signzone -i $from -e $to -o example. -f zone.signed "$@" "$here/example.zone" "$zsk" "$ksk"
  lines zone.signed "$out" "ldns-signzone -i $from -e $to -o example. $*"
}

with_bind RSASHA256 "-b 2048" bind-nsec-rsasha256.tsv
with_bind ECDSAP256SHA256 "" bind-nsec3-ecdsap256sha256.tsv -3 aabbccdd -H 12
with_bind ED25519 "" bind-nsec3-optout-ed25519.tsv -3 - -H 0 -A
with_ldns ECDSAP256SHA256 ldns-nsec-ecdsap256sha256.tsv
with_ldns ED25519 ldns-nsec3-ed25519.tsv -n -s aabb -t 5
with_ldns RSASHA256 ldns-nsec3-optout-rsasha256.tsv -n -p -t 0
