#!/usr/bin/env bash
# Prints the path of a ready-made file in dist/, if that file was made from the sources that are here:
#   tools/ready.sh FILE [MACHINE]
# FILE is libdns_rdata_c.a, rdata or zone_text. MACHINE is a folder of dist/ or a triple such as x86_64-unknown-linux-gnu; without
# it, this machine is meant. Status 0 with a path. Status 3 if there is no such file, and standard error says why. It takes a tenth
# of a second, and needs bash, awk and sha256sum, but not the Rattle kit.
set -u
top=$(cd "$(dirname "$0")/.." && pwd)
. "$top/tests/build.sh"
. "$top/tools/dist.sh"
case $# in
  1) machine=$(this_machine) ;;
  2) machine=$(machine_of "$2") ;;
  *) echo 'usage: tools/ready.sh FILE [MACHINE]' >&2; exit 2 ;;
esac
if ! find_ready "$1" "$machine"; then
  echo "$1: $why" >&2
  exit 3
fi
echo "$top/$ready"
