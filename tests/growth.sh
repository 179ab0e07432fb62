#!/usr/bin/env bash
# How the time of options and parameters grows with their number, each of four octets: nanoseconds an octet of the data, for
# reading, emitting into a fresh encoder, and `==`. Then, for records of options in no order, the microseconds of one call:
# reading, `==`, hash, `cmp` of equal records and of records whose last options differ, canonical octets one by one, the last
# of them, and all of them copied. A line with more than 10 ms says so. Then large RDATA that is looked at in the message: nanoseconds
# an octet of reading a view, its canonical octets, and the order of it and a next one. At last texts of 4,000 to 65,000 octets: the nanoseconds
# an octet of the text of reading them by `try_from_str` (where the type is read so) and by `from_zone_text`. It runs the built
# benchmark (`tests/programs/build.sh rdata_bench` makes it). At the end: the microseconds of a walk in C over the worst messages that are
# known (c/bench/worst.c), over the archive that `make -C c` has left, or another one.
#   tests/growth.sh [BENCHMARK [ARCHIVE]]
set -u
top=$(cd "$(dirname "$0")/.." && pwd)
bench="${1:-$top/out/programs/rdata_bench}"
archive="${2:-$top/c/out/libdns_rdata.a}"
sample() { # TYPE COUNT: codes or keys from 100 on
  awk -v kind="$1" -v count="$2" 'BEGIN {
    octets = kind == "SVCB" ? "000100" : ""
    for (i = 0; i < count; i++) octets = octets sprintf("%04x000401020304", i + 100)
    print kind, 0, length(octets) / 2, octets
  }'
}
for kind in OPT SVCB; do
  for count in 1 4 16 64; do
    sample "$kind" "$count" | "$bench" $((4000000 / (8 * count))) |
      awk -v count="$count" -v len="$((8 * count))" 'NR == 2 { printf "%s\t%d\tread %.2f\temitted %.2f\tcompared %.2f\n", $1, count, $2 / len, $4 / len, $7 / len }'
  done
done
"$bench" mixed | awk -F '\t' -v OFS='\t' 'NR == 1 { NF = 10; print; next } {
  slow = 0
  for (i = 3; i <= 10; i++) if ($i > 10000) slow = 1
  NF = 10
  print $0 (slow ? "\tover 10 ms" : "")
}'
# RDATA of so many items of eight octets each: options in no order, parameters, strings, windows of a bitmap in no order.
view() { # TYPE COUNT
  awk -v kind="$1" -v count="$2" 'BEGIN {
    octets = kind == "SVCB" ? "000100" : kind == "CSYNC" ? "000000000003" : ""
    for (i = 0; i < count; i++) {
      if (kind == "OPT") octets = octets sprintf("%04x000401020304", i * 40503 % 65536)
      if (kind == "SVCB") octets = octets sprintf("%04x000401020304", i + 100)
      if (kind == "TXT") octets = octets "0701020304050607"
      if (kind == "CSYNC") octets = octets sprintf("%02x06010203040540", i * 101 % 256)
    }
    print kind, 0, length(octets) / 2, octets
  }'
}
for kind in OPT SVCB TXT CSYNC; do
  for count in 128 1024 8000; do
    view "$kind" "$count" | "$bench" views $((400000 / count)) |
      awk -v count="$count" -v len="$((8 * count))" 'NR == 2 { printf "%s\t%d\tview read %.2f\tcanonical %.2f\tcompared with a next one %.2f\n", $1, count, $2 / len, $3 / len, $7 / len }'
  done
done
# A line with a text of about so many octets.
text() { # TYPE OCTETS
  awk -v kind="$1" -v octets="$2" 'BEGIN {
    if (kind == "CSYNC") body = " 1 3"
    if (kind == "SVCB") body = " 1 ."
    if (kind == "TLSA") body = " 3 1 1 "
    for (i = 1; length(body) < octets; i++) {
      if (kind == "TXT") body = body " " sprintf("%0100d", i)
      if (kind == "OPENPGPKEY") body = body (i > 1 ? "" : " ") "QUJD"
      if (kind == "TLSA" || kind == "TYPE65280") body = body "0a1b2c3d"
      if (kind == "CSYNC") body = body " TYPE" 5 * i
      if (kind == "SVCB") body = body " key" i + 100 "=abcd"
    }
    if (kind == "TYPE65280") body = " \\# " length(body) / 2 " " body
    print kind body
  }'
}
for kind in TXT OPENPGPKEY TLSA CSYNC SVCB TYPE65280; do
  for octets in 4000 16000 65000; do
    (text "$kind" "$octets") | "$bench" parse 100 |
      awk -v kind="$kind" -v octets="$octets" -F '\t' 'NR == 2 { printf "%s\t%d\ttry_from_str %s\tfrom_zone_text %.2f\n", kind, octets, $2 == "" ? "-" : sprintf("%.2f", $2 / octets), $3 / octets }'
  done
done
if [ -f "$archive" ]; then
  dir=$(mktemp -d)
  trap 'rm -rf "$dir"' EXIT
  "${CC:-cc}" -O2 -I"$top/c/include" -o "$dir/worst" "$top/c/bench/worst.c" "$archive" && "$dir/worst"
else
  echo "skipped: the worst messages in C: there is no $archive (make -C c makes it)"
fi
