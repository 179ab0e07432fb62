#!/bin/sh
# Builds the drivers of other libraries into WORK_DIR, where run.py finds them: tests/peers/build.sh WORK_DIR
# Debian 12: apt-get install gcc libldns-dev libknot-dev bind9-dev golang-go golang-github-miekg-dns-dev python3-dnspython
# The program over hickory is built as hickory/README.md says.
set -eu
here=$(cd "$(dirname "$0")" && pwd)
mkdir -p "$1"
work=$(cd "$1" && pwd)
gcc -O1 -Wall -DHAVE_STDATOMIC_H=1 -o "$work/bind" "$here/bind.c" -ldns -lisc
gcc -O1 -Wall -o "$work/knot" "$here/knot.c" -lknot
gcc -O1 -Wall -o "$work/ldns" "$here/ldns.c" -lldns
cp "$here/miekg.go" "$work/"
(cd "$work" && GO111MODULE=off GOPATH=/usr/share/gocode GOCACHE="$work/.gocache" go build -o miekg miekg.go)
