#!/bin/sh
# Builds the programs over other libraries into WORK_DIR, where peers.py finds them: tests/registry/build.sh WORK_DIR
# Debian 12: apt-get install gcc libldns-dev bind9-dev golang-go golang-github-miekg-dns-dev python3-dnspython
set -eu
here=$(cd "$(dirname "$0")" && pwd)
mkdir -p "$1"
work=$(cd "$1" && pwd)
gcc -O1 -Wall -DHAVE_STDATOMIC_H=1 -o "$work/bind" "$here/bind.c" -ldns -lisc
gcc -O1 -Wall -o "$work/ldns" "$here/ldns.c" -lldns
cp "$here/miekg.go" "$work/"
(cd "$work" && GO111MODULE=off GOPATH=/usr/share/gocode GOCACHE="$work/.gocache" go build -o miekg miekg.go)
