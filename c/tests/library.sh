#!/usr/bin/env bash
# The C library over an archive of crates/dns_rdata_c: installs it, and runs the example, each call, the hostile loop, failing
# allocations and threads. It needs a C compiler, and neither the Rattle kit nor a proof. What a machine lacks is said as
# `skipped: ..`, and not counted. The last line is 'N as wanted, M not'.
#   c/tests/library.sh                   over the archive that was built in crates/dns_rdata_c/out
#   ARCHIVE=FILE c/tests/library.sh      over another archive
#   ROUNDS=1000000 c/tests/library.sh    more rounds of the hostile loop than 200000; the sanitizers take a fifth of them
# CC, CXX, AR and NM name the tools, RUN the words that start a program of another machine (as `qemu-aarch64 -L FOLDER`), and
# STACKS two other stack sizes for the threads, in octets.
set -u
top=$(cd "$(dirname "$0")/../.." && pwd)
dir=$(mktemp -d)
trap 'rm -rf "$dir"' EXIT
unset MAKEFLAGS MFLAGS MAKEOVERRIDES MAKELEVEL CPPFLAGS CFLAGS LDFLAGS
. "$top/tests/want.sh"
rounds=${ROUNDS:-200000}
library=${ARCHIVE:-$top/crates/dns_rdata_c/out/libdns_rdata_c.a}
# make takes a blank in a path for two files.
case "$library" in *' '*) cp "$library" "$dir/archive.a" && library="$dir/archive.a" ;; esac
CC=${CC:-cc} CXX=${CXX:-c++} AR=${AR:-ar} NM=${NM:-nm}
read -ra run <<<"${RUN:-}"
read -ra stacks <<<"${STACKS:-}"
c11=("$CC" -std=c11 -Wall -Wextra -Werror -O2 -I"$top/c/include")
cpp=("$CXX" -x c++ -std=c++17 -Wall -Wextra -Werror -O2 -I"$top/c/include")
build=(make -s -C "$top/c" "ARCHIVE=$library" "CC=$CC" "AR=$AR" PREFIX=/usr/local LIBDIR=/usr/local/lib)
installed="$dir/installed/usr/local"
tests="$top/c/tests"

# Whether a command prints what a file has.
prints() { # FILE COMMAND ..
  "${@:2}" >"$dir/printed" && diff -u "$1" "$dir/printed"
}

# Whether the example prints the records of its message, of which one is rejected: status 1.
example() {
  "${run[@]}" "$dir/out/example" "$top/c/examples/response.bin" >"$dir/printed"
  [ $? = 1 ] && diff -u "$top/c/examples/response.out" "$dir/printed"
}

# Whether dnsdump measures the messages of the folder, which have 46 records.
measured() {
  "${run[@]}" "$dir/dnsdump" -b "$top/tests/captures/messages" | grep -E '^16 messages of [0-9]+ octets, 46 records, [1-9][0-9]* rounds: [1-9]'
}

# Whether dnsdump has status 2 for other words.
dump_words() {
  local words
  for words in '' '-b' '-x .' 'a b' '-b -b' '-b a b' '-b /dev/null'; do
    # shellcheck disable=SC2086 # each is a word
    "${run[@]}" "$dir/dnsdump" $words 2>"$dir/errors"
    if [ $? != 2 ] || [ ! -s "$dir/errors" ]; then echo "dnsdump $words"; return 1; fi
  done
}

# The calls that the header declares: the proved ones, and those that return a text.
proved_calls() { sed -nE 's/^DNS_RDATA_NONNULL .* (dns_rdata_[a-z_]*)\(.*/\1/p' "$top/c/include/dns_rdata.h" | sort; }
header_calls() { sed -nE 's/^DNS_RDATA_(NONNULL|TEXT) .* \*?(dns_rdata_[a-z_]*)\(.*/\2/p' "$top/c/include/dns_rdata.h" | sort; }

# Whether the archive exports the proved calls alone, and the shared library all of the header, which needs nothing but the C library.
symbols() {
  proved_calls >"$dir/proved"
  header_calls >"$dir/calls"
  "$NM" -g --defined-only "$library" | sed -nE 's/^[0-9a-f]+ . //p' | sort >"$dir/archived"
  "$NM" -D --defined-only "$dir/out/libdns_rdata.so" | sed -nE 's/^[0-9a-f]+ T ([a-z_]*)@?.*/\1/p' | sort >"$dir/exported"
  "$NM" -D --undefined-only "$dir/out/libdns_rdata.so" | grep ' U ' | grep -v '@GLIBC' >"$dir/undefined"
  diff "$dir/proved" "$dir/archived" && diff "$dir/calls" "$dir/exported" && [ ! -s "$dir/undefined" ]
}

# Whether make passes the flags of the user on: each leaves something in the libraries.
flags() {
  "${build[@]}" OUT="$dir/flags" CPPFLAGS=-DPROBE=1 CFLAGS='-O1 -g3' LDFLAGS=-Wl,-rpath,/probe || return
  readelf --debug-dump=macro "$dir/flags/heap.o" 2>/dev/null | grep -q 'PROBE 1' && readelf -d "$dir/flags/libdns_rdata.so" | grep -q /probe
}

# Whether the man page has every call and every status of the header, and is well formed.
manual() {
  local page="$top/c/dns_rdata.3" name
  for name in $(header_calls); do grep -qE "^\.It Fn $name( |\$)" "$page" || { echo "no $name"; return 1; }; done
  for name in $(sed -nE 's/^    (DNS_RDATA_[A-Z0-9_]+) = .*/\1/p' "$top/c/include/dns_rdata.h" | grep -v ^DNS_RDATA_TYPE_); do
    grep -qE "^\.It Dv .*$name\b" "$page" || { echo "no $name"; return 1; }
  done
  command -v groff >/dev/null || return 0
  groff -mandoc -Tascii -ww "$page" 2>&1 >"$dir/page" | tee "$dir/warnings"
  [ -s "$dir/page" ] && [ ! -s "$dir/warnings" ]
}

# Compiles and runs the program that the man page shows.
manual_example() {
  sed -n '/^\.Sh EXAMPLES/,/^\.Sh/p' "$top/c/dns_rdata.3" | sed -n '/^\.Bd/,/^\.Ed/p' | grep -v '^\.' | sed 's/\\e/\\/g' >"$dir/page.c"
  "${c11[@]}" -o "$dir/page_example" "$dir/page.c" "$dir/out/libdns_rdata.a" && [ "$("${run[@]}" "$dir/page_example")" = '10 mail.example.com.' ]
}

calls() {
  want 'the calls in C11 compile' "${c11[@]}" -o "$dir/calls_c" "$tests/calls.c" "$dir/out/libdns_rdata.a"
  want 'the calls in C11' prints "$tests/calls.out" "${run[@]}" "$dir/calls_c"
  want 'the calls over the shared library compile' "${c11[@]}" -o "$dir/calls_so" "$tests/calls.c" -L"$dir/out" -ldns_rdata
  want 'the calls over the shared library' prints "$tests/calls.out" env LD_LIBRARY_PATH="$dir/out" "${run[@]}" "$dir/calls_so"
  if ! command -v "$CXX" >/dev/null; then skip "the calls in C++17: no $CXX"; return; fi
  want 'the calls in C++17 compile' "${cpp[@]}" -o "$dir/calls_cpp" "$tests/calls.c" -x none "$dir/out/libdns_rdata.a"
  want 'the calls in C++17' prints "$tests/calls.out" "${run[@]}" "$dir/calls_cpp"
}

hostile() {
  want 'the hostile loop compiles' "${c11[@]}" -o "$dir/hostile" "$tests/hostile.c" "$dir/out/libdns_rdata.a"
  want 'the hostile loop' "${run[@]}" "$dir/hostile" "$rounds"
  want 'failing allocations compile' "${c11[@]}" -o "$dir/memory" "$tests/memory.c" "$library"
  want 'failing allocations' "${run[@]}" "$dir/memory"
  want 'threads compile' "${c11[@]}" -pthread -o "$dir/threads" "$tests/threads.c" "$dir/out/libdns_rdata.a"
  want 'threads' "${run[@]}" "$dir/threads" "${stacks[@]}"
  sed -n 's/^stack: /stack of the calls: /p' "$dir/log"
}

dumps() {
  want 'dnsdump compiles' "${c11[@]}" -o "$dir/dnsdump" "$top/c/examples/dnsdump.c" "$dir/out/libdns_rdata.a"
  want 'dnsdump' bash "$top/tests/captures/check.sh" --truncated "${run[@]}" "$dir/dnsdump"
  want 'the speed that dnsdump measures' measured
  want 'the words of dnsdump' dump_words
}

by_pkg_config() {
  if ! command -v pkg-config >/dev/null; then skip 'the installed library by pkg-config: it is missing'; return; fi
  local found
  read -ra found < <(PKG_CONFIG_PATH="$installed/lib/pkgconfig" pkg-config --define-variable=prefix="$installed" \
    --define-variable=libdir="$installed/lib" --define-variable=includedir="$installed/include" --cflags --libs dns_rdata)
  # Without the header's folder of this repository, so that the flags must name the installed one.
  want 'a program by pkg-config compiles' "$CC" -std=c11 -o "$dir/calls_installed" "$tests/calls.c" "${found[@]}"
  want 'a program by pkg-config' prints "$tests/calls.out" env LD_LIBRARY_PATH="$installed/lib" "${run[@]}" "$dir/calls_installed"
}

by_cmake() {
  if ! command -v cmake >/dev/null; then skip 'the installed library by CMake: it is missing'; return; fi
  want 'a program by CMake is found' cmake -S "$tests/consumer" -B "$dir/consumer" -DCMAKE_C_COMPILER="$CC" -DCMAKE_PREFIX_PATH="$installed"
  want 'a program by CMake compiles' cmake --build "$dir/consumer"
  want 'a program by CMake, shared' prints "$tests/calls.out" "${run[@]}" "$dir/consumer/shared"
  want 'a program by CMake, static' prints "$tests/calls.out" "${run[@]}" "$dir/consumer/static"
}

sanitized() {
  local checked=("${c11[@]}" -O1 -g -fsanitize=address,undefined -fno-sanitize-recover=all)
  echo 'int main(void) { return 0; }' >"$dir/nothing.c"
  # An emulator runs no sanitizers.
  [ "${#run[@]}" -eq 0 ] || return 0
  if ! "${checked[@]}" -o "$dir/nothing" "$dir/nothing.c" 2>/dev/null || ! "$dir/nothing"; then
    skip 'the hostile loop and failing allocations under sanitizers: their runtime is missing'
    return
  fi
  want 'the hostile loop compiles for the sanitizers' "${checked[@]}" -o "$dir/hostile_checked" "$tests/hostile.c" "$dir/out/libdns_rdata.a"
  want 'the hostile loop under the sanitizers' "$dir/hostile_checked" $((rounds / 5)) 7
  want 'failing allocations compile for the sanitizers' "${checked[@]}" -o "$dir/memory_checked" "$tests/memory.c" "$library"
  want 'failing allocations under the sanitizers' "$dir/memory_checked"
  want 'dnsdump compiles for the sanitizers' "${checked[@]}" -o "$dir/dnsdump_checked" "$top/c/examples/dnsdump.c" "$dir/out/libdns_rdata.a"
  want 'dnsdump under the sanitizers' bash "$top/tests/captures/check.sh" "$dir/dnsdump_checked"
}

# Whether make uninstall leaves no file.
uninstalled() {
  "${build[@]}" OUT="$dir/out" DESTDIR="$dir/installed" uninstall && [ -z "$(find "$dir/installed" ! -type d)" ]
}

want 'make install' "${build[@]}" OUT="$dir/out" DESTDIR="$dir/installed" install all
want 'the symbols' symbols
want 'the flags of make' flags
want 'the example' example
want 'the man page' manual
want 'the example of the man page' manual_example
calls
hostile
dumps
by_pkg_config
by_cmake
sanitized
want 'make uninstall' uninstalled
echo "$good as wanted, $bad not"
[ "$bad" -eq 0 ]
