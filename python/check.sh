#!/usr/bin/env bash
# The Python package: its tests over the sources, types by `mypy --strict`, a wheel that is installed in a fresh environment and
# tested there, a wheel from the source archive, and what importing says without the library. No network is needed. The last line is
# 'N as wanted, M not'. What a machine lacks is said, and not counted.
#   python/check.sh LIBRARY    over this shared library
set -u
top=$(cd "$(dirname "$0")/.." && pwd)
library=$(realpath "${1:?usage: python/check.sh LIBRARY}")
dir=$(mktemp -d)
trap 'rm -rf "$dir"' EXIT
. "$top/tests/want.sh"
unset DNS_RDATA_LIBRARY PYTHONPATH
export PYTHONDONTWRITEBYTECODE=1

tests() { # PYTHON
  (cd "$top/python" && "$1" -m unittest discover -s tests)
}

# Whether pip makes the wheel and installs it, and the tests run over what is installed.
installed() {
  python3 -m venv "$dir/venv" || return 1
  DNS_RDATA_LIBRARY="$library" "$dir/venv/bin/python" -m pip install --quiet --no-index --disable-pip-version-check "$top/python" || return 1
  "$dir/venv/bin/python" -c 'import dns_rdata, sys; sys.exit(not dns_rdata.__file__.startswith(sys.prefix))' || return 1
  tests "$dir/venv/bin/python"
}

# Whether the source archive makes the same wheel as the repository.
archived() {
  local builder='import dns_rdata_build as b, sys; print(getattr(b, sys.argv[1])(sys.argv[2]))' name
  mkdir -p "$dir/one" "$dir/two"
  (cd "$top/python" && export DNS_RDATA_LIBRARY="$library" && python3 -c "$builder" build_wheel "$dir/one" && python3 -c "$builder" build_sdist "$dir") || return 1
  name=$(basename "$dir"/dns_rdata-*.tar.gz .tar.gz)
  tar -xzf "$dir/$name.tar.gz" -C "$dir" && (cd "$dir/$name" && python3 -c "$builder" build_wheel "$dir/two") && cmp "$dir"/one/*.whl "$dir"/two/*.whl
}

# Whether importing without the library fails with ImportError, which says what to do.
missing() {
  DNS_RDATA_LIBRARY="$dir/none.so" PYTHONPATH="$top/python/src" python3 -c '
try:
    import dns_rdata
except ImportError as error:
    assert "DNS_RDATA_LIBRARY" in str(error) and "none.so" in str(error), error
else:
    raise SystemExit("imported")'
}

# Takes the Python that has dnspython for the tests over the sources: that of the path, or Debian's.
python=python3
if ! python3 -c 'import dns' 2>/dev/null && /usr/bin/python3 -c 'import dns' 2>/dev/null; then python=/usr/bin/python3; fi
if ! "$python" -c 'import dns' 2>/dev/null; then skip 'Python beside dnspython, which is missing'; fi
want 'Python' env DNS_RDATA_LIBRARY="$library" PYTHONPATH="$top/python/src" "$python" -m unittest discover -s "$top/python/tests"
want 'dnsdump in Python' env DNS_RDATA_LIBRARY="$library" PYTHONPATH="$top/python/src" bash "$top/tests/captures/check.sh" "$python" "$top/python/examples/dnsdump.py"
if command -v mypy >/dev/null; then
  want 'the types of the Python package' env -C "$top/python" mypy --strict --cache-dir "$dir/mypy" src
  want 'the types of the Python example' env -C "$top/python" MYPYPATH=src mypy --strict --cache-dir "$dir/mypy" examples
else
  skip 'the types of the Python package: no mypy'
fi
if python3 -c 'import ensurepip, venv' 2>/dev/null; then
  want 'the installed Python package' installed
else
  skip 'the installed Python package: no venv'
fi
want 'the Python source archive' archived
want 'no library for Python' missing
echo "$good as wanted, $bad not"
[ "$bad" -eq 0 ]
