# For the test scripts of C, Rust and Python, which source it: counts what is as wanted and what is not. `dir` is a folder of the
# script's own.
# shellcheck shell=bash
good=0 bad=0

# Runs a command, and shows the end of what it printed if it fails.
want() { # WHAT COMMAND ..
  if "${@:2}" >"$dir/log" 2>&1; then
    good=$((good + 1))
  else
    bad=$((bad + 1))
    echo "not as wanted: $1"
    tail -n 30 "$dir/log"
  fi
}

# Says what this machine cannot test.
skip() { echo "skipped: $1"; }
