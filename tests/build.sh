# For ./run, ./prove, ./check and other scripts, which source it: the crates in their order, whether a built program is up to
# date, and how a program is run.
# shellcheck shell=bash

# Says what is missing where the Rattle kit is not on this machine, and ends with status 4.
need_rt() { # WHO
  command -v rt >/dev/null && return
  echo "$1: the command 'rt' of the Rattle kit is missing on this machine; its first page is START-HERE.md in the kit's folder (/opt/rattle), and README.md says which kit" >&2
  exit 4
}

# The kit that README names.
named_kit() { grep -oE 'rattle-kit-[0-9a-z]+ logic [0-9a-f]+' "$top/README.md" | head -n 1; }

# Says so where the kit is another one than the one that README names: its proofs may take another time, or not pass.
tell_kit() { # WHO
  [ "$(rt version)" = "$(named_kit)" ] || echo "$1: the kit here is '$(rt version)', and README.md names '$(named_kit)'" >&2
}

# The crates that a crate is made from, each after all those that it uses, and the crate itself at last: one a line.
in_order() { # CRATE
  awk -v wanted="$1" '
    /^[a-z]/ { name = $1; sub(/:$/, "", name); uses[name] = $0 }
    function reach(name,   words, count, i) {
      if (name in seen || !(name in uses)) return
      seen[name] = 1
      count = split(uses[name], words, " ")
      for (i = 2; i <= count; i++) reach(words[i])
      print name
    }
    END { reach(wanted) }' "$top/crates.txt"
}

# Whether a built program stands and no source that it is made of is newer.
is_built() { # PROGRAM CRATE
  [ -x "$1" ] || return 1
  local folders=() name
  for name in $(in_order "$2"); do folders+=("$top/crates/$name"); done
  [ -z "$(find "$top/crates.txt" "${folders[@]}" -path '*/out' -prune -o -type f -newer "$1" -print -quit)" ]
}

# How many checks to run side by side: one a processor, as long as there is so much memory for each.
lanes_of() { # GIB
  local lanes room
  lanes=$(nproc)
  room=$(awk -v each="$1" '/^MemAvailable:/ { print int($2 / 1048576 / each) }' /proc/meminfo)
  if [ "${room:-1}" -lt "$lanes" ]; then lanes=${room:-1}; fi
  if [ "$lanes" -lt 1 ]; then lanes=1; fi
  echo "$lanes"
}

# Runs a program: the ready-made one in dist/ if it was made from the sources that are here; else the proved one if it was built
# here and no source is newer; else, and with --fresh in any case, a quick build in which nothing is proved (`rt try`). A line on
# standard error says which and why. The status is the program's own; 4 if nothing could be built, and standard error says why.
answer() { # [--fresh] CRATE WORD ..
  local why=--fresh crate built
  if [ "$1" = --fresh ]; then
    crate=$2 built="crates/$2/out/$2"
    shift 2
  else
    crate=$1 built="crates/$1/out/$1"
    shift
    if find_ready "$crate" "$(this_machine)"; then
      echo "$crate: proved and ready-made: $ready" >&2
      exec "$top/$ready" "$@"
    fi
    if is_built "$top/$built" "$crate"; then
      echo "$crate: proved and built here: $built ($why)" >&2
      exec "$top/$built" "$@"
    fi
    if [ -x "$top/$built" ]; then why="$why; a source is newer than $built"; fi
  fi
  command -v rt >/dev/null || echo "$crate: it must be built ($why)" >&2
  need_rt "$crate"
  echo "$crate: a quick build in which nothing is proved ($why)" >&2
  quick_answer "$crate" "$@"
}

# Builds a program by `rt try`, which keeps no file, and runs it.
quick_answer() { # CRATE WORD ..
  local crate=$1 log status ended
  shift
  log=$(mktemp)
  (cd "$top/crates/$crate" && rt try --seconds 1200 -- "$@") 2>"$log"
  status=$?
  # The last line tells how the program ended, and what comes before the checker's lines is the program's standard error.
  ended=$(sed -nE 's/^run=ended status=([0-9]+) .*/\1/p' "$log" | tail -n 1)
  if [ -z "$ended" ]; then
    cat "$log" >&2
    echo "$crate: the quick build gave no answer (rt try: status $status)" >&2
    ended=4
  else
    sed '/^interpreter: /d; /^checked: /,$d' "$log" >&2
  fi
  rm -f "$log"
  exit "$ended"
}
