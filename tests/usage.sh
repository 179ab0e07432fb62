# For ./run, which sources it: tests the words of the program `rdata` before anything is built.
# shellcheck shell=bash
LC_ALL=C

# What is wrong with a word, and the three commands, on standard error. The value is 1.
explain() { # WHAT IS WRONG
  cat >&2 <<TEXT
run: $1
  ./run read TYPE PLACE LENGTH OCTETS    RDATA of LENGTH octets (RDLENGTH) at the offset PLACE of a message:
                                         ./run read A 0 4 01020304
  ./run parse TYPE TEXT                  RDATA from its text: ./run parse MX '10 mail.example.com.'
  ./run cmp TYPE OCTETS OCTETS           the order of two RDATA: ./run cmp A 01020304 01020305
TYPE is a type's name in capitals, its number, or TYPE and its number. OCTETS are hexadecimal digits, or - for none.
On a terminal, control characters in the result are shown as \\xNN.
TEXT
  return 1
}

# The numbers of 16 bits are one to five decimal digits, up to 65535.
is_short() { [[ $1 =~ ^[0-9]{1,5}$ ]] && [ "$((10#$1))" -le 65535 ]; }

# The names of types that the program knows are those in the list of `RecordType`.
type_names=" $(grep -oE '\([A-Z0-9]+ [0-9]+\)' "$top/crates/dns_types/src/record_type.rt" | sed -E 's/\(([A-Z0-9]+) .*/\1/' | tr '\n' ' ')"

is_type() { # WORD
  is_short "$1" || { [[ $1 == TYPE* ]] && is_short "${1#TYPE}"; } || { [[ $1 =~ ^[A-Z0-9]+$ ]] && [[ $type_names == *" $1 "* ]]; }
}

is_octets() { [ "$1" = - ] || { [[ $1 =~ ^[0-9A-Fa-f]+$ ]] && [ "$((${#1} % 2))" -eq 0 ]; }; }

# How many octets a word has.
count_of() { if [ "$1" = - ]; then echo 0; else echo "$((${#1} / 2))"; fi; }

wrong_type() { explain "TYPE is the name of no type, and no number up to 65535: '$1'"; }

wrong_octets() { explain "OCTETS are an even number of hexadecimal digits, or -: '$1'"; }

# Succeeds if the words ask for something. Otherwise says which one is wrong. Words that are not UTF-8 are the program's own
# to reject.
wrong_word() { # WORD ..
  local word
  for word in "$@"; do
    [[ $word =~ ^[\ -~]*$ ]] || printf '%s' "$word" | iconv -f UTF-8 -t UTF-8 >/dev/null 2>&1 || return 0
  done
  case "${1:-}" in
    read)
      [ $# = 5 ] || { explain "read takes four words, and there are $(($# - 1))"; return; }
      is_type "$2" || { wrong_type "$2"; return; }
      [[ $3 =~ ^[0-9]{1,5}$ ]] || { explain "PLACE is a number of one to five digits: '$3'"; return; }
      is_short "$4" || { explain "LENGTH is a number up to 65535: '$4'"; return; }
      is_octets "$5" || { wrong_octets "$5"; return; }
      [ "$((10#$3))" -le "$(count_of "$5")" ] || explain "PLACE is after the end of the message: $3 of $(count_of "$5") octets" ;;
    parse)
      [ $# = 3 ] || { explain "parse takes two words, and there are $(($# - 1)): put TEXT in quotes"; return; }
      is_type "$2" || wrong_type "$2" ;;
    cmp)
      [ $# = 4 ] || { explain "cmp takes three words, and there are $(($# - 1))"; return; }
      is_type "$2" || { wrong_type "$2"; return; }
      for word in "$3" "$4"; do
        is_octets "$word" || { wrong_octets "$word"; return; }
        [ "$(count_of "$word")" -le 65535 ] || { explain "RDATA has at most 65535 octets"; return; }
      done ;;
    '') explain 'a command is missing' ;;
    *) explain "there is no such command: '$1'" ;;
  esac
}
