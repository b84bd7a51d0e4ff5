# What ./teredo says of words that the program would refuse: which word is wrong, and why. It is sourced.
# shellcheck shell=bash

# How wide what is said may be.
columns() {
  local size=
  [ ! -t 1 ] || { size=$(stty size <&3 2>/dev/null); } 3<&1
  size=${COLUMNS:-${size#* }}
  case $size in
    '' | *[!0-9]* | ? | ???????*) size=80 ;;
  esac
  echo "$size"
}

# Lines no wider than the terminal: what is set in, or stands behind a gap, goes on below itself.
to_width() {
  if ! command -v awk >/dev/null; then
    cat
    return
  fi
  awk -v width="$(columns)" '
    function fold(line, hang,   words, count, at, made, gap) {
      gap = sprintf("%" hang "s", "")
      made = substr(line, 1, hang)
      count = split(substr(line, hang + 1), words, " ")
      for (at = 1; at <= count; at++) {
        if (length(made) > hang && length(made) + 1 + length(words[at]) > width) { print made; made = gap }
        made = made (length(made) > hang ? " " : "") words[at]
      }
      print made
    }
    length($0) <= width { print; next }
    match($0, /[^ ]  +[^ ]/) && RSTART + RLENGTH - 2 <= width * 2 / 3 { fold($0, RSTART + RLENGTH - 2); next }
    match($0, /^( +|- )/) { fold($0, RLENGTH); next }
    { fold($0, 0) }'
}

# distance ONE OTHER: by how many letters two words differ, two that changed places counted once; of each 9 are looked at. It goes
# into `distance`.
distance() {
  local one=${1:0:9} other=${2:0:9} i j cost best higher=() above=() line=()
  for ((j = 0; j <= ${#other}; j++)); do above[j]=$j; done
  for ((i = 1; i <= ${#one}; i++)); do
    line=("$i")
    for ((j = 1; j <= ${#other}; j++)); do
      cost=1
      [ "${one:i-1:1}" != "${other:j-1:1}" ] || cost=0
      best=$((above[j - 1] + cost))
      ((above[j] + 1 >= best)) || best=$((above[j] + 1))
      ((line[j - 1] + 1 >= best)) || best=$((line[j - 1] + 1))
      if ((i > 1 && j > 1)) && [ "${one:i-2:2}" = "${other:j-1:1}${other:j-2:1}" ] && ((higher[j - 2] + 1 < best)); then
        best=$((higher[j - 2] + 1))
      fi
      line[j]=$best
    done
    higher=("${above[@]}") above=("${line[@]}")
  done
  distance=${above[${#other}]}
}

# Refuses a word that is no command, with the one that may be meant: two letters off at most, and one of a short word.
refuse_word() {
  local name nearest='' least=3 distance
  [ ${#1} -gt 4 ] || least=2
  for name in $(known_words); do
    distance "$1" "$name"
    [ "$distance" -ge "$least" ] || { least=$distance nearest="; did you mean $name?"; }
  done
  refuse "there is no word ${1//[![:print:]]/?}$nearest"
}

# want SAID COUNT WANTED: as many words as the command has.
want() {
  [ "$2" -eq "$3" ] || refuse "$1"
}

# Is there a file to read? Where there is none, the program would answer the same.
want_file() {
  [ -e "$1" ] || { say "$1: there is no such file"; exit "$unreadable"; }
  [ -r "$1" ] && [ ! -d "$1" ] || { say "$1: can't be read: a folder, or its permissions"; exit "$unreadable"; }
}

# is_above NUMBER MOST: of two numbers without leading zeros, of as many digits as there may be.
is_above() {
  [ ${#1} -gt ${#2} ] || { [ ${#1} -eq ${#2} ] && [[ $1 > $2 ]]; }
}

# want_number NAME WORD LEAST MOST: a whole number in its one spelling.
want_number() {
  local LC_ALL=C
  case $2 in
    '' | *[!0-9]*) refuse "$1 is a whole number in digits alone, from $3 to $4, and '$2' is none" ;;
    0?*) refuse "$1 has no zeros in front: '$2'" ;;
  esac
  ! is_above "$2" "$4" || refuse "$1 is at most $4, and $2 is more"
  [ "$3" = 0 ] || [ "$2" != 0 ] || refuse "$1 is at least $3"
}

# want_address NAME WORD: an IPv4 address in its one spelling.
want_address() {
  local LC_ALL=C part parts
  [[ $2 =~ ^[0-9]+\.[0-9]+\.[0-9]+\.[0-9]+$ ]] || refuse "$1 is an IPv4 address, four numbers with points between them, and '$2' is none"
  IFS=. read -ra parts <<<"$2"
  for part in "${parts[@]}"; do
    case $part in
      0?*) refuse "$1 has no zeros in front of a number: '$2'" ;;
    esac
    ! is_above "$part" 255 || refuse "$1 has four numbers from 0 to 255: '$2'"
  done
}

# want_pair IP1 IP2: the two addresses of a server.
want_pair() {
  want_address IP1 "$1"
  want_address IP2 "$2"
  [ "$1" != "$2" ] || refuse "IP1 and IP2 are two addresses, and both are $1"
}

# find_chain FILE: puts the chain that a scenario says in a line of its own into `chain`, as tools/chains.py reads it; - where it
# says none. FILE is read twice so, and a pipe can't be.
find_chain() {
  local LC_ALL=C line
  chain=-
  [ -e "$1" ] && [ ! -d "$1" ] || return 0
  [ -f "$1" ] || refuse "$1 can't be read twice, so its CHAIN has to be said: - for none"
  line=$(LC_ALL=C grep -a -m 1 '^[[:blank:]]*#[[:blank:]]*chain:' 2>/dev/null <"$1") || return 0
  [[ $line =~ ^[[:blank:]]*#[[:blank:]]*chain:[[:blank:]]*(.*)$ ]]
  chain=${BASH_REMATCH[1]}
  chain=${chain%"${chain##*[!$' \t\r']}"}
}
