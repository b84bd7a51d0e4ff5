# Who answers ./teredo's words: the built program, or a trial of the sources where nothing is built. It is sourced.
# shellcheck shell=bash

# Is there a program, and is no source, list of crates or folder of sources younger than it? A package has its own.
is_built() {
  [ ! -x "$packaged" ] || { program=$packaged; return 0; }
  [ -x "$program" ] && [ -f "$stamp" ] || return 1
  [ -z "$(find "$top/crates.txt" "$top/crates" -path '*/out' -prune -o -newer "$stamp" \
    \( -name crates.txt -o -name '*.rt' -o -name '*.antt' -o -type d \( -name src -o -name specs -o -name proofs \) \) \
    -print -quit)" ]
}

tell_built() {
  if is_built; then
    echo "the program is built: $program"
  elif [ -x "$program" ]; then
    echo 'the program is older than a source: ./teredo build builds it anew'
  else
    echo 'the program is not built: ./teredo build builds it'
  fi
}

# Says why no program answers, and ends.
ask_for_build() {
  say "$1; ./teredo build proves and builds the program, once, in less than an hour on four processors"
  exit "$not_built"
}

# Tells somebody at a terminal what is served, and until when: a turn without a datagram takes 20 ms.
tell_served() {
  [ "$1" = serve ] && [ -t 2 ] || return 0
  say "serving on $2 and $3, UDP port 3544, until $4 datagrams came, or none for $5 turns of 20 ms; Ctrl-C ends it at once"
  case $2 in
    0.* | 10.* | 127.* | 169.254.* | 172.1[6-9].* | 172.2[0-9].* | 172.3[01].* | 192.168.*)
      say "$2 isn't global, and a client takes no such server in its address: this is for a trial, and serves nobody"
      ;;
  esac
}

# Tells somebody at a terminal who is asked, and how long that takes: a turn without a datagram takes 20 ms.
tell_asked() {
  [ "$1" = qualify ] && [ -t 2 ] || return 0
  say "asking $3 and $4, UDP port 3544, from $2: at most $6 turns of 20 ms, and 36 seconds; Ctrl-C ends it at once"
}

# Says why a socket can't be opened, where one can't: the program's status doesn't tell which, and why.
tell_sockets() {
  command -v python3 >/dev/null || return 0
  case $1 in
    serve) python3 -B "$top/tools/sockets.py" --port 3544 "$2" "$3" ;;
    qualify) python3 -B "$top/tools/sockets.py" "$2" ;;
  esac
}

# Judges a capture, in whichever form it is: tools/capture.py converts it, asks the program, and says where there is no verdict.
# Without Python the program itself reads what it can.
judge() {
  command -v python3 >/dev/null || { say 'no command python3 on the PATH: the capture is read as it is, and what has no verdict is not told'; return; }
  [ -z "${TEREDO_QUIET-}" ] || exec 2>/dev/null
  run_tool "$1" "$top/tools/capture.py" --judge "$1" "$2" "$3" --program "$program" -- "$4"
}

# The fates that are drops, in red, where standard output is a terminal and nobody asks for none of it.
coloured() {
  awk -v red="$(printf '\033[31m')" -v plain="$(printf '\033[0m')" '
    FNR == NR { if (/^\| \*\*`/) { split($0, cells, "|"); while (match(cells[2], /`[a-z_0-9]+`/)) {
      drops[substr(cells[2], RSTART + 1, RLENGTH - 2)]; cells[2] = substr(cells[2], RSTART + RLENGTH) } } next }
    $6 in drops || $2 == "asked" && $5 in drops { print red $0 plain; next }
    { print }' "$top/docs/SCENARIOS.md" -
}

# What the program says but that nobody reads any more.
without_noise() {
  local line
  while IFS= read -r line; do
    case $line in
      *'nobody reads standard output any more'*) ;;
      *) echo "$line" ;;
    esac
  done
}

# Runs the program. A pipe whose reader has enough is no fault worth a line; a report on a terminal has its drops in red.
run_program() {
  case $1 in
    serve | qualify)
      tell_sockets "$@"
      tell_served "$@"
      tell_asked "$@"
      ;;
    lab | nested | explain)
      if [ -t 1 ] && [ -z "${NO_COLOR-}" ] && [ "${TERM-dumb}" != dumb ] && command -v awk >/dev/null; then
        "$program" "$@" | coloured
        exit "${PIPESTATUS[0]}"
      fi
      ;;&
    *)
      if [ -p /dev/stdout ] && [ -z "${TEREDO_QUIET-}" ]; then
        exec 3>&1
        "$program" "$@" 2>&1 >&3 3>&- | without_noise >&2
        exit "${PIPESTATUS[0]}"
      fi
      ;;
  esac
  [ -z "${TEREDO_QUIET-}" ] || exec 2>/dev/null   # a tool asks, and says itself what a status means
  exec "$program" "$@"
}

# The name of a file in the folder of a trial: its own, where that may stand there.
trial_name() {
  local name=${1##*/}
  case $name in
    program | stdin | stdout | stderr | case | -* | *[!A-Za-z0-9_.-]*) name=scenario.toml ;;
  esac
  echo "$name"
}

# Says why a trial has no answer, from what it said, and ends: its limits in plain words, and all that it said of sources
# that can't be run.
tell_none() {
  local reason
  reason=$(sed -n 's/^checked: \(no-answer: \)\{0,1\}//p' "$1" | tail -n 1)
  case $reason in
    *'wrote more than'*) ask_for_build 'a trial writes at most 1 MiB, and this answer is longer' ;;
    *seconds* | *time*) ask_for_build "a trial runs for a minute at most, and this takes longer ($reason)" ;;
  esac
  grep -v -e '^run=' -e '^checked: ' -e '^interpreter: ' "$1" | head -n 60 >&2
  [ -n "$reason" ] || reason="these sources can't be run"
  say "there is no answer: $reason"
  exit "$not_built"
}

# Says how long it takes so far, once a second, to somebody at a terminal; and ends that.
tick() {
  local begun=$SECONDS
  while sleep 1; do
    printf '\rteredo: %d s so far ' $((SECONDS - begun)) >&2
  done
}

stop_ticking() {
  [ -n "$ticker" ] || return 0
  kill "$ticker" 2>/dev/null
  wait "$ticker" 2>/dev/null
  ticker=
  printf '\r%30s\r' '' >&2
}

# Plays the words on the sources as they stand, without a proof.
try_unproved() {
  local name words=("$@") data=() status
  command -v rt >/dev/null || {
    say "the program isn't built, and there is no command rt on the PATH: put the bin folder of Rattle's kit there, or install a package"
    say 'without either, Python alone reads the reports of examples/: ./teredo flow examples/scenarios/cone_client.toml.stdout'
    exit "$not_built"
  }
  scratch=$(mktemp -d) || exit "$not_built"
  ticker=
  trap 'stop_ticking; rm -rf "$scratch"' EXIT
  trap 'exit 130' INT
  trap 'exit 143' TERM HUP
  case $1 in
    lab | nested | reach | follow | state | wire)
      name=$(trial_name "$2")
      cat -- "$2" >"$scratch/given" || exit "$unreadable"
      words[1]=$name
      data=(--data "$name=$scratch/given")
      ;;
  esac
  say "the program isn't built from these sources, so they are played as they stand: NOTHING OF THIS ANSWER IS PROVED"
  say "it takes a minute or two; ./teredo build proves and builds, once, in less than an hour on four processors, and an answer then takes 20 ms"
  [ ! -t 2 ] || { tick </dev/null >/dev/null & ticker=$!; }
  (cd -- "$crate" && exec rt try "${data[@]}" -- "${words[@]}") </dev/null >"$scratch/written" 2>"$scratch/said"
  stop_ticking
  status=$(sed -n 's/^run=ended status=\([0-9]*\) .*proved=no$/\1/p' "$scratch/said")
  [ -n "$status" ] || tell_none "$scratch/said"
  [ -n "${TEREDO_QUIET-}" ] || grep -v -e '^checked: ' -e '^run=ended ' -e '^interpreter: ' "$scratch/said" >&2
  cat "$scratch/written" || status=5
  exit "$status"
}

# Answers by the built program, always where there is one; else by a trial, where the words may have one.
answer() {
  if is_built; then
    case $1 in
      audit | explain) judge "$@" ;;
    esac
    run_program "$@"
  fi
  case ${TEREDO_PROVED:-0} in
    0) ;;
    *) ask_for_build "the program isn't built from these sources, and nothing unproved may answer here" ;;
  esac
  case $1 in
    lab | nested | reach | follow | state | show | gen | wire) try_unproved "$@" ;;
    *) ask_for_build "the program isn't built from these sources, and \`$1\` is answered by the built program alone" ;;
  esac
}
