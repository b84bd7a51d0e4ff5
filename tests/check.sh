#!/usr/bin/env bash
# check.sh [PROGRAM]: plays each scenario of examples/, with its chain of NATs each of chains/, and shows each datagram with the
# built program, compares what it writes with the file NAME.stdout beside it, and its exit status with NAME.status (0 where there
# is no such file). Then makes each table of stored/ anew and compares: every pair of NAT kinds, every NAT behind a NAT, an entry
# of each weight, a first packet in every order, and one to and from the IPv6 Internet, every pair of faults, every scenario's
# capture and its audit, of every example who reaches whom, and what the server answers to each vector. At last makes the
# examples' datagrams and compares them with the files, and plays what the documents quote.
# Ends with the line 'N passed, M failed, K skipped', and with status 1 where one failed or none was played.
set -u
here=$(cd -- "$(dirname -- "${BASH_SOURCE[0]}")" >/dev/null && pwd) || exit 1
program=${1:-$here/../crates/teredo_cli/out/teredo_cli}
seconds=60
if [ ! -x "$program" ]; then
  echo "$program: no program"
  exit 1
fi
program=$(readlink -f -- "$program")

# compare INPUT WORDS..: says what differs, and answers whether nothing does.
compare() {
  local input=$1 wanted=0 status
  shift
  [ ! -f "$input.status" ] || wanted=$(cat "$input.status")
  timeout "$seconds" "$program" "$@" </dev/null >"$made" 2>/dev/null
  status=$?
  diff -u --label "$input.stdout" --label 'as played' "$input.stdout" "$made" || return 1
  [ "$status" -eq "$wanted" ] || { echo "status $status, wanted $wanted"; return 1; }
}

# try INPUT WORDS..: compares, and counts.
try() {
  if compare "$@"; then
    passed=$((passed + 1))
  else
    failed=$((failed + 1))
    echo "$1 differs"
  fi
}

# run WORDS..: runs a script, named from this folder, and counts.
run() {
  if "$here/$1" "${@:2}"; then
    passed=$((passed + 1))
  else
    failed=$((failed + 1))
    echo "$1 differs"
  fi
}

made=$(mktemp) || exit 1
trap 'rm -f "$made"' EXIT
cd "$here/../examples" || exit 1
passed=0
failed=0
for scenario in scenarios/*.toml; do
  try "$scenario" lab "$scenario"
done
for scenario in chains/*.toml; do
  try "$scenario" nested "$scenario" "$(sed -n 's/^# chain: //p' "$scenario")"
done
for datagram in datagrams/*.hex; do
  try "$datagram" show "$(cat "$datagram")"
done
run ../tools/pairs.py --check "$program"
run nested.py --check "$program"
run storms.py --check "$program"
run orders.py --check "$program"
run relayed.py --check "$program"
run faults.py --check "$program"
run captures.py --check "$program"
run reaching.py --check "$program"
run vectors.py --check "$program"
run make.py --check
run quoted.py "$program"
echo "$passed passed, $failed failed, 0 skipped"  # it wants nothing that may be missing
[ "$failed" -eq 0 ] && [ "$passed" -gt 0 ]
