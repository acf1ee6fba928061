#!/usr/bin/env bash
# How fast a MUF source is read and compiled: words per second of a source of 4,096 lines, and the ratio of its time to that
# of one of half as many lines (at most 2.3). The best of five runs each. First run `rt run -- all` in crates/bench, which
# builds the program.
program=$(dirname "$0")/../crates/bench/out/bench
rounds=40
# Milliseconds of the best of five runs over a source of so many lines.
best() {
  local least=999999999
  for _ in 1 2 3 4 5; do
    local begun ended
    begun=$(date +%s%N)
    "$program" compile "$1" "$rounds" >/dev/null || exit 1
    ended=$(date +%s%N)
    local took=$(((ended - begun) / 1000000))
    [ "$took" -lt "$least" ] && least=$took
  done
  echo "$least"
}
words=$("$program" compile 4094 "$rounds" | cut -d' ' -f1)
whole=$(best 4094)
half=$(best 2046)
awk -v words="$words" -v whole="$whole" -v half="$half" 'BEGIN {
  ratio = whole / half
  printf "4,096 lines: %.0f words per second; ratio to 2,048 lines %.2f (at most 2.3)\n", words * 1000 / whole, ratio
  exit ratio <= 2.3 ? 0 : 1
}'
