#!/usr/bin/env bash
# Units per second of MUF programs over ten million units: an empty counted loop (a turn is three units), a loop of
# `dup 1 + swap pop`, and a loop of calls of a word that does nothing. The empty loop is compared with gforth-itc, the threaded
# interpreter of Debian's gforth, in the same run (skipped where it is missing): turns per second, of which at least a tenth is
# the aim. First run `rt run -- all` in crates/bench, which builds the program. The best of five runs each.
program=${BENCH:-$(dirname "$0")/../crates/bench/out/bench}
units=10000000
# Milliseconds of the best of five runs of these words.
best() {
  local least=999999999
  for _ in 1 2 3 4 5; do
    local begun ended took
    begun=$(date +%s%N)
    "$@" >/dev/null || exit 1
    ended=$(date +%s%N)
    took=$(((ended - begun) / 1000000))
    [ "$took" -lt "$least" ] && least=$took
  done
  echo "$least"
}
start=$(best "$program" units loop 1)
for name in loop stack call; do
  took=$(best "$program" units "$name" "$units")
  awk -v name="$name" -v units="$units" -v took="$took" -v start="$start" \
    'BEGIN { printf "%s: %.1f million units per second\n", name, units / (took - start) / 1000 }'
  [ "$name" = loop ] && loop=$((took - start))
done
if command -v gforth-itc >/dev/null; then
  turns=$((units / 3))
  begin=$(best gforth-itc -e "bye")
  # gforth's turns: its own empty loop, and one that takes the index off as FOR's does; ten times as many for a time that can
  # be read
  for body in "" "i drop"; do
    took=$(best gforth-itc -e ": turns $((turns * 10)) 0 do $body loop ; turns bye")
    awk -v turns="$turns" -v loop="$loop" -v took="$((took - begin))" -v body="$body" 'BEGIN {
      ours = turns / loop
      theirs = turns * 10 / took
      printf "empty loop: %.1f million turns per second; gforth-itc with \"do %s loop\" %.1f, a %.2f part (the aim is 0.10)\n", ours / 1000, body, theirs / 1000, ours / theirs
    }'
  done
else
  echo "gforth-itc is missing: not compared"
fi
