#!/usr/bin/env bash
# How long it takes to say something in a room of three players, with 300 and with 3,000 other objects there (at most 1.2
# times as long), and to look around, which is linear in what it lists. Times are of the processor, the least of five runs.
# First run `rt run -- all` in crates/bench, which builds the program; its arguments behind `talk` are how many things, lines
# and looks.
set -eu
program=${BENCH:-$(dirname "$0")/../crates/bench/out/bench}

. "$(dirname "$0")/timing.sh"

few=$(($(best talk 300 300000 0) - $(best talk 300 0 0)))
many=$(($(best talk 3000 300000 0) - $(best talk 3000 0 0)))
look_few=$(($(best talk 300 0 3000) - $(best talk 300 0 0)))
look_many=$(($(best talk 3000 0 3000) - $(best talk 3000 0 0)))
awk -v few="$few" -v many="$many" -v a="$look_few" -v b="$look_many" 'BEGIN {
    printf "say: %.2f us with 300 objects in the room, %.2f us with 3,000: %.2f times (at most 1.2)\n", few / 300000, many / 300000, many / few
    printf "look: %.1f us with 300 objects in the room, %.1f us with 3,000: %.1f times\n", a / 3000, b / 3000, b / a
    exit many <= 1.2 * few ? 0 : 1
}'
