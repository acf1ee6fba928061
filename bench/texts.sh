#!/usr/bin/env bash
# How long EXPLODE, SUBST and INSTR take over a text of 4,096 bytes with 512 commas, and how many times longer than over one of half as
# many bytes (at most 2.3). Times are of the processor, the least of five runs of 1,000 rounds. First run `rt run -- all` in
# crates/bench, which builds the program; its arguments behind `arrays` are which primitive, how often a text of 8 bytes is doubled,
# and how many rounds.
set -eu
program=${BENCH:-$(dirname "$0")/../crates/bench/out/bench}
rounds=1000

. "$(dirname "$0")/timing.sh"

status=0
for word in explode subst instr; do
    start=$(best arrays "$word" 9 1)
    half=$(best arrays "$word" 8 "$rounds")
    whole=$(best arrays "$word" 9 "$rounds")
    awk -v name="$word" -v start="$start" -v half="$half" -v whole="$whole" -v rounds="$rounds" 'BEGIN {
        ratio = (whole - start) / (half - start + 1)
        printf "%s: %.2f us over 4,096 bytes; %.2f times of half as many (at most 2.3)\n", name, (whole - start) / rounds, ratio
        exit ratio <= 2.3 ? 0 : 1
    }' || status=1
done
exit $status
