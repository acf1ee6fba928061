#!/usr/bin/env bash
# How long a MUF program takes to append 10,000 items one by one to a list, to set each of 10,000 items of a list through a variable, and
# to put 10,000 keys into a dictionary and read each, and how many times longer than for 5,000 (at most 2.3). Times are of the processor,
# the least of five runs. First run `rt run -- all` in crates/bench, which builds the program; its arguments behind `arrays` are which
# program and how many items.
set -eu
program=${BENCH:-$(dirname "$0")/../crates/bench/out/bench}
items=10000

. "$(dirname "$0")/timing.sh"

status=0
for word in append set keys; do
    start=$(best arrays "$word" 1 0)
    half=$(best arrays "$word" $((items / 2)) 0)
    whole=$(best arrays "$word" "$items" 0)
    awk -v name="$word" -v start="$start" -v half="$half" -v whole="$whole" -v items="$items" 'BEGIN {
        ratio = (whole - start) / (half - start + 1)
        printf "%s: %.3f us an item of %d; %.2f times of half as many (at most 2.3)\n", name, (whole - start) / items, items, ratio
        exit ratio <= 2.3 ? 0 : 1
    }' || status=1
done
exit $status
