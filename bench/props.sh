#!/bin/sh
# Times `put` and `next` over the properties of one object: 1,000 of them against 10,000, as many calls of each.
# Prints the time of a call in nanoseconds, and how many times longer it takes with ten times the properties.
# First run `rt run -- all` in crates/bench, which builds the program. The figures want a quiet processor:
# what runs beside it takes the caches that the larger object needs.
set -eu
program=$(dirname "$0")/../crates/bench/out/bench
calls=400000

# Microseconds of a run over so many properties, with so many walks.
microseconds() {
    begun=$(date +%s%N)
    "$program" props "$1" $((calls / $1)) "$2" >/dev/null
    echo $((($(date +%s%N) - begun) / 1000))
}

least() { if [ "$1" -lt "$2" ]; then echo "$1"; else echo "$2"; fi; }

few_put=999999999 many_put=999999999 few_both=999999999 many_both=999999999
for _ in 1 2 3 4 5 6 7 8; do
    few_put=$(least "$few_put" "$(microseconds 1000 0)")
    many_put=$(least "$many_put" "$(microseconds 10000 0)")
    few_both=$(least "$few_both" "$(microseconds 1000 1)")
    many_both=$(least "$many_both" "$(microseconds 10000 1)")
done

report() {
    awk -v name="$1" -v few="$2" -v many="$3" -v calls="$calls" \
        'BEGIN { printf "%s: %.0f ns at 1,000, %.0f ns at 10,000, ratio %.2f\n", name, few * 1000 / calls, many * 1000 / calls, many / few }'
}
report put "$few_put" "$many_put"
report next $((few_both - few_put)) $((many_both - many_put))
