#!/usr/bin/env bash
# How many units a second a MUF program takes, of a million, that writes properties, that reads them, that moves and names an
# object, or that does all these; and how many times longer a turn of SETPROP and one of GETPROP take where the object has
# 10,000 properties than where it has 10 (at most 1.6). Times are of the processor, the least of five runs. First run
# `rt run -- all` in crates/bench, which builds the program; its arguments behind `prims` are which program, how many units and
# how many properties.
set -eu
program=${BENCH:-$(dirname "$0")/../crates/bench/out/bench}
units=1000000

. "$(dirname "$0")/timing.sh"

# Microseconds that this program takes for the units alone, where the object has so many properties.
spent() {
    echo $(($(best prims "$1" "$units" "$2") - $(best prims "$1" 0 "$2")))
}

for word in move all; do
    awk -v name="$word" -v took="$(spent "$word" 10)" -v units="$units" \
        'BEGIN { printf "%s: %.1f million units per second\n", name, units / took }'
done
status=0
# a turn of either is five units
for word in put get; do
    few=$(spent "$word" 10)
    many=$(spent "$word" 10000)
    awk -v name="$word" -v few="$few" -v many="$many" -v units="$units" 'BEGIN {
        printf "%s: %.1f million units per second; %.3f us a turn with 10 properties, %.3f us with 10,000: %.2f times (at most 1.6)\n", name, units / few, few * 5 / units, many * 5 / units, many / few
        exit many <= 1.6 * few ? 0 : 1
    }' || status=1
done
exit $status
