#!/usr/bin/env bash
# How long the calls of the database take, in a world of nearly 100,000 objects, and how many times longer where there is
# twice as much to do; and how much memory an object takes that has a name alone (at most 0.5 kB).
# Times are of the processor, user and system, so what runs beside it counts little. First run `rt run -- all` in crates/bench,
# which builds the program; its arguments behind `db` are how many things, moves, rooms and searches. Needs /usr/bin/time.
set -eu
program=${BENCH:-$(dirname "$0")/../crates/bench/out/bench}

. "$(dirname "$0")/timing.sh"

# A line of the report: what, microseconds for so many, and microseconds for twice as many.
report() {
    awk -v name="$1" -v count="$2" -v once="$3" -v twice="$4" \
        'BEGIN { printf "%s: %.1f ms, %.2f us each; twice as many take %.2f times as long\n", name, once / 1000, once / count, twice / once }'
}

bare=$(best db 0 0 0 0)
half=$(($(best db 49990 0 0 0) - bare))
whole=$(best db 99980 0 0 0)
report "49,990 creations" 49990 "$half" $((whole - bare))

some=$(best db 2 0 0 0)
report "1,000,000 moves of 2 things" 1000000 $(($(best db 2 1000000 0 0) - some)) $(($(best db 2 2000000 0 0) - some))
some=$(best db 1000 0 0 0)
report "100,000 moves of 1,000 things, always the last of its list" 100000 \
    $(($(best db 1000 100000 0 0) - some)) $(($(best db 1000 200000 0 0) - some))

# the things and the rooms and exits together are as many objects each time
some=$(best db 95996 0 0 0)
report "1,000 recyclings of linked rooms among 100,000 objects" 1000 \
    $(($(best db 97996 0 1000 0) - some)) $(($(best db 95996 0 2000 0) - some))

report "100 searches for a player among 99,984 objects" 100 \
    $(($(best db 99980 0 0 100) - whole)) $(($(best db 99980 0 0 200) - whole))

peak=$({ /usr/bin/time -f %M "$program" db 99980 0 0 0 >/dev/null; } 2>&1)
awk -v peak="$peak" 'BEGIN {
    bytes = peak * 1024 / 99984
    printf "memory: %.1f MB at most for 99,984 objects, %.0f bytes an object (at most 500)\n", peak / 1024, bytes
    exit bytes <= 500 ? 0 : 1
}'
