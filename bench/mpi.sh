#!/usr/bin/env bash
# Times formulas: commands a second of nested sums and of a loop, how many times longer a text of 4,096 bytes takes than one of half, and what a search and a
# replacement of a long part in a text of 4,096 bytes take, where the part nearly stands at each place. Each formula is a row of crates/tests_mpi_rows, many
# times over, less the time of the program without rows; 64 functions stand one in another on a stack of 8 MB. First run `rt run` in crates/tests_mpi_rows,
# which builds the program.
set -eu
program=$(dirname "$0")/../crates/tests_mpi_rows/out/tests_mpi_rows
ulimit -s 8192
rows=$(mktemp)
trap 'rm -f "$rows"' EXIT
TIMEFORMAT='%3U %3S'

# Microseconds of the processor, the least of five runs, for a row so many times.
best() {
    local least=999999999 took
    yes "$1" | head -n "$2" >"$rows" || true
    for _ in 1 2 3 4 5; do
        took=$({ time "$program" <"$rows" >/dev/null; } 2>&1 | awk '{ printf "%.0f", ($1 + $2) * 1000000 }')
        if [ "$took" -lt "$least" ]; then least=$took; fi
    done
    echo "$least"
}

idle=$(best '# nothing' 1)
sums=$(best 'nest 63;{add:1,;1;}' 2000)
loop=$(best 'eval {for:i,1,1023,1,{&i}}' 100)
whole=$(best 'nest 4096;a;;' 1000)
half=$(best 'nest 2048;a;;' 1000)
doubled='{with:x,a,{null:{for:i,1,11,1,{set:x,{&x}{&x}}}}{with:y,{&x}b,{null:{for:i,1,500,1,'
instr=$(best "eval $doubled{instr:{&x}{&x},{&y}}}}}}" 1)
subst=$(best "eval $doubled{subst:{&x}{&x},{&y},c}}}}}" 1)
deep=$(printf 'nest 64;{not:;1;}\n' | "$program")
awk -v idle="$idle" -v sums="$sums" -v loop="$loop" -v whole="$whole" -v half="$half" -v instr="$instr" -v subst="$subst" 'BEGIN {
    printf "nested sums: %.0f commands a second\n", 63 * 2000 / ((sums - idle) / 1000000)
    printf "a loop: %.0f commands a second\n", 2047 * 100 / ((loop - idle) / 1000000)
    printf "a text of 4,096 bytes: %.2f times one of 2,048\n", (whole - idle) / (half - idle)
    printf "a search of 2,049 bytes in 4,096: %.0f microseconds, a replacement: %.0f\n", (instr - idle) / 500, (subst - idle) / 500
}'
echo "64 deep: $deep"
