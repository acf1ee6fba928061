# Sourced by the scripts beside it: the least time of the processor, user and system, that $program takes with the words given.
TIMEFORMAT='%3U %3S'

# Microseconds, the least of five runs.
best() {
    local least=999999999 took
    for _ in 1 2 3 4 5; do
        took=$({ time "$program" "$@" >/dev/null; } 2>&1 | awk '{ printf "%.0f", ($1 + $2) * 1000000 }')
        if [ "$took" -lt "$least" ]; then least=$took; fi
    done
    echo "$least"
}
