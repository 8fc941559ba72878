# The time of a command, for the scripts beside it. To be sourced.

# Milliseconds of the fastest of five runs of a command.
least() {
    local best=0
    for _ in 1 2 3 4 5; do
        local start=$(date +%s%N)
        "$@" >/dev/null
        local took=$((($(date +%s%N) - start) / 1000000))
        if [ "$best" -eq 0 ] || [ "$took" -lt "$best" ]; then best=$took; fi
    done
    echo "$best"
}
