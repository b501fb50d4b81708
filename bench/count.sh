#!/usr/bin/env bash
# Counts the instructions of one call on both sides, as the difference between N calls and twice as many.
#     bench/count.sh CALL SHEET [N]
# CALL and SHEET are those of `measure once`; `step` is a trace without its start, for each of its steps. It needs valgrind, and what
# run.sh has built.
set -eu
cd "$(dirname "$0")"
call=$1 sheet=$2 count=${3:-10}

# The instructions of a program that makes so many calls.
total() {
    valgrind --tool=callgrind --callgrind-out-file=/dev/null link/target/release/measure once "$@" 2>&1 |
        sed -n 's/.*refs: *//p' | tr -d ,
}

# The instructions of one call.
each() {
    local once twice
    once=$(total "$1" "$2" "$sheet" "$count")
    twice=$(total "$1" "$2" "$sheet" $((2 * count)))
    echo $(((twice - once) / count))
}

for side in plain proved; do
    if [ "$call" = step ]; then
        all=$(each "$side" trace) start=$(each "$side" start)
        echo "$side step $sheet: $(((all - start) / 1000)) instructions"
    else
        echo "$side $call $sheet: $(each "$side" "$call") instructions"
    fi
done
