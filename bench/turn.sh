#!/usr/bin/env bash
# Times passes that enter and leave one turn, in 1, 2 and 4 threads, beside threads that lock and unlock std's Mutex at
# the same work, in one run: with nothing but a count done inside, and with 100,000 rounds of work inside (some 13
# microseconds). Three runs of each.
set -eu
cd "$(dirname "$0")/../crates/turn_bench"
rt run -- 1000 10 >/dev/null 2>&1
for run in 1 2 3; do
    for work in "1000000 0" "20000 100000"; do
        echo "pairs of each thread, rounds inside: $work (load $(cut -d' ' -f1 /proc/loadavg))"
        # shellcheck disable=SC2086
        ./out/turn_bench $work times
    done
done
