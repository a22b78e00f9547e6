#!/usr/bin/env bash
# Times the matching of 128 gates onto 32,768 spares, where each gate may have each spare, with costs
# that are often the same and with costs that make each phase reach all matched gates; beside them
# scipy's linear_sum_assignment on the same costs, where the Python that PYTHON names (python3 if none) has scipy.
set -eu
cd "$(dirname "$0")/../crates/match_bench"
rt run -- 3 4 remainders >/dev/null 2>&1
for costs in remainders products; do
    echo "$costs:"
    ./out/match_bench 128 32768 "$costs" times
    "${PYTHON:-python3}" ../../bench/match.py 128 32768 "$costs"
done
