#!/bin/sh
# Times `eco move` on a design of 500,000 components, 500,000 nets and 2,000,000 joints, and on one of twice that,
# beside programs that read the same bytes. Each line has the least of three runs. Call it at the top of the repository
# with the built program:
# bench/move.sh PROGRAM [N ..]
set -e
program=$1
shift
folder=$(mktemp -d)
trap 'rm -rf "$folder"' EXIT
for count in ${*:-500000 1000000}; do
    python3 bench/design.py "$count" >"$folder/big.def"
    from=$((count / 3))
    comp=$(((from * 7919 + 11) % count))
    to=$((count / 2))
    echo "file $(wc -c <"$folder/big.def") bytes"
    LC_ALL=C python3 bench/measure.py --times 3 "wc -w" wc -w "$folder/big.def"
    python3 bench/measure.py --times 3 "sha256sum" sha256sum "$folder/big.def"
    python3 bench/measure.py --times 3 "eco move" "$program" move --def "$folder/big.def" --comp "u$comp" --pin A \
        --from "n$from" --to "n$to" --out "$folder/moved.def"
    echo "statements that differ: $(diff "$folder/big.def" "$folder/moved.def" | grep -c '^>')"
done
