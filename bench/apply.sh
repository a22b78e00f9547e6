#!/bin/sh
# Times `eco apply` on bases of about 500,000 and 1,000,000 gates (as many as a DEF may have nets) and one spare, beside
# `eco check` of the base, `eco move` and `wc -w` on the same text. Call it at the top of the repository with the built program:
# bench/apply.sh PROGRAM [N ..]
set -e
program=$1
shift
folder=$(mktemp -d)
trap 'rm -rf "$folder"' EXIT
def=$folder/big.def
. bench/base.sh

on_base() {
    command=$1
    shift
    python3 bench/measure.py "eco $command" "$program" "$command" --lef "$lef" --def "$def" --functions "$functions" \
        --desk "$desk" "$@"
}

for count in ${*:-499994 999988}; do
    python3 bench/gates.py "$count" >"$def"
    echo "file $(wc -c <"$def") bytes, $count gates"
    last=$((count - 1))
    from=$(grep -m 1 "( u$last A )" "$def" | cut -d ' ' -f 2)
    LC_ALL=C python3 bench/measure.py "wc -w" wc -w "$def"
    python3 bench/measure.py "eco move" "$program" move --def "$def" --comp "u$last" --pin A \
        --from "$from" --to i0 --out "$folder/moved.def"
    on_base check
    on_base apply --spare SP_1 --table 0001 --inputs "i0,$from" --pins 1,i0,i1 --output patch \
        --comp "u$last" --pin A --from "$from" --out "$folder/patched.def"
    echo "statements that differ: $(diff "$def" "$folder/patched.def" | grep -c '^>')"
done
