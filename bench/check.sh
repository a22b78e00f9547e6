#!/bin/sh
# Times `eco check` on a base of 970,000 components, 32,768 of them idle spares, with a library and a functions file of 1,000
# masters, and on its half, beside `wc -w` and, where they are installed, KLayout, Magic and qrouter on the same LEF and
# DEF. Each line has the least of five runs; a run of another program of more than a minute is stopped. Call it at the
# top of the repository with the built program: bench/check.sh PROGRAM [GATES SPARES]
set -e
program=$1
gates=${2:-937232}
spares=${3:-32768}
folder=$(mktemp -d)
trap 'rm -rf "$folder"' EXIT
def=$folder/big.def
half=$folder/half.def
. bench/base.sh
. bench/readers.sh

check() {
    measure --says "stock $3" "$1" "$program" check --lef "$lef" --def "$2" --functions "$functions" --desk "$desk"
}

python3 bench/gates.py "$gates" "$spares" >"$def"
python3 bench/gates.py $((gates / 2)) $((spares / 2)) >"$half"
bytes=$(wc -c <"$def")
echo "library: $(wc -c <"$lef") bytes; functions: $(wc -c <"$functions") bytes"
echo "design: $((gates + spares)) components, $spares of them spares, $bytes bytes; half of it: $(wc -c <"$half") bytes"
LC_ALL=C measure "wc -w" wc -w "$def" >"$folder/words.line"
check "eco check of the half" "$half" $((spares / 2)) >"$folder/half.line"
check "eco check" "$def" "$spares" >"$folder/whole.line"
cat "$folder/words.line" "$folder/half.line" "$folder/whole.line"
echo "$(times_user "$folder/whole.line" "$folder/words.line") times the time of wc -w (at most 8)"
echo "$(times_user "$folder/whole.line" "$folder/half.line") times the time of the half"
sed 's/.*memory *//; s/ .*//' "$folder/whole.line" | awk -v bytes="$bytes" \
    '{ printf "memory: %.2f times the bytes of the design (less than 8)\n", $1 * 1048576 / bytes }'
others
