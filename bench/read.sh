#!/bin/sh
# Times the reading of a library of 1,000 macros and of designs of 500,000 and 1,000,000 components without routes, and of
# 200,000 and 400,000 with them, beside `wc -w` and, where they are installed, KLayout, Magic and qrouter on the same
# files. `eco check` reads the LEF and the DEF whole, and stops at a functions file that is no TOML document. Each line has the
# least of five runs; a run of more than a minute is stopped. Call it at the top of the repository with the built program:
# bench/read.sh PROGRAM
set -e
program=$1
folder=$(mktemp -d)
trap 'rm -rf "$folder"' EXIT
lef=$folder/big.lef
def=$folder/big.def
half=$folder/half.def
broken=$folder/broken.toml
. bench/readers.sh

# The user time of reading the library and a design.
reading() {
    measure --status 1 --says BadToml "$1" "$program" check --lef "$lef" --def "$2" --functions "$broken" --desk "$broken"
}

# One design, and its half beside it.
design() {
    python3 bench/design.py $(($1 / 2)) $2 >"$half"
    python3 bench/design.py "$1" $2 >"$def"
    echo "design $1 $2: $(wc -c <"$def") bytes; half of it: $(wc -c <"$half") bytes"
    LC_ALL=C measure "wc -w" wc -w "$def"
    reading "eco check of the half" "$half" | tee "$folder/half.line"
    reading "eco check" "$def" | tee "$folder/whole.line"
    echo "$(times_user "$folder/whole.line" "$folder/half.line") times the time of the half"
    others
}

python3 bench/library.py 1000 >"$lef"
printf '[' >"$broken"
echo "library: $(wc -c <"$lef") bytes"
design 1000000
design 400000 routed
