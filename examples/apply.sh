#!/bin/sh
# Puts an inverter of the net n1 on the spare SP_1 of small.def, and moves D of r1 from n2 to its output m1. The result is
# patched.def, whose base has one spare less in stock. A second order for that spare is refused there.
set -e
cd "$(dirname "$0")"
order() {
    ../eco apply --lef small.lef --def "$1" --functions small.toml --desk desk.toml --spare SP_1 --table 10 --inputs n1 \
        --pins 1,i0 --output "$2" --comp r1 --pin D --from "$3" --out "$4"
}
order small.def m1 n2 patched.def
diff small.def patched.def || true
../eco check --lef small.lef --def patched.def --functions small.toml --desk desk.toml
order patched.def m2 m1 refused.def || echo "status $?"
