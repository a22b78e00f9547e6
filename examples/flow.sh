#!/bin/sh
# From a tool's DEF to an issued one (docs/FLOW.md): prepares prepare/raw.def, opens its base, puts an inverter of the net n1 on a spare,
# and looks at what was written.
set -e
cd "$(dirname "$0")"
folder=$(mktemp -d)
trap 'rm -rf "$folder"' EXIT

# The tool's DEF in the form that eco reads.
python3 prepare/merge_special.py prepare/raw.def "$folder/merged.def"
python3 prepare/supply_use.py "$folder/merged.def" "$folder/used.def" --power VDD --ground VSS
python3 prepare/pin_directions.py "$folder/used.def" prepare/directions.txt "$folder/directed.def"
python3 prepare/spare_prefixes.py "$folder/directed.def" prepare/spares.txt --rename SP_ "$folder/chip.def"

base() {
    ../eco check --lef small.lef --def "$1" --functions small.toml --desk desk.toml
}

# The base, the order, and the base of the result: one spare less in stock, one net more.
base "$folder/chip.def"
../eco apply --lef small.lef --def "$folder/chip.def" --functions small.toml --desk desk.toml --spare SP_pad7 --table 10 \
    --inputs b --pins 1,i0 --output b_n --comp u1 --pin B --from b --out "$folder/patched.def"
diff "$folder/chip.def" "$folder/patched.def" || true
base "$folder/patched.def"
