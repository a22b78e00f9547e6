#!/bin/sh
# Brings raw.def into the form that eco reads, one trouble after another, and shows what each script changed. The last text
# is that of prepared.def.
set -e
cd "$(dirname "$0")"
folder=$(mktemp -d)
trap 'rm -rf "$folder"' EXIT

shown() {
    diff "$1" "$2" || true
}

python3 merge_special.py raw.def "$folder/merged.def"
shown raw.def "$folder/merged.def"
python3 supply_use.py "$folder/merged.def" "$folder/used.def" --power VDD --ground VSS
shown "$folder/merged.def" "$folder/used.def"
python3 pin_directions.py "$folder/used.def" directions.txt "$folder/directed.def"
shown "$folder/used.def" "$folder/directed.def"
python3 spare_prefixes.py "$folder/directed.def" spares.txt
python3 spare_prefixes.py "$folder/directed.def" spares.txt --rename SP_ "$folder/renamed.def"
shown "$folder/directed.def" "$folder/renamed.def"
cmp "$folder/renamed.def" prepared.def
