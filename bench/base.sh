# The LEF, the functions file and the desk file of a base whose design bench/gates.py writes. A script that measures sets
# folder, and then reads this file. The library has 1,000 masters, each with a table in the functions file.

lef=$folder/big.lef
functions=$folder/functions.toml
desk=$folder/desk.toml

python3 bench/library.py 1000 >"$lef"
awk '/^MACRO/ { printf "[%s]\ninputs = [\"A\", \"B\", \"C\"]\noutputs = { Y = \"00000001\" }\n\n", $2 }' "$lef" >"$functions"
printf 'tie_high = "VDD"\ntie_low = "VSS"\nspares = ["SP_"]\n' >"$desk"
