#!/bin/sh
# Moves one pin of small.def: D of r1 goes from the net n2 to the net n1. The result is moved.def.
set -e
cd "$(dirname "$0")"
../eco move --def small.def --comp r1 --pin D --from n2 --to n1 --out moved.def
diff small.def moved.def || true
