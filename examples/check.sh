#!/bin/sh
# Opens the base of small.lef, small.def, small.toml and desk.toml, and counts what it has.
set -e
cd "$(dirname "$0")"
../eco check --lef small.lef --def small.def --functions small.toml --desk desk.toml
