#!/bin/sh
# Runs `eco check` on the files of this folder by `rt try`, which compiles the program and proves nothing.
set -e
cd "$(dirname "$0")/../crates/eco_host"
files=../../examples
rt try --data small.lef=$files/small.lef --data small.def=$files/small.def --data small.toml=$files/small.toml \
    --data desk.toml=$files/desk.toml -- check --lef small.lef --def small.def --functions small.toml --desk desk.toml
