# Other programs that read LEF and DEF, where they are installed: KLayout, Magic and qrouter. A script that measures sets
# folder, lef and def, and then reads this file: it writes their scripts to the folder.

cat >"$folder/klayout.rb" <<'END'
options = RBA::LoadLayoutOptions::new
options.lefdef_config.lef_files = [$lef]
options.lefdef_config.read_lef_with_def = false
layout = RBA::Layout::new
layout.read($def, options)
puts "instances #{layout.top_cell.child_instances}"
END

printf 'lef read %s\ndef read %s\nquit -noprompt\n' "$lef" "$def" >"$folder/magic.tcl"

# Magic needs a technology that has the library's layers.
cat >"$folder/metal.tech" <<'END'
tech
    format 28
    metal
end
version
    version 0.0
    description "two layers of metal"
end
planes
    metal1
    metal2
end
types
    metal1 m1
    metal2 m2
    metal1 v1
end
contact
    v1 m1 m2
end
styles
    styletype mos
    m1 1
    m2 2
    v1 3
end
compose
end
connect
    m1,v1 m1,v1
    m2,v1 m2,v1
end
cifoutput
style metal
    scalefactor 5 nanometers
    layer M1 m1,v1
        calma 1 0
    layer M2 m2,v1
        calma 2 0
end
cifinput
end
drc
    width m1 2 "M1 width"
    width m2 2 "M2 width"
    width v1 2 "V1 width"
    spacing m1 m1 2 touching_ok "M1 spacing"
    spacing m2 m2 2 touching_ok "M2 spacing"
end
lef
    routing m1 M1 m1
    routing m2 M2 m2
    cut v1 V1 v1
end
extract
style metal
    lambda 1
    step 100
end
END

printf 'verbose 0\nread_lef %s\nread_def %s\nquit\n' "$lef" "$def" >"$folder/qrouter.tcl"

# The least of five runs.
measure() {
    python3 bench/measure.py --times 5 "$@"
}

# Each of them on the LEF and the DEF; a run of more than a minute is stopped.
others() {
    if command -v klayout >/dev/null; then
        measure --limit 60 --says instances "klayout" klayout -b -r "$folder/klayout.rb" -rd lef="$lef" -rd def="$def"
    fi
    if command -v magic >/dev/null; then
        measure --limit 60 --says "DEF read: Processed" "magic" magic -dnull -noconsole -T "$folder/metal.tech" "$folder/magic.tcl"
    fi
    if command -v qrouter >/dev/null; then
        measure --limit 60 "qrouter" qrouter -nog -s "$folder/qrouter.tcl"
    fi
}

# How many times the user time of the line in a file is that of the line in another.
times_user() {
    cat "$2" "$1" | sed 's/.*user *//; s/ .*//' | tr '\n' ' ' | awk '{ printf "%.2f", $2 / $1 }'
}
