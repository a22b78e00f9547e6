#!/usr/bin/env python3
"""Writes a placed netlist of N gates of three inputs, and spares, as DEF: gates.py N [SPARES] > FILE.

Each gate reads three nets at inputs or behind earlier gates, so that no signal runs in a circle; which ones is a fixed
rule, so each run writes the same bytes. The spares SP_1 on (one, where no number is given) stand beside the rows, with
their inputs on VSS. With N = 1000000 the file has about 114 megabytes, N + 12 nets and 4 N + 15 joints.
"""
import sys

INPUTS = 10


def sources(k):
    known = INPUTS + k
    return (k * 7919 + 11) % known, (k * 104729 + 29) % known, (k * 15485863 + 47) % known


def readers(n):
    """For each source the pins that read it, as numbers 3 * gate + input."""
    first = [-1] * (INPUTS + n)
    later = [-1] * (3 * n)
    for k in range(n - 1, -1, -1):
        for pin, source in enumerate(sources(k)):
            later[3 * k + pin] = first[source]
            first[source] = 3 * k + pin
    return first, later


def write_components(out, n, spares):
    out.write("COMPONENTS %d ;\n" % (n + spares))
    for k in range(n):
        out.write("- u%d AND3 + PLACED ( %d %d ) N ;\n" % (k, k % 1000 * 900, k // 1000 * 2000))
    for k in range(spares):
        out.write("- SP_%d AND3 + FIXED ( %d %d ) N ;\n" % (k + 1, 900000 + k % 40 * 900, k // 40 * 2000))
    out.write("END COMPONENTS\n")


def write_pins(out):
    out.write("PINS %d ;\n" % INPUTS)
    for source in range(INPUTS):
        out.write("- i%d + NET i%d + DIRECTION INPUT + USE SIGNAL" % (source, source))
        out.write(" + LAYER M1 ( 0 0 ) ( 100 100 ) + FIXED ( 0 %d ) N ;\n" % (source * 2000))
    out.write("END PINS\n")


def write_supplies(out, spares):
    out.write("SPECIALNETS 2 ;\n- VDD ( * VDD ) + USE POWER ;\n- VSS ( * VSS )")
    for k in range(1, spares + 1):
        out.write("\n ( SP_%d A ) ( SP_%d B ) ( SP_%d C )" % (k, k, k))
    out.write(" + USE GROUND ;\nEND SPECIALNETS\n")


def write_nets(out, n):
    first, later = readers(n)
    out.write("NETS %d ;\n" % (n + INPUTS))
    for source in range(INPUTS + n):
        if source < INPUTS:
            out.write("- i%d ( PIN i%d )" % (source, source))
        else:
            out.write("- n%d ( u%d Y )" % (source - INPUTS, source - INPUTS))
        reader = first[source]
        while reader >= 0:
            out.write(" ( u%d %s )" % (reader // 3, "ABC"[reader % 3]))
            reader = later[reader]
        out.write(" ;\n")
    out.write("END NETS\n")


def main():
    n = int(sys.argv[1])
    spares = int(sys.argv[2]) if sys.argv[2:] else 1
    out = sys.stdout
    out.write('VERSION 5.8 ;\nDIVIDERCHAR "/" ;\nBUSBITCHARS "[]" ;\nDESIGN big ;\n')
    out.write("UNITS DISTANCE MICRONS 1000 ;\nDIEAREA ( 0 0 ) ( 9999999 9999999 ) ;\n")
    write_components(out, n, spares)
    write_pins(out)
    write_supplies(out, spares)
    write_nets(out, n)
    out.write("END DESIGN\n")


main()
