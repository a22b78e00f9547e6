#!/usr/bin/env python3
"""Writes a placed netlist of N components, N nets and 4 N joints as DEF: design.py N [routed] > FILE.

Net k is driven by Y of component k, and goes to one A, one B and one C. Which ones is a fixed rule, so each run
writes the same bytes. With N = 1000000 the file has about 113 megabytes. A routed net has three wires and two vias
beside its joints; with N = 400000 such a file has about 100 megabytes.
"""
import sys


def sinks(n, k):
    return (k * 7919 + 11) % n, (k * 104729 + 29) % n, (k * 15485863 + 47) % n


def place(k):
    return k % 1000 * 900, k // 1000 * 2000


def write_route(out, start, end):
    (x, y), (to_x, to_y) = start, end
    middle = (x + to_x) // 2
    out.write("\n  + ROUTED M1 ( %d %d ) ( %d * ) via1" % (x, y, middle))
    out.write("\n    NEW M2 ( %d %d ) ( * %d ) via1" % (middle, y, to_y))
    out.write("\n    NEW M1 ( %d %d ) ( %d * )" % (middle, to_y, to_x))


def main():
    n = int(sys.argv[1])
    routed = sys.argv[2:] == ["routed"]
    out = sys.stdout
    out.write('VERSION 5.8 ;\nDIVIDERCHAR "/" ;\nBUSBITCHARS "[]" ;\nDESIGN big ;\n')
    out.write("UNITS DISTANCE MICRONS 1000 ;\nDIEAREA ( 0 0 ) ( 9999999 9999999 ) ;\n")
    out.write("COMPONENTS %d ;\n" % n)
    for k in range(n):
        out.write("- u%d AND3 + PLACED ( %d %d ) N ;\n" % ((k,) + place(k)))
    out.write("END COMPONENTS\nNETS %d ;\n" % n)
    for k in range(n):
        out.write("- n%d ( u%d Y ) ( u%d A ) ( u%d B ) ( u%d C )" % ((k, k) + sinks(n, k)))
        if routed:
            write_route(out, place(k), place(sinks(n, k)[0]))
        out.write(" ;\n")
    out.write("END NETS\nEND DESIGN\n")


main()
