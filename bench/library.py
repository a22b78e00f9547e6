#!/usr/bin/env python3
"""Writes a library of N masters as LEF: library.py N > FILE.

The first is AND3, which bench/design.py places: pins A, B, C and Y, and the supplies VDD and VSS. The others are the
same under other names. Each run writes the same bytes.
"""
import sys

HEAD = """VERSION 5.8 ;
BUSBITCHARS "[]" ;
DIVIDERCHAR "/" ;
UNITS
  DATABASE MICRONS 1000 ;
END UNITS
MANUFACTURINGGRID 0.005 ;
LAYER M1
  TYPE ROUTING ;
  DIRECTION HORIZONTAL ;
  PITCH 0.2 ;
  WIDTH 0.1 ;
  SPACING 0.1 ;
END M1
LAYER V1
  TYPE CUT ;
  SPACING 0.1 ;
END V1
LAYER M2
  TYPE ROUTING ;
  DIRECTION VERTICAL ;
  PITCH 0.2 ;
  WIDTH 0.1 ;
  SPACING 0.1 ;
END M2
VIA via1 DEFAULT
  LAYER M1 ;
    RECT -0.05 -0.05 0.05 0.05 ;
  LAYER V1 ;
    RECT -0.05 -0.05 0.05 0.05 ;
  LAYER M2 ;
    RECT -0.05 -0.05 0.05 0.05 ;
END via1
SITE core
  CLASS CORE ;
  SYMMETRY Y ;
  SIZE 0.1 BY 2 ;
END core
"""

PIN = """  PIN %s
    DIRECTION %s ;
    USE %s ;
    PORT
      LAYER M1 ;
        RECT %s %s %s %s ;
    END
  END %s
"""

SIGNALS = [("A", "INPUT", 0.1), ("B", "INPUT", 0.3), ("C", "INPUT", 0.5), ("Y", "OUTPUT", 0.7)]
SUPPLIES = [("VDD", "POWER", 1.9), ("VSS", "GROUND", 0)]


def write_master(out, name):
    out.write("MACRO %s\n  CLASS CORE ;\n  ORIGIN 0 0 ;\n  SIZE 0.9 BY 2 ;\n  SYMMETRY X Y ;\n  SITE core ;\n" % name)
    for pin, direction, at in SIGNALS:
        out.write(PIN % (pin, direction, "SIGNAL", at, 0.9, round(at + 0.1, 1), 1.1, pin))
    for pin, use, at in SUPPLIES:
        out.write(PIN % (pin, "INOUT", use, 0, at, 0.9, round(at + 0.1, 1), pin))
    out.write("END %s\n" % name)


def main():
    out = sys.stdout
    out.write(HEAD)
    write_master(out, "AND3")
    for number in range(1, int(sys.argv[1])):
        write_master(out, "AND3X%d" % number)
    out.write("END LIBRARY\n")


main()
