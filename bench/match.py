"""Times scipy's linear_sum_assignment: match.py GATES SPARES remainders|products"""
import sys
import time

gates, spares, costs = int(sys.argv[1]), int(sys.argv[2]), sys.argv[3]
try:
    import numpy
    from scipy.optimize import linear_sum_assignment
except ImportError:
    print("scipy isn't installed: nothing to compare with")
    sys.exit(0)

gate = numpy.arange(gates, dtype=float)[:, None]
spare = numpy.arange(spares, dtype=float)[None, :]
if costs == "remainders":
    table = (37 * gate + 11 * spare) % 1000
else:
    table = (gate + 1) * (spare + 1)
begun = time.perf_counter()
linear_sum_assignment(table)
print(f"scipy: matched in {(time.perf_counter() - begun) * 1e6:.0f} us")
