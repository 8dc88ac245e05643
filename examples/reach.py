"""Plans a table in decimal text with its address limit, tells how far fitting cells reach, and plans it with the least limit that fits.

usage: python3 examples/reach.py LIBRARY TABLE
"""
import ctypes
import sys

size = ctypes.c_size_t
library = ctypes.CDLL(sys.argv[1])
library.panstrait_plan.restype = ctypes.c_uint8
library.panstrait_reach.restype = ctypes.c_uint8

n, limit, *values = [int(word) for word in open(sys.argv[2]).read().split()]
table = (ctypes.c_int32 * len(values))(*values)


def plan(a):
    sizes, cells, count, bits = (size * 12)(), (size * 84)(), size(), size()
    refusal = library.panstrait_plan(
        size(n), table, size(len(table)), size(a), sizes, cells, ctypes.byref(count), ctypes.byref(bits))
    if refusal != 0:
        return f"refused {refusal}"
    return f"groups {' '.join(map(str, sizes[:count.value]))}, {bits.value} bits"


print(f"Plan with A {limit}: {plan(limit)}")
cuts, count, least = (size * 13)(), size(), size()
refusal = library.panstrait_reach(
    size(n), table, size(len(table)), size(limit), cuts, ctypes.byref(count), ctypes.byref(least))
if refusal != 0:
    sys.exit(f"refused {refusal}")
print(f"fitting cells reach the cuts {' '.join(map(str, cuts[:count.value]))} of {n}")
print(f"Plan with A {least.value}, the least that fits: {plan(least.value)}")
