"""Builds the diagram of a table in decimal text and reports its values at X from FIRST to LAST, both included.

usage: python3 examples/report.py LIBRARY TABLE FIRST LAST
"""
import ctypes
import sys

size, number = ctypes.c_size_t, ctypes.c_int32
library = ctypes.CDLL(sys.argv[1])
library.panstrait_build.restype = ctypes.c_uint8
library.panstrait_report.restype = ctypes.c_uint8

n, _, *values = [int(word) for word in open(sys.argv[2]).read().split()]
table = (number * len(values))(*values)
records = (number * (6 * (2**n - 1)))()
nodes, offset = size(), number()
refusal = library.panstrait_build(
    size(n), table, size(len(table)), records, size(len(records)), ctypes.byref(nodes), ctypes.byref(offset))
if refusal != 0:
    sys.exit(f"refused {refusal}")
for k in range(nodes.value - 1):
    print("record", k + 1, *records[6 * k:6 * k + 6])

count, least, greatest, total = size(), number(), number(), ctypes.c_int64()
refusal = library.panstrait_report(
    size(n), offset, records, size(6 * (nodes.value - 1)), size(int(sys.argv[3])), size(int(sys.argv[4])),
    ctypes.byref(count), ctypes.byref(least), ctypes.byref(greatest), ctypes.byref(total))
if refusal != 0:
    sys.exit(f"refused {refusal}")
print(f"{count.value} values from {least.value} to {greatest.value}, {total.value} in all")
