"""Ranks the classes of each cut of a table in decimal text by how many blocks use them, and tells the commonest class where each
cell of its plan ends.

usage: python3 examples/uses.py LIBRARY TABLE
"""
import ctypes
import sys

size = ctypes.c_size_t
library = ctypes.CDLL(sys.argv[1])
library.panstrait_classes.restype = ctypes.c_bool
library.panstrait_plan.restype = ctypes.c_uint8

n, limit, *values = [int(word) for word in open(sys.argv[2]).read().split()]
table = (ctypes.c_int32 * len(values))(*values)
places = 2 ** (n + 1) - 1
classes, firsts, tried, uses, use_counts = [(size * places)() for row in range(5)]
counts = (size * (n + 1))()
rows = [classes, firsts, counts, tried, uses, use_counts]
lent = [argument for row in rows for argument in (row, size(len(row)))]
if not library.panstrait_classes(size(n), table, size(len(table)), *lent):
    sys.exit("n is above 12, or the table has not 2^n values")
for cut in range(n + 1):
    of_cut = use_counts[2 ** cut - 1:2 ** cut - 1 + counts[cut]]
    ranked = sorted(range(counts[cut]), key=lambda c: (-of_cut[c], c))
    print(f"cut {cut}, blocks {2 ** cut}:", ", ".join(f"class {c} in {of_cut[c]}" for c in ranked))

sizes, cells, count, bits = (size * 12)(), (size * 84)(), size(), size()
refusal = library.panstrait_plan(
    size(n), table, size(len(table)), size(limit), sizes, cells, ctypes.byref(count), ctypes.byref(bits))
if refusal != 0:
    sys.exit(f"refused {refusal}")
for at in range(0, 7 * count.value, 7):
    *cell, commonest, used = cells[at:at + 7]
    print(f"cell {' '.join(map(str, cell))}: commonest outgoing class {commonest}, in {used}")
