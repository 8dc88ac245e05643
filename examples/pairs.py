"""Compiles a table of two variables in decimal text and reads its image back: every row, and the entries at X, Y and at Y, X.

usage: python3 examples/pairs.py LIBRARY TABLE X Y
"""
import ctypes
import sys

size = ctypes.c_size_t
library = ctypes.CDLL(sys.argv[1])
library.panstrait_compile.restype = ctypes.c_uint8
library.panstrait_pair_run.restype = ctypes.c_uint8

n, limit, *values = [int(word) for word in open(sys.argv[2]).read().split()]
table = (ctypes.c_int32 * len(values))(*values)
image = (ctypes.c_uint8 * 65536)()
cells = (size * 84)()
length, nodes, count, bits = size(), size(), size(), size()
refusal = library.panstrait_compile(
    size(n), table, size(len(table)), size(limit), image, size(len(image)), cells,
    ctypes.byref(length), ctypes.byref(nodes), ctypes.byref(count), ctypes.byref(bits))
if refusal != 0:
    sys.exit(f"refused {refusal}")

m = n // 2


def entry(x, y):
    value, words = ctypes.c_int32(), size()
    refusal = library.panstrait_pair_run(
        size(m), image, length, size(x), size(y), ctypes.byref(value), ctypes.byref(words))
    if refusal != 0:
        sys.exit(f"refused {refusal}")
    return value.value, words.value


for x in range(2**m):
    print(*[entry(x, y)[0] for y in range(2**m)])
x, y = int(sys.argv[3]), int(sys.argv[4])
for row, column in (x, y), (y, x):
    value, words = entry(row, column)
    print(f"f({row}, {column}) = {value} by {words} words")
