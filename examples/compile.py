"""Compiles a table in decimal text, prints its image command by command, and reads the image back: Run at X, and Expand.

usage: python3 examples/compile.py LIBRARY TABLE X
"""
import ctypes
import sys

size = ctypes.c_size_t
library = ctypes.CDLL(sys.argv[1])
library.panstrait_compile.restype = ctypes.c_uint8
library.panstrait_run.restype = ctypes.c_uint8
library.panstrait_expand.restype = ctypes.c_uint8

n, limit, *values = [int(word) for word in open(sys.argv[2]).read().split()]
table = (ctypes.c_int32 * len(values))(*values)
image = (ctypes.c_uint8 * 65536)()
cells = (size * 84)()
length, nodes, count, bits = size(), size(), size(), size()
refusal = library.panstrait_compile(
    size(n), table, size(len(table)), size(limit), image, size(len(image)), cells,
    ctypes.byref(length), ctypes.byref(nodes), ctypes.byref(count), ctypes.byref(bits))
if refusal != 0:
    sys.exit(f"refused {refusal}")
sizes = {0x56: 6, 0x43: 7, 0x57: 7, 0x45: 5}
at = 0
while at < length.value:
    print(bytes(image[at:at + sizes[image[at]]]).hex(" "))
    at += sizes[image[at]]

x = int(sys.argv[3])
value, words = ctypes.c_int32(), size()
refusal = library.panstrait_run(image, length, size(x), ctypes.byref(value), ctypes.byref(words))
if refusal != 0:
    sys.exit(f"refused {refusal}")
print(f"f({x}) = {value.value} by {words.value} words")

expanded = (ctypes.c_int32 * len(table))()
refusal = library.panstrait_expand(image, length, expanded, size(len(expanded)))
if refusal != 0:
    sys.exit(f"refused {refusal}")
print("expanded to the same table:", list(expanded) == values)
