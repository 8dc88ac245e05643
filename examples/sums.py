"""The table of the sums of some weights, from that of x(0) up, and its node count; the table of the sums' remainders by 2^Q, and its plan.

usage: python3 examples/sums.py LIBRARY Q WEIGHT...
"""
import ctypes
import sys

size, number = ctypes.c_size_t, ctypes.c_int32
library = ctypes.CDLL(sys.argv[1])
q = int(sys.argv[2])
weights = (number * (len(sys.argv) - 3))(*map(int, sys.argv[3:]))
n = len(weights)
table = (number * 2**n)()


def call(operation, *arguments):
    function = getattr(library, f"panstrait_{operation}")
    function.restype = ctypes.c_uint8
    refusal = function(size(n), *arguments)
    if refusal != 0:
        sys.exit(f"{operation}: refused {refusal}")


call("sum", weights, size(n), table, size(len(table)))
print("sums", *table)
records = (number * (6 * (2**n - 1)))()
nodes, offset = size(), number()
call("build", table, size(len(table)), records, size(len(records)), ctypes.byref(nodes), ctypes.byref(offset))
print(f"{nodes.value} nodes")

call("remainder", weights, size(n), size(q), table, size(len(table)))
print(f"remainders by {2**q}:", *table)
sizes, cells, count, bits = (size * 12)(), (size * 84)(), size(), size()
call("plan", table, size(len(table)), size(q + 1), sizes, cells, ctypes.byref(count), ctypes.byref(bits))
print(f"Plan with A {q + 1}: groups {' '.join(map(str, sizes[:count.value]))}, {bits.value} bits")
