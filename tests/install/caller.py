"""caller.py LIBRARY: examples/caller.c in Python, over the installed shared library alone."""
import ctypes
import sys

library = ctypes.CDLL(sys.argv[1])
for name in ("emt_read", "emt_reset", "emt_advance"):
    getattr(library, name).restype = ctypes.c_uint64
network, records = ((ctypes.c_int64 * 1024)() for _ in range(2))
froms, tos = ((ctypes.c_int64 * 4096)() for _ in range(2))
place = ctypes.c_uint64()
size = ctypes.c_size_t
state = (network, size(1024), records, size(1024), froms, size(4096), tos, size(4096))

text = b"study\t1000\t1\t0\nVS\t1\t1000\t1\t0\nR\t1\t2\t2000\nR\t2\t0\t2000\n"
answers = [
    library.emt_read(text, size(len(text)), network, size(1024), ctypes.byref(place)),
    library.emt_reset(*state),
    library.emt_advance(*state, ctypes.c_uint64(1), ctypes.byref(place)),
]
assert answers == [0, 0, 0], (answers, place.value)
print(f"node 2 after step {place.value}: {records[32 + 2 - 1] / 10:.1f} V")
