import ctypes

cells = ctypes.CDLL("out/lib/libpg_cells_c.so")
number, cell = ctypes.c_int32(), bytes.fromhex("00000102")
assert cells.pgc_int4_read(cell, ctypes.c_size_t(len(cell)), ctypes.byref(number)) == 0
print(number.value)
