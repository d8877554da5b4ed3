#!/usr/bin/env python3
"""Makes N changes as a store does, and nothing else: for each change the two writes and the two syncs of its append.

usage: store_loop.py N FILE

It prints the seconds that the changes took, without the start of the interpreter.
"""
import os
import sys
import time

count, path = int(sys.argv[1]), sys.argv[2]
file = os.open(path, os.O_RDWR | os.O_CREAT | os.O_TRUNC)
os.pwrite(file, b"\0", 0)
os.fdatasync(file)
# An `add` line of the measurement has a payload of about 60 bytes.
tail = (60).to_bytes(4, "big") + bytes(60) + b"\0"
end = 0
began = time.perf_counter()
for _ in range(count):
    os.pwrite(file, tail, end + 1)
    os.fdatasync(file)
    os.pwrite(file, b"\1", end)
    os.fdatasync(file)
    end += len(tail)
print(f"{time.perf_counter() - began:.6f}")
os.close(file)
