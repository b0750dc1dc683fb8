#!/usr/bin/env python3
"""What the disk takes for two writes with a sync each, as a seal makes them, where the second sync is of the data alone and where it is not.

usage: bench/syncs.py FOLDER [COUNT]      the folder decides which disk is measured; milliseconds a pair, seven rounds by turns

Each pair appends 500 octets and syncs the file with its length, then writes one octet within it and syncs the data alone (fdatasync), or all (fsync).
"""
import os, sys, tempfile, time

def pairs(path, count, second):
    file = os.open(path, os.O_RDWR | os.O_CREAT | os.O_TRUNC)
    begun = time.perf_counter()
    for at in range(count):
        os.pwrite(file, b'x' * 500, at * 500); os.fsync(file)
        os.pwrite(file, b'y', at * 500); second(file)
    took = time.perf_counter() - begun
    os.close(file)
    return took * 1000 / count

def main():
    if len(sys.argv) < 2: sys.exit(__doc__)
    count = int(sys.argv[2]) if len(sys.argv) > 2 else 300
    with tempfile.TemporaryDirectory(dir=sys.argv[1]) as folder:
        for _ in range(7): print(*(f'{name} {pairs(folder + "/file", count, how):.3f}' for name, how in (('data alone', os.fdatasync), ('all', os.fsync))), flush=True)

if __name__ == '__main__': main()
