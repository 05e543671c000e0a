"""Times calls of a minimal host, saving included: speed.py WHAT HOST..

One clerk writes WRITES lines and reads as many, on drives of four sizes. Prints medians in milliseconds."""

import os
import statistics
import sys
import tempfile
import time

sys.dont_write_bytecode = True  # the folder of the sources stays as it is
import kill

WRITES = 100
LINES = 90
DRIVES = {
    "small, 16 blocks": 16 * 1024,
    "small, 256 blocks": 256 * 1024,
    "large, 257 blocks": 257 * 2048,
    "large, 4,096 blocks": 4096 * 2048,
}


def timed(caller, function, dma):
    times = []
    for number in range(WRITES):
        began = time.perf_counter()
        caller.must(function, kill.fcb_of("ORDERS.DAT", record=number % LINES), dma())
        times.append(time.perf_counter() - began)
    return 1000 * statistics.median(times)


def main():
    what, command = sys.argv[1], sys.argv[2:]
    for name, length in DRIVES.items():
        with tempfile.TemporaryDirectory() as folder:
            host = kill.Host(folder, command)
            kill.IMAGE_LEN[name] = length
            host.new(name)
            host.spawn()
            caller = host.caller()
            caller.must(kill.MAKE, kill.fcb_of("ORDERS.DAT"))
            write = timed(caller, kill.WRITE, lambda: os.urandom(kill.RECORD_LEN))
            read = timed(caller, kill.READ, bytes)
            host.kill()
        print(f"{what}: {name}: {write:.2f} ms a write, {read:.2f} ms a read")


if __name__ == "__main__":
    main()
