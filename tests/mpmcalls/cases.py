#!/usr/bin/env python3
"""Runs a program `mpmcalls` and compares what it prints and leaves in DISK.OUT, byte for byte.

    cases.py [--only TEXT] [--document] -- COMMAND [ARGUMENT...]
    cases.py --stored FOLDER        write the stored run (stdin, stdout, data/DISK.IMG) of S0 to S6
    cases.py --list

Each case runs in a fresh folder. The inputs are made here from their meaning; what is expected of each is written out
here, from document 01. --document leaves out the cases that rest on a decision of ours (marked `ours`). It ends with 0
where every case passed, 1 where one failed, 2 for wrong use.
"""
import argparse
import os
import shutil
import subprocess
import sys
import tempfile
import threading
import time
import tty

PATIENCE = 120
HEADER = "call process function A H\n"
EMPTY = 0xE5

OPEN, CLOSE, DELETE, MAKE, READ, WRITE, SIZE, WRITE_ZEROS = 15, 16, 19, 22, 33, 34, 35, 40
FIRST, NEXT, LOCK, FREE_SPACE, TERMINATE = 17, 18, 42, 46, 143


# ---- the records

def start(capacity=3, opens=2, locks=2, users=bytes(16), rule=0):
    """4D 53, the list's first 19 bytes and its rule, 0 MP/M II or 1 CP/M 2.2: 22 bytes."""
    return bytes([0x4D, 0x53, capacity, opens, locks]) + users + bytes([rule])


def call(function, process, fcb, dma=bytes(2048), count=1):
    """4D 43, function, process, count (a byte each), FCB (36 bytes), DMA (2,048): 2,089 bytes."""
    record = bytes([0x4D, 0x43, function, process, count]) + fcb + dma
    assert len(record) == 2089
    return record


def fcb(record=0, unlocked=True):
    """A fresh FCB for ORDERS.DAT; unlocked: the high bit of byte 5; the record in bytes 33 to 35, low byte first."""
    f = bytearray(36)
    f[1:12] = b"ORDERS  DAT"
    if unlocked:
        f[5] |= 0x80
    f[33:36] = record.to_bytes(3, "little")
    return bytes(f)


def read_only(f):
    """This FCB with the high bit of byte 6 set: 15 opens in read-only mode."""
    return f[:6] + bytes([f[6] | 0x80]) + f[7:]


def pattern(name=b"???????????", extents=b"?", drive=0):
    """An FCB to search with; `extents` is its byte 12."""
    return bytes([drive]) + name + extents + bytes(23)


def dma(file_id=0):
    """A DMA whose bytes 0 and 1 are the File ID, the rest zeros."""
    return bytes([file_id, 0]) + bytes(2046)


def record(byte):
    """The 128 bytes of a record, all the same."""
    return bytes([byte]) * 128


def records(first):
    """A DMA of sixteen records: the first is all `first`, each next one a byte higher."""
    return b"".join(record(first + i) for i in range(16))


# ---- the image

def blank(n):
    """n blocks of E5h."""
    return bytes([EMPTY]) * (1024 * n)


def entry(ex=0, module=0, count=0, blocks=()):
    """A directory entry of ORDERS.DAT: user 0, the name with high bits clear, ex, 0, module, count, sixteen block
    numbers. blocks: pairs of map byte and block."""
    e = bytearray(32)
    e[1:12] = b"ORDERS  DAT"
    e[12], e[14], e[15] = ex, module, count
    for place, block in blocks:
        e[16 + place] = block
    return bytes(e)


def written(image, *parts):
    """The image with bytes from a place on; parts: pairs of place and bytes."""
    s = bytearray(image)
    for at, v in parts:
        s[at:at + len(v)] = v
    assert len(s) == len(image)
    return bytes(s)


# ---- the session of document 01

MADE_4 = written(blank(4), (0, entry()))

SESSION = [
    call(MAKE, 1, fcb(), dma(0)),                # S0   0/0   File ID 0
    call(OPEN, 2, fcb(), dma(0)),                # S1   0/0   File ID 1
    call(WRITE, 1, fcb(0), dma(0)),              # S2   0/0   block 2
    call(LOCK, 1, fcb(0), dma(0)),               # S3   0/0   place 2
    call(WRITE, 2, fcb(0), dma(1)),              # S4   8/0
    call(WRITE, 2, fcb(8), dma(1)),              # S5   0/0   block 3
    call(LOCK, 2, fcb(8), dma(1)),               # S6   14/0
    call(WRITE, 2, fcb(16), dma(1)),             # S7   2/0
    call(FREE_SPACE, 1, fcb(), dma(0)),          # S8   0/0   0 records
    call(LOCK, 1, fcb(0), dma(0)),               # S9   0/0   nothing new
    call(LOCK, 1, fcb(0), dma(0), count=2),      # S10  12/0
    call(TERMINATE, 1, fcb(), dma(0)),           # S11  0/0   places 0, 2 empty
    call(LOCK, 2, fcb(8), dma(1)),               # S12  0/0   place 0
    call(DELETE, 2, fcb(), dma(1)),              # S13  0/0   places 0, 1 empty
]

SESSION_6 = """\
call process function A H
0 1 22 0 0
1 2 15 0 0
2 1 34 0 0
3 1 42 0 0
4 2 34 8 0
5 2 34 0 0
6 2 42 14 0
end 7
"""

SESSION_13 = """\
call process function A H
0 1 22 0 0
1 2 15 0 0
2 1 34 0 0
3 1 42 0 0
4 2 34 8 0
5 2 34 0 0
6 2 42 14 0
7 2 34 2 0
8 1 46 0 0
9 1 42 0 0
10 1 42 12 0
11 1 143 0 0
12 2 42 0 0
13 2 19 0 0
end 14
"""

# S2: block 2 in map byte 0, its first record all zeros (the DMA of process 1). S5: block 3 in map byte 1, its first
# record 01 and zeros (the File ID of process 2 in its DMA); record 8 is place 8 of its extent, so the count is 9.
# Function 34 leaves the other seven records of a block as they were. No other call of the session changes the image but
# S13, which empties the entry.
SESSION_OUT = written(
    blank(4),
    (0, entry(count=9, blocks=[(0, 2), (1, 3)])),
    (2 * 1024, bytes(128)),
    (3 * 1024, bytes([1]) + bytes(127)),
)
SESSION_13_OUT = written(SESSION_OUT, (0, b"\xe5"))

# Record 262,143: extent 2,047, so ex 31 and module 63; place 127, so the last map byte and count 128. The extent is
# missing and takes the lowest empty entry, 1; the block the lowest free one, 2; the record is the last of its eight.
LAST = 262143
LAST_DMA = bytes(range(128)) + bytes(1920)
LAST_OUT = written(
    blank(3),
    (0, entry()),
    (32, entry(ex=31, module=63, count=128, blocks=[(15, 2)])),
    (2 * 1024 + 7 * 128, bytes(range(128))),
)


# ---- the cases

MISSING, FOLDER = "missing", "folder"
CASES = []


class Case:
    """One run. image: DISK.IMG's bytes, MISSING or FOLDER. old: DISK.OUT before the run, likewise. out: DISK.OUT after
    it, None for as it was before. error: what is on standard error. ours: rests on a decision that document 01 leaves
    open."""

    def __init__(self, name, image, records, printed, out, old=MISSING, error="", ours=False, chunk=0, into=None,
                 fails=False):
        self.name, self.image, self.printed, self.out, self.old = name, image, printed, out, old
        self.records = records if callable(records) else b"".join(records)
        self.error, self.ours, self.chunk, self.into, self.fails = error, ours, chunk, into, fails
        assert name not in [c.name for c in CASES]
        CASES.append(self)

    def input(self):
        return self.records() if callable(self.records) else self.records


def lines(*answers):
    return HEADER + "".join(a + "\n" for a in answers)


# the session
Case("S0 to S6", blank(4), [start(), *SESSION[:7]], SESSION_6, SESSION_OUT)
Case("S0 to S13", blank(4), [start(), *SESSION], SESSION_13, SESSION_13_OUT)
Case("S0 to S13 over a longer DISK.OUT", blank(4), [start(), *SESSION], SESSION_13, SESSION_13_OUT, old=bytes(10000))
Case("S0, seven bytes at a time", blank(4), [start(), SESSION[0]], lines("0 1 22 0 0", "end 1"), MADE_4, chunk=7)
Case("S0 to S6, 61 bytes at a time", blank(4), [start(), *SESSION[:7]], SESSION_6, SESSION_OUT, chunk=61)
Case("S0 to S6, 2,090 bytes at a time", blank(4), [start(), *SESSION[:7]], SESSION_6, SESSION_OUT, chunk=2090)

# DISK.OUT of the session as DISK.IMG: it comes out again, and record 8 is there to be read and rewritten, not record 16
Case("DISK.OUT read back", SESSION_OUT, [start()], lines("end 0"), SESSION_OUT)
Case("DISK.OUT read back and used", SESSION_OUT,
     [start(), call(MAKE, 1, fcb()), call(OPEN, 1, fcb()), call(READ, 1, fcb(8)), call(READ, 1, fcb(16)),
      call(WRITE, 1, fcb(8), bytes([7]) * 2048)],
     lines("0 1 22 255 8", "1 1 15 0 0", "2 1 33 0 0", "3 1 33 1 0", "4 1 34 0 0", "end 5"),
     written(SESSION_OUT, (3 * 1024, bytes([7]) * 128)))

# edges
Case("record 262,143", blank(3), [start(), call(MAKE, 1, fcb()), call(WRITE, 1, fcb(LAST), LAST_DMA),
                                  call(READ, 1, fcb(LAST))],
     lines("0 1 22 0 0", "1 1 34 0 0", "2 1 33 0 0", "end 3"), LAST_OUT)
Case("function 35", blank(4),
     [start(), call(SIZE, 1, fcb()), call(MAKE, 1, fcb()), call(SIZE, 2, fcb(7)),
      call(SIZE, 1, fcb()[:1] + b"ORDERS  DA?" + fcb()[12:]), call(SIZE, 1, b"\2" + fcb()[1:])],
     lines("0 1 35 255 0", "1 1 22 0 0", "2 2 35 0 0", "3 1 35 255 9", "4 1 35 255 4", "end 5"), MADE_4)
# Entries 0, 1 and 5 are ORDERS.DAT's extents 0, 1 and 32, entry 6 is user 3's: places 0, 1, 1 and 2 of their records.
SEARCHED = written(blank(4), (0, entry()), (32, entry(ex=1)), (5 * 32, entry(module=1)), (6 * 32, b"\3" + entry()[1:]))
Case("functions 17 and 18", SEARCHED,
     [start(users=bytes([0, 0, 3]) + bytes(13)),
      call(NEXT, 1, pattern()), call(FIRST, 1, pattern()), call(NEXT, 1, pattern()), call(FIRST, 2, pattern()),
      call(NEXT, 1, pattern()), call(NEXT, 1, pattern()), call(NEXT, 1, pattern()), call(NEXT, 2, pattern())],
     lines("0 1 18 255 0", "1 1 17 0 0", "2 1 18 1 0", "3 2 17 2 0", "4 1 18 1 0", "5 1 18 255 0", "6 1 18 255 0",
           "7 2 18 255 0", "end 8"), SEARCHED)
Case("byte 12 of a search", SEARCHED,
     [start(), call(FIRST, 1, pattern(extents=b"\0")), call(NEXT, 1, pattern(extents=b"\0")), call(NEXT, 1, pattern()),
      call(FIRST, 1, pattern(extents=b"\1")), call(NEXT, 1, pattern(extents=b"\xbf")),
      call(FIRST, 1, pattern(b"ORDERS  DAT")), call(NEXT, 1, pattern(b"ORDERS  DAT"))],
     lines("0 1 17 0 0", "1 1 18 255 0", "2 1 18 255 0", "3 1 17 0 0", "4 1 18 255 0", "5 1 17 0 0", "6 1 18 1 0",
           "end 7"), SEARCHED)
Case("names of a search", SEARCHED,
     [start(), call(FIRST, 1, pattern(b"?RDERS  DA?")), call(NEXT, 1, pattern(b"\xbfRD\xc5RS  DA\xbf")),
      call(FIRST, 1, pattern(b"QRDERS  DA?")),
      call(FIRST, 1, pattern(b" RDERS  DAT")), call(FIRST, 1, pattern(b"ORDERS  D*T")),
      call(FIRST, 1, pattern(drive=1)),
      call(FIRST, 1, pattern(drive=ord("?"))), call(NEXT, 1, pattern(drive=2)), call(NEXT, 1, pattern()),
      call(NEXT, 16, pattern())],
     lines("0 1 17 0 0", "1 1 18 1 0", "2 1 17 255 0", "3 1 17 255 0", "4 1 17 255 0", "5 1 17 0 0", "6 1 17 255 4",
           "7 1 18 255 4", "8 1 18 1 0", "9 16 18 255 13", "end 10"), SEARCHED)
Case("a search goes on after other calls", SEARCHED,
     [start(), call(FIRST, 1, pattern()), call(FIRST, 2, pattern()), call(DELETE, 2, fcb()), call(NEXT, 1, pattern()),
      call(MAKE, 2, fcb()), call(FIRST, 1, pattern()), call(FIRST, 2, pattern()), call(TERMINATE, 1, fcb()),
      call(NEXT, 1, pattern()), call(NEXT, 2, pattern())],
     lines("0 1 17 0 0", "1 2 17 0 0", "2 2 19 0 0", "3 1 18 255 0", "4 2 22 0 0", "5 1 17 0 0", "6 2 17 0 0",
           "7 1 143 0 0", "8 1 18 255 0", "9 2 18 255 0", "end 10"),
     written(SEARCHED, (32, b"\xe5"), (5 * 32, b"\xe5")))
Case("byte 35 of 4", blank(4),
     [start(), call(MAKE, 1, fcb()), call(READ, 1, fcb(0x40000)), call(WRITE, 1, fcb(0x40000)),
      call(WRITE_ZEROS, 1, fcb(0x40000)), call(LOCK, 1, fcb(0x40000))],
     lines("0 1 22 0 0", "1 1 33 6 0", "2 1 34 6 0", "3 1 40 6 0", "4 1 42 6 0", "end 5"), MADE_4)
Case("counts 1, 16, 0, 17", blank(4),
     [start(), *[call(FREE_SPACE, 1, fcb(), count=c) for c in (1, 16, 0, 17)]],
     lines("0 1 46 0 0", "1 1 46 0 0", "2 1 46 255 13", "3 1 46 255 13", "end 4"), blank(4))
# three limits that differ, and counts that do: each number has its own place in its record
Case("unequal limits and counts", blank(4),
     [start(6, 1, 4), call(MAKE, 1, fcb()), call(WRITE, 1, fcb(0), records(0x11), count=3),
      call(LOCK, 1, fcb(0), dma(0), count=4),
      call(LOCK, 1, fcb(4), dma(0)), call(MAKE, 1, fcb()[:1] + b"LINES   DAT" + fcb()[12:])],
     lines("0 1 22 0 0", "1 1 34 0 0", "2 1 42 0 0", "3 1 42 12 0", "4 1 22 255 10", "end 5"),
     written(blank(4), (0, entry(count=3, blocks=[(0, 2)])), (2048, record(0x11) + record(0x12) + record(0x13))))
Case("capacity 1", blank(4), [start(1, 1, 1), call(MAKE, 1, fcb()), call(MAKE, 2, fcb())],
     lines("0 1 22 0 0", "1 2 22 255 8", "end 2"), MADE_4)
Case("capacity 64", blank(4), [start(64, 64, 64), call(MAKE, 1, fcb())], lines("0 1 22 0 0", "end 1"), MADE_4)
Case("capacity 0", blank(4), [start(0), call(MAKE, 1, fcb())], lines("bad record 0"), None)
Case("capacity 65", blank(4), [start(65), call(MAKE, 1, fcb())], lines("bad record 0"), None)
Case("open limit 0", blank(4), [start(3, 0, 2)], lines("bad record 0"), None)
Case("open limit 65", blank(4), [start(3, 65, 2)], lines("bad record 0"), None)
Case("lock limit 0", blank(4), [start(3, 2, 0)], lines("bad record 0"), None)
Case("lock limit 65", blank(4), [start(3, 2, 65)], lines("bad record 0"), None)
Case("users to 15", blank(4), [start(users=bytes(range(16)))], lines("end 0"), blank(4))
Case("a user of 16", blank(4), [start(users=bytes(15) + bytes([16]))], lines("bad record 0"), None)
# By the rule of CP/M 2.2 record 65,535 is the last: extent 511, so ex 31 and module 15, in the last map byte.
CPM_LAST = 65535
CPM_OUT = written(blank(3), (0, entry()), (32, entry(ex=31, module=15, count=128, blocks=[(15, 2)])),
                  (2 * 1024 + 7 * 128, bytes(range(128))))
CPM_CALLS = [call(MAKE, 1, fcb()), call(WRITE, 1, fcb(CPM_LAST), LAST_DMA), call(WRITE, 1, fcb(CPM_LAST + 1)),
             call(READ, 1, fcb(CPM_LAST), count=2), call(LOCK, 1, fcb(CPM_LAST), count=2), call(SIZE, 2, fcb())]
Case("the rule of CP/M 2.2", blank(3), [start(rule=1), *CPM_CALLS],
     lines("0 1 22 0 0", "1 1 34 0 0", "2 1 34 6 0", "3 1 33 6 16", "4 1 42 6 0", "5 2 35 0 0", "end 6"), CPM_OUT)
Case("the same calls by the rule of MP/M II", blank(3), [start(rule=0), *CPM_CALLS],
     lines("0 1 22 0 0", "1 1 34 0 0", "2 1 34 2 0", "3 1 33 4 16", "4 1 42 4 0", "5 2 35 0 0", "end 6"), CPM_OUT)
Case("a module of 16 by each rule, MP/M II", written(blank(4), (0, entry()), (32, entry(module=16))),
     [start(rule=0), call(FREE_SPACE, 1, fcb())], lines("0 1 46 0 0", "end 1"),
     written(blank(4), (0, entry()), (32, entry(module=16))))
Case("a module of 16 by each rule, CP/M 2.2", written(blank(4), (0, entry()), (32, entry(module=16))),
     [start(rule=1), call(FREE_SPACE, 1, fcb())], lines("0 1 46 255 1", "end 1"),
     written(blank(4), (0, entry()), (32, entry(module=16))))
Case("a rule of 2", blank(4), [start(rule=2)], lines("bad record 0"), None, ours=True)
Case("a start record without a rule", blank(4), [start()[:-1]], lines("bad record 0"), None)
Case("n of 3", blank(3), [start(), call(MAKE, 1, fcb())], lines("0 1 22 0 0", "end 1"), written(blank(3), (0, entry())))
Case("n of 2", blank(2), [start(), call(MAKE, 1, fcb())], lines("0 1 22 255 1", "end 1"), blank(2))
Case("a byte too many", blank(4) + b"\0", [start(), call(MAKE, 1, fcb())], lines("0 1 22 255 1", "end 1"),
     blank(4) + b"\0")

# several records in one call: H tells sixteen times the records done where another was refused behind them, else
# nothing. On n of 4 the blocks 2 and 3 are free: 2 goes to the records 0 to 7, 3 to 8 to 15, and the count of the
# extent is 16.
SIXTEEN_OUT = written(blank(4), (0, entry(count=16, blocks=[(0, 2), (1, 3)])), (2 * 1024, records(0x10)))
Case("sixteen records written and read", blank(4),
     [start(), call(MAKE, 1, fcb()), call(WRITE, 1, fcb(), records(0x10), count=16), call(READ, 1, fcb(), count=16)],
     lines("0 1 22 0 0", "1 1 34 0 0", "2 1 33 0 0", "end 3"), SIXTEEN_OUT)
# On n of 3 only block 2 is free. Records 5, 6 and 7 take it and are stored; record 8 finds none, 2/0 after three: H is
# 48. The count is 8, by record 7. Function 34 leaves the five records before them as they were, 40 clears them: record
# 5 took the block; 6 and 7 found it there and cleared nothing.
THREE = b"".join(record(0x20 + i) for i in range(3))
THREE_OUT = written(blank(3), (0, entry(count=8, blocks=[(0, 2)])), (2 * 1024 + 5 * 128, THREE))
Case("a write that stops after three records", blank(3),
     [start(), call(MAKE, 1, fcb()), call(WRITE, 1, fcb(5), records(0x20), count=16)],
     lines("0 1 22 0 0", "1 1 34 2 48", "end 2"), THREE_OUT)
Case("a write with zeros that stops after three records", blank(3),
     [start(), call(MAKE, 1, fcb()), call(WRITE_ZEROS, 1, fcb(5), records(0x20), count=16)],
     lines("0 1 22 0 0", "1 1 40 2 48", "end 2"), written(THREE_OUT, (2 * 1024, bytes(5 * 128))))
# Record 8 has no block there: 1/0 after three records, seven, one and none.
Case("reads that stop after some records", THREE_OUT,
     [start(), call(OPEN, 1, fcb()), call(READ, 1, fcb(5), count=16), call(READ, 1, fcb(1), count=8),
      call(READ, 1, fcb(7), count=2), call(READ, 1, fcb(8), count=16), call(READ, 1, fcb(5), count=3)],
     lines("0 1 15 0 0", "1 1 33 1 48", "2 1 33 1 112", "3 1 33 1 16", "4 1 33 1 0", "5 1 33 0 0", "end 6"), THREE_OUT)
# Process 1 holds record 0 (S3): its own run goes on, that of process 2 is refused at once, and one behind the lock is
# not.
Case("runs beside a lock", blank(4),
     [start(), *SESSION[:4], call(WRITE, 1, fcb(0), records(0x30), count=4),
      call(WRITE, 2, fcb(0), records(0x40), count=4), call(WRITE, 2, fcb(1), records(0x50), count=2)],
     lines("0 1 22 0 0", "1 2 15 0 0", "2 1 34 0 0", "3 1 42 0 0", "4 1 34 0 0", "5 2 34 8 0", "6 2 34 0 0", "end 7"),
     written(blank(4), (0, entry(count=4, blocks=[(0, 2)])),
             (2 * 1024, record(0x30) + record(0x50) + record(0x51) + record(0x33))))
# The lock is on record 3: three records before it are stored, and none behind it.
Case("a write that stops at a lock after three records", blank(4),
     [start(), *SESSION[:2], call(WRITE, 1, fcb(0), records(0x30), count=8), call(LOCK, 1, fcb(3), dma(0)),
      call(WRITE, 2, fcb(0), records(0x40), count=8)],
     lines("0 1 22 0 0", "1 2 15 0 0", "2 1 34 0 0", "3 1 42 0 0", "4 2 34 8 48", "end 5"),
     written(blank(4), (0, entry(count=8, blocks=[(0, 2)])),
             (2 * 1024, b"".join(record(b) for b in (0x40, 0x41, 0x42, 0x33, 0x34, 0x35, 0x36, 0x37)))))
# The last two records there can be, and then byte 35 of 4: 6/0 after two. 42 refuses such a run whole.
Case("runs over record 262,143", blank(3),
     [start(), call(MAKE, 1, fcb()), call(WRITE, 1, fcb(LAST - 1), records(0x60), count=16),
      call(READ, 1, fcb(LAST - 1), count=16),
      call(READ, 1, fcb(LAST - 1), count=2), call(LOCK, 1, fcb(LAST - 1), count=3)],
     lines("0 1 22 0 0", "1 1 34 6 32", "2 1 33 6 32", "3 1 33 0 0", "4 1 42 6 0", "end 5"),
     written(blank(3), (0, entry()), (32, entry(ex=31, module=63, count=128, blocks=[(15, 2)])),
             (2 * 1024 + 6 * 128, record(0x60) + record(0x61))))
# Records 126 and 127 are of extent 0 and take block 2, 128 and 129 of extent 1, which takes entry 1 and block 3. Of
# sixteen from 126 on ten can be read, to the end of block 3. Record 4,094 would need extent 31, for which there is an
# entry but no block.
Case("a run over the end of an extent", blank(4),
     [start(), call(MAKE, 1, fcb()), call(WRITE, 1, fcb(126), records(0x70), count=4),
      call(READ, 1, fcb(126), count=16), call(WRITE, 1, fcb(4094), records(0x70), count=4)],
     lines("0 1 22 0 0", "1 1 34 0 0", "2 1 33 1 160", "3 1 34 2 0", "end 4"),
     written(blank(4), (0, entry(count=128, blocks=[(15, 2)])), (32, entry(ex=1, count=2, blocks=[(0, 3)])),
             (2 * 1024 + 6 * 128, record(0x70) + record(0x71) + record(0x72) + record(0x73))))
# Not open, and a file that 15 opened read-only: refused before any record.
Case("runs refused before any record", SIXTEEN_OUT,
     [start(), call(READ, 1, fcb(), count=16), call(WRITE, 1, fcb(), count=16), call(OPEN, 1, read_only(fcb())),
      call(WRITE, 1, fcb(), count=16), call(WRITE_ZEROS, 1, fcb(), count=16), call(READ, 1, fcb(), count=16),
      call(READ, 1, fcb(), count=17)],
     lines("0 1 33 10 0", "1 1 34 10 0", "2 1 15 0 0", "3 1 34 255 3", "4 1 40 255 3", "5 1 33 0 0", "6 1 33 255 13",
           "end 7"),
     SIXTEEN_OUT)

# refused calls are calls
Case("unknown function, process 200", blank(4),
     [start(), call(99, 1, fcb()), call(MAKE, 200, fcb()), call(0, 0, fcb()), call(255, 255, fcb(), count=255)],
     lines("0 1 99 255 13", "1 200 22 255 13", "2 0 0 255 13", "3 255 255 255 13", "end 4"), blank(4))

# the framing of the input
Case("empty input", blank(4), [], lines("bad record 0"), None)
Case("only a start record", blank(4), [start()], lines("end 0"), blank(4))
Case("start record cut by a byte", blank(4), [start()[:-1]], lines("bad record 0"), None)
Case("one byte of a start record", blank(4), [start()[:1]], lines("bad record 0"), None)
Case("first mark of the start wrong", blank(4), [b"\x4E" + start()[1:], call(MAKE, 1, fcb())], lines("bad record 0"),
     None)
Case("second mark of the start wrong", blank(4), [b"\x4D\x43" + start()[2:], call(MAKE, 1, fcb())],
     lines("bad record 0"), None)
Case("call record cut to 2,088 bytes", blank(4), [start(), call(MAKE, 1, fcb())[:2088]], lines("bad record 1"), None)
# A DMA of 256 bytes, as it was when a call was for one record: seven such records are one that is cut, eight are a
# whole one, an accepted 46 with the others in its DMA, and one that is cut.
OLD_46 = call(FREE_SPACE, 1, fcb())[:5 + 36 + 256]
Case("a call record of the old length", blank(4), [start(), OLD_46], lines("bad record 1"), None, old=b"older")
Case("seven call records of the old length", blank(4), [start(), OLD_46 * 7], lines("bad record 1"), None)
Case("eight call records of the old length", blank(4), [start(), OLD_46 * 8], lines("0 1 46 0 0", "bad record 2"), None)
Case("a call record of the old length after a whole one", blank(4), [start(), SESSION[0], OLD_46],
     lines("0 1 22 0 0", "bad record 2"), None)
Case("one byte left over", blank(4), [start(), call(MAKE, 1, fcb()), b"\x4D"], lines("0 1 22 0 0", "bad record 2"),
     None)
Case("first mark wrong after two calls", blank(4),
     [start(), *SESSION[:2], b"\x00" + SESSION[2][1:], SESSION[3]],
     lines("0 1 22 0 0", "1 2 15 0 0", "bad record 3"), None, old=b"older")
Case("second mark wrong after two calls", blank(4),
     [start(), *SESSION[:2], b"\x4D\x44" + SESSION[2][2:], SESSION[3]],
     lines("0 1 22 0 0", "1 2 15 0 0", "bad record 3"), None, old=b"older")
Case("a second start record", blank(4), [start(), SESSION[0], start(), *SESSION[1:3]],
     lines("0 1 22 0 0", "bad record 2"), None, old=b"older")
Case("ten calls and a bad mark", blank(4), [start(), *[call(FREE_SPACE, 1, fcb())] * 10, bytes(2089)],
     lines(*["%d 1 46 0 0" % k for k in range(10)], "bad record 11"), None)
Case("bad start over an older DISK.OUT", blank(4), [start(0)], lines("bad record 0"), None, old=b"older")

# the image
Case("image of 65,537 bytes", blank(64) + b"\0", [start(), call(MAKE, 1, fcb())], "image too long\n", None,
     old=b"older")
Case("image of 200,000 bytes", bytes(200000), [], "image too long\n", None)
Case("image of 65,536 bytes", blank(64), [start(), call(MAKE, 1, fcb())], lines("0 1 22 0 0", "end 1"),
     written(blank(64), (0, entry())))
Case("no image", MISSING, [start(), call(MAKE, 1, fcb()), call(FREE_SPACE, 1, fcb())],
     lines("0 1 22 255 1", "1 1 46 255 1", "end 2"), b"")
Case("no image, only a start record", MISSING, [start()], lines("end 0"), b"", old=b"older")
Case("an empty image", b"", [start(), call(MAKE, 1, fcb())], lines("0 1 22 255 1", "end 1"), b"")
Case("a folder for an image", FOLDER, [start(), call(MAKE, 1, fcb())], lines("0 1 22 255 1", "end 1"), b"")

# no limit on the number of calls: more than 16 bits count, and more bytes than any buffer of the program
MANY = 70000
Case("70,000 calls", blank(3), lambda: start() + call(99, 1, fcb()) * MANY,
     lines(*["%d 1 99 255 13" % k for k in range(MANY)], "end %d" % MANY), blank(3))

# our decisions
Case("DISK.OUT cannot be written", blank(4), [start(), *SESSION[:7]], SESSION_6, None, old=FOLDER,
     error="DISK.OUT: Is a directory\n", ours=True)
Case("standard output cannot be written", blank(4), [start(), *SESSION[:7]], "", None, into="/dev/full",
     error="standard output: No space left on device\n", ours=True)
Case("a read of standard input fails", blank(4), [start(), SESSION[0]], lines("0 1 22 0 0", "bad record 2"), None,
     fails=True, error="standard input: Input/output error\n", ours=True)


# ---- running

def lay(path, what):
    if what == FOLDER:
        os.mkdir(path)
    elif what != MISSING:
        with open(path, "wb") as f:
            f.write(what)


def found(path):
    if not os.path.lexists(path):
        return MISSING
    if os.path.isdir(path):
        return FOLDER
    with open(path, "rb") as f:
        return f.read()


def feed(pipe, data, chunk):
    """The program may stop before it has read everything, so a failed write says nothing."""
    try:
        if chunk:
            for at in range(0, len(data), chunk):
                pipe.write(data[at:at + chunk])
                pipe.flush()
                time.sleep(0.001)
        else:
            pipe.write(data)
        pipe.close()
    except OSError:
        pass


def failing_input(data):
    """A descriptor that gives the data and then fails: the master of a terminal whose other side is closed."""
    master, slave = os.openpty()
    tty.setraw(slave)
    assert os.write(slave, data) == len(data)
    os.close(slave)
    return master


def run(case, command, folder):
    lay(os.path.join(folder, "DISK.IMG"), case.image)
    lay(os.path.join(folder, "DISK.OUT"), case.old)
    data = case.input()
    source = failing_input(data) if case.fails else subprocess.PIPE
    target = open(case.into, "wb") if case.into else subprocess.PIPE
    child = subprocess.Popen(command, cwd=folder, stdin=source, stdout=target, stderr=subprocess.PIPE)
    got = {}
    readers = [threading.Thread(target=lambda n=n, p=p: got.__setitem__(n, p.read()))
               for n, p in (("out", child.stdout), ("err", child.stderr)) if p]
    for r in readers:
        r.start()
    if child.stdin:
        feed(child.stdin, data, case.chunk)
    try:
        child.wait(PATIENCE)
    except subprocess.TimeoutExpired:
        child.kill()
        child.wait()
        got["err"] = b"(killed: it hangs)"
    for r in readers:
        r.join()
    if case.fails:
        os.close(source)
    if case.into:
        target.close()
    printed, error = (got.get(name, b"").decode("latin-1") for name in ("out", "err"))
    return printed, error, found(os.path.join(folder, "DISK.OUT"))


def shown(text):
    return text if len(text) < 2000 else text[:900] + "..\n..%d bytes..\n.." % len(text) + text[-900:]


def first_difference(a, b):
    if not isinstance(a, bytes) or not isinstance(b, bytes):
        return "expected %s, got %s" % tuple("%d bytes" % len(x) if isinstance(x, bytes) else x for x in (a, b))
    for i, (x, y) in enumerate(zip(a, b)):
        if x != y:
            return "byte %d: expected %02X, got %02X (lengths %d and %d)" % (i, x, y, len(a), len(b))
    return "lengths %d and %d" % (len(a), len(b))


def check(case, command):
    folder = tempfile.mkdtemp(prefix="mpmcalls-")
    try:
        printed, error, out = run(case, command, folder)
        image = found(os.path.join(folder, "DISK.IMG"))
    finally:
        shutil.rmtree(folder)
    faults = []
    if printed != case.printed:
        faults.append("standard output, expected:\n%sgot:\n%s" % (shown(case.printed), shown(printed)))
    if error != case.error:
        faults.append("standard error, expected: %r, got: %r" % (case.error, error))
    expected = case.old if case.out is None else case.out
    if out != expected:
        faults.append("DISK.OUT: " + first_difference(expected, out))
    if image != case.image:
        faults.append("DISK.IMG has changed")
    return faults


def write_stored(folder):
    """The program crate's own run."""
    os.makedirs(os.path.join(folder, "data"), exist_ok=True)
    for name, data in (("stdin", b"".join([start(), *SESSION[:7]])), ("stdout", SESSION_6.encode()),
                       ("data/DISK.IMG", blank(4))):
        with open(os.path.join(folder, name), "wb") as f:
            f.write(data)


def main():
    words = argparse.ArgumentParser(description=__doc__, formatter_class=argparse.RawDescriptionHelpFormatter)
    words.add_argument("--only", default="")
    words.add_argument("--document", action="store_true")
    words.add_argument("--stored")
    words.add_argument("--list", action="store_true")
    words.add_argument("command", nargs="*")
    asked = words.parse_args()
    if asked.stored:
        return write_stored(asked.stored)
    cases = [c for c in CASES if asked.only in c.name and not (asked.document and c.ours)]
    if asked.list:
        return print("\n".join(c.name + (" (ours)" if c.ours else "") for c in cases))
    if not asked.command:
        words.print_usage()
        return 2
    failed = 0
    for case in cases:
        faults = check(case, asked.command)
        print("%s: %s" % (case.name, "FAILED" if faults else "ok"))
        for fault in faults:
            print("  " + fault.replace("\n", "\n  "))
        failed += bool(faults)
    print("%d passed, %d failed" % (len(cases) - failed, failed))
    return 1 if failed else 0


if __name__ == "__main__":
    sys.exit(main())
