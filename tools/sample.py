#!/usr/bin/env python3
"""Writes the sample of crates/dossier, which docs/SAMPLE.md goes through record by record:

    tools/sample.py > crates/dossier/stdin
"""
import struct
import sys


def record(kind, *fields):
    sys.stdout.buffer.write(struct.pack('<%dH' % (2 + len(fields)), 2 * len(fields), kind, *fields))


for line in '''
1 2 0
2 0
2 128
3 2 0 0
3 3 0 0
4 0 1
3 2 1 0
3 3 1 0
4 3 2
3 6 0 1
3 5 3 4
5 5
3 7 2 0
3 7 2 6
3 2 1024 0
3 4 2 9
4 2 0
7 2 0 1 0 0 0 0 1
11 5
6
1 2 0
3 6 2 1
8 2 7
8 2
8 6
7 2 0 1 0 0 0 0 1
7 10 6 0 0 0 0 6 8
7 5 4 8 0 1 0 4 6
7 10 7 0 0 0 0 4 7
7 10 7 0 0 2 0 4 7
7 2 2 3 0 0 0 2 3
7 4 5 0 0 4 3 2 5 7
7 6 5 0 0 5 0 2 7
9 1 6
9 0 6
9 0 6
10 1 0 2 1 0 1 1 0 1
10 1 0 2 2 0 1 1 0 0 0 1 1 0 1
10 1 0 2 1 0 1 0 0 1 1 0 1
'''.split('\n')[1:-1]:
    record(*map(int, line.split()))
# nine concepts and seven lines stand: up to 256 of each, and one more
for _ in range(247 + 1):
    record(3, 0, 0, 0)
for _ in range(249 + 1):
    record(7, 2, 0, 1, 0, 0, 0, 0, 1)
# longer than what is read
record(8, *[0] * 8000)
