#!/usr/bin/env python3
"""Writes the sample of crates/wide, a dossier as large as one docket can hold in a few places (docs/SAMPLE.md):

    tools/largest.py > crates/wide/stdin
"""
import struct
import sys


def record(kind, *fields):
    sys.stdout.buffer.write(struct.pack('<%dH' % (2 + len(fields)), 2 * len(fields), kind, *fields))


# role name 1 is transitive
record(2, 2)
# concepts 0 to 31: sixteen names and their complements, as mates
for name in range(16):
    record(3, 2, name, 0)
    record(3, 3, name, 0)
for name in range(16):
    record(4, 2 * name, 2 * name + 1)
# concepts 32 to 1,023: in each round, what holds of neighbours by role 2 and by its inverse, and of both parts
for c in range(32, 1024, 4):
    record(3, 6, 2, c - 32)
    record(3, 7, 3, c - 31)
    record(3, 4, c - 30, c - 29)
    record(3, 5, c, c + 1)
record(3, 0, 0, 0)
# every element is in name 0
record(5, 0)
record(6)
# 4,096 lines by mates that clash, and one more
for i in range(4097):
    name = i % 16
    record(7, 2, 2 * name, 2 * name + 1, 0, 0, 0, 2 * name, 2 * name + 1)
# three claims: the sixteen names, what is not in name 0, and mates, which line 15 closes
record(8, *range(0, 32, 2))
record(8, 1)
record(8, 30, 31)
record(9, 2, 15)
# 256 elements, each in all sixteen names, and role name 1 from each of the first 64 to each: 4,096 marks and 4,096 edges. With
# an edge less the role is not transitive; and no element is outside name 0
marks = [field for element in range(256) for name in range(16) for field in (element, name)]
edges = [field for x in range(64) for y in range(64) for field in (1, x, y)]
record(10, 0, 255, 256, 4096, *marks, *edges[:-3])
record(10, 1, 255, 256, 4096, *marks, *edges)
record(10, 0, 255, 256, 4096, *marks, *edges)
