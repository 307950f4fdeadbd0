#!/usr/bin/env python3
"""Times the listing of a file of 200,000,000 bytes beside sha256sum over the same bytes, and the reading and writing of
marks of N sources.

Usage: bench/marks.py CONFORM [N ..]   (CONFORM: the built program `conform`; N: 1000 10000 100000 where none is given)

`conform` answers one line at a time. From the time of a line that asks for a listing or a mark, that of a line is taken
which has the same bytes and refuses them for their length.
"""
import hashlib
import os
import sys
import tempfile

from lines import asked, asked_alone, timed

BLOCK = bytes(range(250)) * 4
BLOCKS = 200000


def digests():
    bytes_ = "%d*%s" % (BLOCKS, BLOCK.hex())
    digest = hashlib.sha256(BLOCK * BLOCKS).hexdigest()
    row = "%s %d a\n" % (digest, len(BLOCK) * BLOCKS)
    listing = hashlib.sha256(row.encode()).hexdigest()
    made = asked(program, "name", bytes_, "refused - TooLong")
    listed = asked(program, "listing", "61 " + bytes_, "ok %s %s" % (listing, row.encode().hex())) - made
    with tempfile.NamedTemporaryFile() as file:
        file.write(BLOCK * BLOCKS)
        file.flush()
        summed = min(timed(["sha256sum", file.name])[0] for _ in range(3))
    megabytes = len(BLOCK) * BLOCKS / 1e6
    print("| listing | sha256sum | listing's rate over sha256sum's |\n|---|---|---|")
    print("| %.0f MB/s | %.0f MB/s | %.2f |" % (megabytes / listed, megabytes / summed, summed / listed))


def mark(count):
    rows = "".join("%s %d s%07d\n" % ("ab" * 32, place, place) for place in range(count))
    return "mark 1\noptions 0\n\nsources %d\n%sneeds 0\noutputs 0\ntext 0\n\nend\n" % (count, rows)


def marks(counts):
    each = []
    print("\n| sources | seconds | microseconds a source |\n|---|---|---|")
    for count in counts:
        text = mark(count).encode().hex()
        spent = asked_alone(program, "mark", text, "ok ")
        each.append(spent / count)
        print("| %d | %.3f | %.2f |" % (count, spent, 1e6 * spent / count))
    print("\ngrowth: %.2f" % (each[-1] / each[0]))


program = os.path.abspath(sys.argv[1])
print("load: %.1f, %d processors\n" % (os.getloadavg()[0], os.cpu_count()))
digests()
marks([int(word) for word in sys.argv[2:]] or [1000, 10000, 100000])
