#!/usr/bin/env python3
"""Times a stream of a billion bytes of small frames, pushed into a reader and given out again, for texts of 16 and of 128
bytes, in pieces of 1,000 and of 65,536 bytes.

Usage: bench/frames.py FRAMES_BENCH   (FRAMES_BENCH: the built program)

A figure is processor time, without that of a run which pushes one block, the fastest of three.
"""
import os
import resource
import subprocess
import sys

TOTAL = 1000000000


def spent(words, frames):
    before = resource.getrusage(resource.RUSAGE_CHILDREN)
    child = subprocess.run(words, stdout=subprocess.PIPE, text=True)
    after = resource.getrusage(resource.RUSAGE_CHILDREN)
    if child.returncode != 0 or not child.stdout.endswith(" %d frames\n" % frames):
        sys.exit("%s: status %d, %r" % (words, child.returncode, child.stdout[:200]))
    return after.ru_utime + after.ru_stime - before.ru_utime - before.ru_stime


program = os.path.abspath(sys.argv[1])
print("load: %.1f, %d processors\n" % (os.getloadavg()[0], os.cpu_count()))
print("| bytes of a text | bytes of a piece | MB/s | frames a second |\n|---|---|---|---|")
for length in [16, 128]:
    block = 10000 * (4 + 1 + 12 + length)
    times = TOTAL // block
    for piece in [1000, 65536]:
        words = [program, str(times), str(length), str(piece)]
        one = [program, "1", str(length), str(piece)]
        seconds = min(spent(words, times * 10000) - spent(one, 10000) for _ in range(3))
        print("| %d | %d | %.0f | %.0f |" % (length, piece, times * block / seconds / 1e6, times * 10000 / seconds))
