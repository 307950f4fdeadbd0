#!/usr/bin/env python3
"""Times the listing of a file of 200,000,000 bytes beside their digest by the crate `sha2` alone, in turn, and beside
`sha256sum` over the same bytes.

Usage: bench/listing.py LISTING_BENCH [N]   (LISTING_BENCH: the built program; N: the runs of each, 10 where none is given)

A figure is processor time: that of a run which does it twice, without that of a run which only makes the bytes.
"""
import hashlib
import os
import resource
import statistics
import subprocess
import sys
import tempfile

COUNT = 200000000


def spent(words, wanted):
    before = resource.getrusage(resource.RUSAGE_CHILDREN)
    child = subprocess.run(words, stdout=subprocess.PIPE, text=True)
    after = resource.getrusage(resource.RUSAGE_CHILDREN)
    if child.returncode != 0 or not child.stdout.startswith(wanted):
        sys.exit("%s: status %d, %r" % (words, child.returncode, child.stdout[:200]))
    return after.ru_utime + after.ru_stime - before.ru_utime - before.ru_stime


def once(kind):
    made = spent([program, kind, str(COUNT), "0"], "")
    return (spent([program, kind, str(COUNT), "2"], digest) - made) / 2


program = os.path.abspath(sys.argv[1])
runs = int(sys.argv[2]) if len(sys.argv) > 2 else 10
block = bytes(range(251))
whole = (block * (COUNT // 251 + 1))[:COUNT]
digest = hashlib.sha256(whole).hexdigest()
print("load: %.1f, %d processors\n" % (os.getloadavg()[0], os.cpu_count()))
figures = {"listing": [], "sha2": [], "sha256sum": []}
with tempfile.NamedTemporaryFile() as file:
    file.write(whole)
    file.flush()
    for _ in range(runs):
        for kind in ["sha2", "listing"]:
            figures[kind].append(once(kind))
        figures["sha256sum"].append(spent(["sha256sum", file.name], digest))
print("| | each run | fastest | median |\n|---|---|---|---|")
for kind, each in figures.items():
    print("| %s | %s | %.2f | %.2f |" % (kind, " ".join("%.2f" % it for it in each), min(each), statistics.median(each)))
for name, one in [("fastest", min), ("median", statistics.median)]:
    print("rate over sha2's, %s: %.2f" % (name, one(figures["sha2"]) / one(figures["listing"])))
