#!/usr/bin/env python3
"""Times builds by 64 partitions, event by event, of 100, 1,000 and 4,000 places with three needs each, and prints the
nanoseconds an event, and the growth: that at the last number of places over that at the first.

Usage: bench/core.py CORE_BENCH [N..]   (CORE_BENCH: the built program)

An event's time is that of many builds less that of one, so that the plan and the start of the program aren't in it.
"""
import os
import subprocess
import sys
import time

EVENTS = 1000000


def run(program, places, builds):
    begin = time.monotonic()
    child = subprocess.run([program, str(places), str(builds)], stdout=subprocess.PIPE, text=True)
    spent = time.monotonic() - begin
    wanted = "%d events, %d of %d places have fates\n" % (2 * places, places, places)
    if child.returncode != 0 or child.stdout != wanted:
        sys.exit("%d places: status %d, %r" % (places, child.returncode, child.stdout))
    return spent


program = os.path.abspath(sys.argv[1])
counts = [int(word) for word in sys.argv[2:]] or [100, 1000, 4000]
each = []
print("load: %.1f, %d processors\n" % (os.getloadavg()[0], os.cpu_count()))
print("| places | builds | seconds | nanoseconds an event |\n|---|---|---|---|")
for places in counts:
    builds = EVENTS // (2 * places)
    one = min(run(program, places, 1) for _ in range(3))
    spent = min(run(program, places, 1 + builds) for _ in range(3)) - one
    each.append(1e9 * spent / (2 * places * builds))
    print("| %d | %d | %.3f | %.0f |" % (places, builds, spent, each[-1]))
print("\ngrowth: %.2f" % (each[-1] / each[0]))
