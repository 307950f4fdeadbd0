#!/usr/bin/env python3
"""Times turns over one board by 1, 2, 4, 8 and 64 threads, and prints the nanoseconds a turn and the rate over that of
one thread.

Usage: bench/turns.py TURN_BENCH [N]   (TURN_BENCH: the built program; N: the turns of a run, 3200000 where none is given)
"""
import os
import subprocess
import sys
import time


def run(program, threads, count):
    begin = time.monotonic()
    child = subprocess.run([program, str(threads), str(count)], stdout=subprocess.PIPE, text=True)
    spent = time.monotonic() - begin
    if child.returncode != 0 or child.stdout != "%d\n" % (threads * count):
        sys.exit("%d threads: status %d, %r" % (threads, child.returncode, child.stdout))
    return spent


program = os.path.abspath(sys.argv[1])
turns = int(sys.argv[2]) if len(sys.argv) > 2 else 3200000
alone = None
print("load: %.1f, %d processors\n" % (os.getloadavg()[0], os.cpu_count()))
print("| threads | seconds | nanoseconds a turn | rate over one thread's |\n|---|---|---|---|")
for threads in [1, 2, 4, 8, 64]:
    spent = min(run(program, threads, turns // threads) for _ in range(3))
    alone = alone or spent
    print("| %d | %.3f | %.0f | %.2f |" % (threads, spent, 1e9 * spent / turns, alone / spent))
