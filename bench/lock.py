#!/usr/bin/env python3
"""Times the reading of a lock of N releases with its writing.

Usage: bench/lock.py CONFORM [N ..]   (CONFORM: the built program `conform`; N: 500 5000 20000 where none is given)
"""
import os
import sys

from lines import asked_alone


def lock(count):
    rows = "".join('  "app%05d": {:hex, :app%05d, "1.2.%d", "%s", [:mix], [], "hexpm", "%s"},\n' % (at, at, at, "ab" * 32, "cd" * 32)
                   for at in range(count))
    return "%{\n" + rows + "}\n"


program = os.path.abspath(sys.argv[1])
each = []
print("load: %.1f, %d processors\n" % (os.getloadavg()[0], os.cpu_count()))
print("| releases | bytes | seconds | microseconds a release |\n|---|---|---|---|")
for count in [int(word) for word in sys.argv[2:]] or [500, 5000, 20000]:
    text = lock(count).encode()
    spent = asked_alone(program, "lock", text.hex(), "ok %d bytes" % len(text))
    each.append(spent / count)
    print("| %d | %d | %.3f | %.2f |" % (count, len(text), spent, 1e6 * spent / count))
print("\ngrowth: %.2f" % (each[-1] / each[0]))
