#!/usr/bin/env python3
"""Times `mixc deps.compile` over N flat dependencies of ten sources of 4 KiB and a unit file each.

Usage: bench/flat.py MIXC [N ..]   (MIXC: the built program; N: 100 1000 4000 where none is given)
"""
import os

from timing import table, write


def project(folder, count):
    names = ["d%04d" % number for number in range(1, count + 1)]
    for name in names:
        os.mkdir(os.path.join(folder, name))
        write(folder, name + "/project.exs", b'[app: :%s, version: "1.0.0"]\n' % name.encode())
        for source in range(10):
            write(folder, "%s/s%d" % (name, source), bytes([97 + source]) * 4096)
        write(folder, name + "/main.unit", b"unit %s\nlet base = 1\nexport base\n" % name.encode())
    declarations = ", ".join('{:%s, path: "%s"}' % (name, name) for name in names)
    write(folder, "project.exs", b'[app: :demo, version: "0.1.0", deps: [%s]]\n' % declarations.encode())


table(project, lambda count: "d%04d/s0" % count)
