#!/usr/bin/env python3
"""Times `mixc deps.compile` over N nested dependencies of two sources of 1 KiB and a unit file each, in groups of four: each declares
those before it in its group, so that it has up to three needs. The root declares the last of each group.

Usage: bench/nested.py MIXC [N ..]   (MIXC: the built program; N: 100 1000 4000 where none is given)
"""
import os

from timing import table, write


def declared(names, prefix):
    return ", ".join('{:%s, path: "%s%s"}' % (name, prefix, name) for name in names)


def project(folder, count):
    names = ["d%04d" % number for number in range(1, count + 1)]
    for place, name in enumerate(names):
        os.mkdir(os.path.join(folder, name))
        needs = declared(names[place - place % 4 : place], "../")
        manifest = '[app: :%s, version: "1.0.0", deps: [%s]]\n' % (name, needs)
        write(folder, name + "/project.exs", manifest.encode())
        for source in range(2):
            write(folder, "%s/s%d" % (name, source), bytes([97 + source]) * 1024)
        unit = ["unit %s\n" % name] + ["use %s.%s\n" % (need, need) for need in names[place - place % 4 : place]]
        terms = ["1"] + ["%s.base" % need for need in names[place - place % 4 : place]]
        unit += ["let base = %s\n" % " + ".join(terms), "export base\n"]
        write(folder, name + "/main.unit", "".join(unit).encode())
    last = [name for place, name in enumerate(names) if place % 4 == 3 or place == count - 1]
    root = '[app: :demo, version: "0.1.0", deps: [%s]]\n' % declared(last, "")
    write(folder, "project.exs", root.encode())


table(project, lambda count: "d%04d/s0" % count)
