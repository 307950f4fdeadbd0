#!/usr/bin/env python3
"""Times picks and prints, beside each, how many nodes of the tree are walked.

Usage: bench/pick.py CONFORM   (CONFORM: the built program `conform`)

From the time of a line that asks for a pick, that of a line is taken which loads the same registry and asks for one
package's candidates. That so many nodes are walked is asked too: the same answer comes where just so many may come
before it, and none where one less may.
"""
import os
import sys

from lines import asked


def varint(number):
    out = b""
    while number > 127:
        out += bytes([number % 128 + 128])
        number //= 128
    return out + bytes([number])


def field(number, value):
    return varint(number * 8 + 2) + varint(len(value)) + value


def message(name, releases):
    """Of releases, each a version and dependencies, and these each a package and a requirement."""
    out = b""
    for version, dependencies in releases:
        body = field(1, version.encode()) + field(2, b"")
        for package, requirement in dependencies:
            body += field(3, field(1, package.encode()) + field(2, requirement.encode()))
        out += field(1, body)
    return out + field(2, name.encode()) + field(3, b"hexpm")


def row(title, registry, wants, walked, before, answer):
    """`before` nodes come before the answer; None where it is that there are too many."""
    wants = "".join("need %s %s ;" % (name, name) for name in wants).encode().hex()
    files = "".join(" %s %s" % (("hex/%s/package" % name).encode().hex(), message(name, releases).hex())
                    for name, releases in registry.items())
    fields = lambda limit: "%s %s%s" % (str(limit).encode().hex() or "-", wants, files)
    if before is not None:
        asked(program, "pick", fields(before), answer)
        asked(program, "pick", fields(before - 1), "refused - TooManyNodes")
    first = min(registry).encode().hex()
    loaded = asked(program, "registry", "- %s %s%s" % (wants, first, files), "ok ")
    spent = asked(program, "pick", fields(""), answer) - loaded
    print("| %s | %d | %.3f | %.2f | %.3f |" % (title, walked, spent, 1e6 * spent / walked, loaded))


def free(names, count):
    return {name: [("1.%d.0" % n, []) for n in range(count)] for name in names}


def chain(count):
    name = "c%05d"
    links = {name % n: [("1.0.0", [(name % (n + 1), "~> 1.0")])] for n in range(count - 1)}
    return {**links, name % (count - 1): [("1.0.0", [])]}


def narrow(packages, releases, last):
    """Each release takes one release of the next package alone, and the last package has only the first releases: those
    above them are tried down to the last package, one after another."""
    name = "p%03d"
    out = {}
    for n in range(packages - 1):
        out[name % n] = [("1.%d.0" % j, [(name % (n + 1), "~> 1.%d.0" % j)]) for j in range(releases)]
    out[name % (packages - 1)] = [("1.%d.0" % j, []) for j in range(last)]
    return out


program = os.path.abspath(sys.argv[1])
print("load: %.1f, %d processors\n" % (os.getloadavg()[0], os.cpu_count()))
print("| registry | nodes | seconds | microseconds a node | seconds to load |\n|---|---|---|---|---|")
million = {**free("abcdef", 10), "z": []}
row("six packages of ten releases, and one without any", million, "abcdefz", 1000001, None, "refused - TooManyNodes")
fewer = {**free("abcde", 10), "z": []}
row("five of them", fewer, "abcdez", 111110, 111110, "refused - NoPick z")
for count in (250, 500, 1000):
    row("a chain of %d packages" % count, chain(count), ["c00000"], count, count - 1, "ok ")
walked = (50 - 25) * 199 + 200
row("200 packages of 50 releases", narrow(200, 50, 25), ["p000"], walked, walked - 1, "ok ")
