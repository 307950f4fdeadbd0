#!/usr/bin/env python3
"""Times `converge` and `for_env` over N rows that name E environments and T targets.

Usage: bench/targets.py CONFORM [N ..]   (CONFORM: the built program `conform`; N: 8192 65536 where none is given)

The root declares an app for each environment and target, which is for those alone, and further apps, each for one
environment and one target. Each of the first declares the further ones of its own environment and target, so that the
rows live together; or else the first are for everything, and each row that they declare is reached where its winner
isn't.

`conform` answers one line at a time. The line `rows` makes the rows, `converge` makes them and judges them, and
`reach_for` asks besides what an environment reaches: a figure is the processor time of a line over that of the line
before it, each the fastest of five.
"""
import os
import subprocess
import sys

RUNS = 5


def answer(line):
    """The answer to a line, and the processor time of the program."""
    child = subprocess.Popen([program], stdin=subprocess.PIPE, stdout=subprocess.PIPE)
    child.stdin.write(line)
    child.stdin.close()
    text = child.stdout.read().decode()
    _, status, usage = os.wait4(child.pid, 0)
    if status != 0:
        sys.exit("%s: status %d" % (program, status))
    return text.rstrip(), usage.ru_utime + usage.ru_stime


def asked(kind, fields, is_wanted):
    line = (" ".join([kind] + [field.encode().hex() or "-" for field in fields]) + "\n").encode()
    each = []
    for _ in range(RUNS):
        text, spent = answer(line)
        if not is_wanted(text):
            sys.exit("%s: %r" % (kind, text[:200]))
        each.append(spent)
    return min(each)


def declared(name, limits=""):
    return "{:%s, hex: :%s%s}" % (name, name, limits)


def texts(count, envs, targets, live):
    """The root's declarations, and each app that declares others with its declarations."""
    pairs = [(env, target) for env in range(envs) for target in range(targets)]
    limits = [", only: :e%d, targets: :t%d" % pair for pair in pairs]
    parents = ["p%d_%d" % pair for pair in pairs]
    apps = ["a%05d" % place for place in range((count - len(pairs)) // 2)]
    root = [declared(parent, limit if live else "") for parent, limit in zip(parents, limits)]
    root += [declared(app, limits[place % len(pairs)]) for place, app in enumerate(apps)]
    fields = ["[" + ", ".join(root) + "]"]
    for place, parent in enumerate(parents):
        fields += [parent, "[" + ", ".join(declared(app) for app in apps[place :: len(pairs)]) + "]"]
    return fields, len(parents), len(apps)


def reached(parents, apps):
    """What the first environment reaches for the first target: the first parent and its apps."""
    return "ok " + " ".join(str(place) for place in [0] + list(range(parents, parents + apps, parents)))


def diverged(parents, apps):
    """How each further row diverges from the winner of its app."""
    winners = [parents + place for first in range(parents) for place in range(first, apps, parents)]
    lines = ["V4:%d:%d" % (winner, parents + apps + place) for place, winner in enumerate(winners)]
    return "refused - Diverged " + " ".join(lines)


def row(count, envs, targets):
    fields, parents, apps = texts(count, envs, targets, True)
    versions = " ".join(["1.0.0"] * (parents + apps))
    rows = parents + 2 * apps
    made = asked("rows", [""] + fields, lambda text: text == "ok %d rows" % rows)
    judged = asked("converge", [versions] + fields, lambda text: text == "ok")
    wanted = reached(parents, apps)
    sought = asked("reach_for", ["e0", "t0"] + fields, lambda text: text == wanted)
    apart = texts(count, envs, targets, False)[0]
    wanted_apart = diverged(parents, apps)
    told = asked("converge", [versions] + apart, lambda text: text == wanted_apart)
    converge = judged - made
    figures = (rows, envs, targets, made, converge, 1e6 * converge / rows, sought - judged, told - made)
    print("| %d | %d, %d | %.3f | %.3f | %.2f | %.3f | %.3f |" % figures, flush=True)
    return converge / rows


program = os.path.abspath(sys.argv[1])
counts = [int(word) for word in sys.argv[2:]] or [8192, 65536]
print("load: %.1f, %d processors\n" % (os.getloadavg()[0], os.cpu_count()))
print("| rows | environments, targets | `rows` | `converge` | microseconds a row | `for_env` | `converge`, all diverge |")
print("|---|---|---|---|---|---|---|")
for envs, targets in [(1, 1), (8, 8)]:
    each = [row(count, envs, targets) for count in counts]
print("\ngrowth: %.2f" % (each[-1] / each[0]))
