"""Times `mixc deps.compile` over projects of N dependencies: from an empty tree, once more with nothing changed, and after
one source changed. Beside it `ninja` with a rule that copies the sources of each dependency into one file, and `sha256sum`
over the same files, all in one run. Prints the table."""
import os
import shutil
import subprocess
import sys
import tempfile
import time


def write(folder, path, data):
    with open(os.path.join(folder, path), "wb") as out:
        out.write(data)


def timed(words, folder, stdin=None):
    begin = time.monotonic()
    child = subprocess.Popen(words, cwd=folder, stdin=stdin, stdout=subprocess.PIPE)
    text = child.stdout.read().decode()
    _, status, usage = os.wait4(child.pid, 0)
    spent = time.monotonic() - begin
    if status != 0:
        sys.exit("%r: status %d, %r" % (words, status, text[-300:]))
    return spent, usage.ru_maxrss / 1024, text


def compiled(program, folder, count):
    """One compile; a further one, with the trace, starts nothing."""
    spent, peak, text = timed([program, "deps.compile"], folder)
    wanted = "%d dependencies: %d built, 0 failed, 0 skipped" % (count, count)
    if text.splitlines()[-1] != wanted:
        sys.exit("N = %d: %r" % (count, text[-300:]))
    _, _, text = timed([program, "deps.compile", "--trace"], folder)
    if sum(line.startswith("start ") for line in text.splitlines()) != 0:
        sys.exit("N = %d: a further compile starts something" % count)
    return spent, peak


def ninja_file(folder, sources):
    lines = ["rule copy\n  command = cat $in > $out\n"]
    for name, paths in sources.items():
        lines.append("build copies/%s: copy %s\n" % (name, " ".join(paths)))
    write(folder, "build.ninja", "".join(lines).encode())


def sources_of(folder):
    """The files below the folder of each dependency, without those that were built."""
    found = {}
    for name in sorted(os.listdir(folder)):
        below = os.path.join(folder, name)
        if os.path.isdir(below) and name not in ("_build", "copies"):
            found[name] = ["%s/%s" % (name, file) for file in sorted(os.listdir(below))]
    return found


def clean(folder, names):
    for name in names:
        path = os.path.join(folder, name)
        if os.path.isdir(path):
            shutil.rmtree(path)
        elif os.path.exists(path):
            os.remove(path)


def change(folder, path, turn):
    with open(os.path.join(folder, path), "ab") as out:
        out.write(b"%d\n" % turn)


def rounds(program, folder, count, changed):
    """The fastest of three of each time, by its name, and the peak memory of the first compile."""
    times = {}

    def keep(name, spent):
        times[name] = min(spent, times.get(name, spent))

    peak = 0
    sources = sources_of(folder)
    ninja_file(folder, sources)
    every = "\0".join(path for paths in sources.values() for path in paths).encode()
    for turn in range(3):
        clean(folder, ["_build", "copies", ".ninja_log", ".ninja_deps"])
        spent, peak = compiled(program, folder, count)
        keep("first", spent)
        keep("again", compiled(program, folder, count)[0])
        keep("ninja first", timed(["ninja", "--quiet"], folder)[0])
        keep("ninja again", timed(["ninja", "--quiet"], folder)[0])
        change(folder, changed, turn)
        keep("changed", compiled(program, folder, count)[0])
        keep("ninja changed", timed(["ninja", "--quiet"], folder)[0])
        with tempfile.TemporaryFile() as listed:
            listed.write(every)
            listed.seek(0)
            keep("sha256sum", timed(["xargs", "-0", "sha256sum"], folder, listed)[0])
    return times, peak


NAMES = ["first", "again", "changed", "ninja first", "ninja again", "ninja changed", "sha256sum"]


def table(project, changed):
    """Prints the seconds of each for each N of the command line, the peak memory, and for the first compile and the next
    one the growth: the ratio of the times per dependency at the last N and at the first. `changed` gives the path of the
    source that is changed, by N."""
    program = os.path.abspath(sys.argv[1])
    counts = [int(word) for word in sys.argv[2:]] or [100, 1000, 4000]
    print("| N | %s | peak MiB |" % " | ".join(NAMES))
    print("|---|%s---|" % ("---|" * len(NAMES)))
    each = []
    for count in counts:
        folder = tempfile.mkdtemp()
        try:
            project(folder, count)
            times, peak = rounds(program, folder, count, changed(count))
        finally:
            shutil.rmtree(folder)
        each.append({name: times[name] / count for name in NAMES})
        print("| %d | %s | %.1f |" % (count, " | ".join("%.3f" % times[name] for name in NAMES), peak))
    for name in ("first", "again"):
        print("\ngrowth, %s: %.2f" % (name, each[-1][name] / each[0][name]))
