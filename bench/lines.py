"""Times lines that the program `conform` answers."""
import subprocess
import sys
import time


def timed(words, text=b""):
    begin = time.monotonic()
    child = subprocess.run(words, input=text, stdout=subprocess.PIPE)
    spent = time.monotonic() - begin
    if child.returncode != 0:
        sys.exit("%s: status %d" % (words[0], child.returncode))
    return spent, child.stdout.decode()


def asked(program, kind, fields, wanted):
    """The time of a line, the fastest of three."""
    each = []
    for _ in range(3):
        spent, answer = timed([program], ("%s %s\n" % (kind, fields)).encode())
        if not answer.startswith(wanted):
            sys.exit("%s: %r" % (kind, answer[:200]))
        each.append(spent)
    return min(each)


def asked_alone(program, kind, fields, wanted):
    """The same without what it takes to read the line, by a line with the same bytes that are refused for their length."""
    return asked(program, kind, fields, wanted) - asked(program, "name", fields, "refused - TooLong")
