"""Random scripts, and the program that runs them.

The program is the one that the repository builds, unless the variable PROGRAM names another.
"""

import os
import subprocess
import sys
from concurrent.futures import ThreadPoolExecutor

ROOT = os.path.dirname(os.path.dirname(os.path.abspath(__file__)))
PROGRAM = os.environ.get("PROGRAM", os.path.join(ROOT, "crates", "rx", "out", "rx"))
LOOKS = ("start end startlf endlf startcrlf endcrlf word wordneg wordstart wordend wordstarthalf wordendhalf "
         "uword uwordneg uwordstart uwordend uwordstarthalf uwordendhalf").split()
SETS = ["61", "62", "61-63", "00-ff", "0a", "0d,0a", "20", "30-39,41-5a,5f,61-7a", "00-09,0b-ff", "80-ff", "ce", "none"]


def run(words, data):
    done = subprocess.run([PROGRAM] + words, input=data, stdout=subprocess.PIPE, stderr=subprocess.PIPE)
    return done.stdout, done.returncode


def expression(r, depth):
    """An expression and the least length of its matches. A body that can be empty is never repeated without a bound."""
    kind = r.randrange(10) if depth else r.randrange(4)
    if kind == 0:
        if r.random() < 0.3:
            return "eps", 0
        literal = bytes(r.choice(b"abc\n ") for _ in range(r.randint(1, 3)))
        return "lit %s" % literal.hex(), len(literal)
    if kind == 1:
        return "look %s" % r.choice(LOOKS if r.random() < 0.3 else LOOKS[:12]), 0
    if kind in (2, 3):
        return "cls %s" % r.choice(SETS), 1
    if kind in (4, 5, 6):
        (first, one), (second, other) = expression(r, depth - 1), expression(r, depth - 1)
        return "cat %s %s" % (first, second), one + other
    if kind in (7, 8):
        (first, one), (second, other) = expression(r, depth - 1), expression(r, depth - 1)
        return "alt %s %s" % (first, second), min(one, other)
    body, length = expression(r, depth - 1)
    least = r.randint(0, 2)
    most = r.choice(["inf"] * (length > 0) + [str(least + r.randint(0, 2))])
    return "rep %d %s %s %s" % (least, most, r.choice(["greedy", "lazy"]), body), least * length


def plan_words(r, names):
    """Words of a plan: some of these names, and some settings with a value."""
    words = [name for name in names if r.random() < 0.25]
    if r.random() < 0.3:
        words.append("start=%s" % r.choice(["both", "unanchored", "anchored"]))
    if r.random() < 0.3:
        words.append("quit=%s" % r.choice(["62", "80-ff", "00", "ce,0a", "none"]))
    if r.random() < 0.2:
        words.append("lt=%s" % r.choice(["61", "0d", "00"]))
    for limit in ("nfa", "dfa", "det"):
        if r.random() < 0.05:
            words.append("%s=%d" % (limit, r.choice([0, 100, 400, 1000, 5000])))
    return words


def plan_line(words):
    """The line of a plan. Without words there is none."""
    return ["plan %s" % " ".join(words)] if words else []


def expressions(r):
    """The lines of some patterns."""
    return ["expr %s" % expression(r, r.randint(0, 3))[0] for _ in range(r.choice([0, 1, 1, 2, 3]))]


def question(r):
    """A haystack, a span and a mode."""
    h = bytes(r.choice(b"aabbc\n\r \x00\xce\xb2_9") for _ in range(r.randint(0, 8)))
    start = r.randint(0, len(h))
    end = r.randint(start, len(h))
    mode = r.choice(["no", "no", "yes", "p0", "p1", "p7"])
    return h, start, end, mode


def numbers(defaults):
    """The numbers on the command line, with defaults for the missing ones."""
    given = [int(word) for word in sys.argv[1:]]
    return given + defaults[len(given):]


def each_seed(compare, seed, count):
    """The results of a function for this many seeds, several at once."""
    with ThreadPoolExecutor(max_workers=os.cpu_count()) as pool:
        yield from pool.map(compare, ("%d-%d" % (seed, k) for k in range(count)))
