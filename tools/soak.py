#!/usr/bin/env python3
"""The built program for as long as one likes: races held to `check`, the same runs by many crews, and inputs at the limits.

Run it at the top of the repository once the program is built: `python3 tools/soak.py --minutes 60`. It goes on with new tests until the time is over,
then makes the inputs at the limits, tells what it did, and ends with status 1 where something differs. `--limits` makes these alone.
"""
import argparse
import os
import random
import subprocess
import sys
import tempfile
import time

TOP = os.path.dirname(os.path.dirname(os.path.abspath(__file__)))
PROGRAM = os.path.join(TOP, "crates", "mtrace", "out", "mtrace")
CREWS = [(1, 1), (2, 1), (1, 2), (2, 8), (8, 2), (8, 8), (64, 64)]
TARGETS = ["sc", "tso", "pso", "weak"]


class Differs(Exception):
    """Two answers that have to be one, or one that has to be another."""


def run(words, data=b""):
    done = subprocess.run([PROGRAM] + words, input=data, stdout=subprocess.PIPE, stderr=subprocess.PIPE, timeout=1200)
    return done.returncode, done.stdout, done.stderr


def want(is_so, *what):
    if not is_so:
        raise Differs(" ".join(str(part)[:400] for part in what))


def generated(chance, most_threads, most_ops):
    words = ["generate", "--seed", str(chance.getrandbits(63)), "--threads", str(chance.randint(1, most_threads)), "--ops", str(chance.randint(1, most_ops)),
             "--words", str(chance.randint(1, 8)), "--fences", str(chance.choice([0, 10, 30]))]
    status, test, errs = run(words)
    want(status == 0 and not errs, words, status, errs)
    return test


def race(chance):
    """Races have no cycle under any model, and their report is that of `check` on their lines."""
    test = generated(chance, 16, 60)
    model, chunk = chance.choice(TARGETS), str(chance.choice([1, 3, 64]))
    more = ["--model", model, "--chunk", chunk]
    status, output, errs = run(["race", "--runs", "200"] + more, test)
    lines = b"".join(line for line in output.splitlines(True) if line.startswith(b"run") and not line.startswith(b"runs"))
    checked = run(["check"] + more, test + lines + b"done\n")
    want(lines.count(b"\n") == 200 and (status, output, errs) == (0, lines + checked[1], b"") and checked[0] == 0, "a race of", test, output)
    return 200


def crews(chance):
    """How many runners and workers there are changes nothing; and what the machine gives without a fault has no cycle under its own model."""
    test = generated(chance, 8, 60)
    target, fault = chance.choice(TARGETS), "none"
    if chance.random() < 0.4:
        fault = {"sc": "stale:1", "tso": "unordered", "pso": "nofence", "weak": "loadload"}[target]
    words = ["run", "--seed", str(chance.getrandbits(60)), "--runs", str(chance.choice([0, 3, 200, 2000])), "--target", target, "--model", target, "--fault", fault,
             "--chunk", str(chance.choice([1, 7, 64, 1000000]))]
    first = run(words + ["--runners", "1", "--workers", "1"], test)
    want(first[0] == 0 or (fault != "none" and first[0] == 1), words, first)
    for runners, workers in CREWS[1:]:
        other = run(words + ["--runners", str(runners), "--workers", str(workers)], test)
        want(other == first, words, runners, workers, test)
    return len(CREWS)


def measured(name, words, feed, is_right):
    """Runs the program on an input that is fed by a function, and tells seconds and peak memory."""
    begun = time.time()
    with tempfile.TemporaryFile() as output:
        child = subprocess.Popen([PROGRAM] + words, stdin=subprocess.PIPE, stdout=output, stderr=subprocess.PIPE)
        try:
            feed(child.stdin)
            child.stdin.close()
        except BrokenPipeError:
            pass
        errs = child.stderr.read()
        _, status, usage = os.wait4(child.pid, 0)
        output.seek(max(0, output.seek(0, os.SEEK_END) - 200))
        tail = output.read()
    status = os.waitstatus_to_exitcode(status)
    want(is_right(status, tail, errs), name, status, tail, errs)
    print("%s: status %d, %.1f s, %d MB at most" % (name, status, time.time() - begun, usage.ru_maxrss // 1024), flush=True)


def limits():
    small = b"mtest 1\nwords 2\nthread\nst 0\nld 1\nthread\nst 1\nld 0\nend\n"
    loads = b"mtest 1\nwords 1\nthread\n" + b"ld 0\n" * 2048 + b"end\n"
    wide = run(["generate", "--seed", "9", "--threads", "2", "--ops", "67", "--words", "8", "--stores", "50"])[1]
    loads_of_wide = wide.count(b"\nld")
    row = b"run" + b" 0" * 2048 + b"\n"

    def of(*parts):
        def feed(to):
            for part, times in parts:
                block = part * max(1, min(times, (1 << 22) // len(part)))
                whole, rest = divmod(times, len(block) // len(part))
                for _ in range(whole):
                    to.write(block)
                to.write(part * rest)
        return feed
    ends = lambda text: lambda status, tail, errs: status in (0, 1) and text in tail and not errs
    refused = lambda line: lambda status, tail, errs: status == 7 and not tail and errs == line
    for workers in ("1", "4"):
        measured("check of 1,000,000 runs, %s workers" % workers, ["check", "--workers", workers], of((small, 1), (b"run 0 1\nrun 2 0\n", 500_000), (b"done\n", 1)), ends(b"sum signatures 2"))
        measured("check of 67,108,864 values, %s workers" % workers, ["check", "--workers", workers], of((loads, 1), (row, 32_768), (b"done\n", 1)), ends(b"sum signatures 1"))
    runs_of_wide = min(1_000_000, (1 << 26) // loads_of_wide)
    measured("%d drawn runs of %d loads, 1 runner" % (runs_of_wide, loads_of_wide), ["run", "--runs", str(runs_of_wide), "--target", "tso", "--model", "tso", "--runners", "1", "--workers", "1"], of((wide, 1)), ends(b"sum signatures"))
    measured("1,000,000 drawn runs of store buffering, 4 runners", ["run", "--runs", "1000000", "--target", "tso", "--model", "tso"], of((small, 1)), ends(b"sum signatures"))
    measured("1,000,001 runs", ["check"], of((small, 1), (b"run 0 1\n", 1_000_001), (b"done\n", 1)), refused(b"mtrace: too large: runs 1000001\n"))
    measured("32,769 runs of 2,048 loads", ["check"], of((loads, 1), (row, 32_769), (b"done\n", 1)), refused(b"mtrace: too large: values 67110912\n"))
    fill = (1 << 30) - len(small) - 5
    runs = fill // 8
    measured("2^30 bytes of runs", ["check"], of((small, 1), (b"run 0 1\n", runs), (b"done\n", 1)), refused(b"mtrace: too large: runs %d\n" % runs))
    measured("10,000 races", ["race", "--runs", "10000"], of((small, 1)), ends(b"sum signatures"))


def main():
    parser = argparse.ArgumentParser(description=__doc__.splitlines()[0])
    parser.add_argument("--minutes", type=float, default=1)
    parser.add_argument("--seed", type=int, default=1)
    parser.add_argument("--limits", action="store_true")
    chosen = parser.parse_args()
    if not os.path.exists(PROGRAM):
        sys.exit("the program isn't built: README.md says how")
    chance = random.Random(chosen.seed)
    tests, runs, calls = 0, 0, 0
    end = time.time() + (0 if chosen.limits else 60 * chosen.minutes)
    try:
        while time.time() < end:
            runs += race(chance)
            calls += crews(chance)
            tests += 1
        print("%d tests raced, %d races in all, each as checked; %d tests run by %d crews each, equal bytes" % (tests, runs, tests, len(CREWS)), flush=True)
        limits()
    except Differs as found:
        print("DIFFERS:", found)
        sys.exit(1)


if __name__ == "__main__":
    main()
