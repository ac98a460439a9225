#!/usr/bin/env python3
"""Faults at each place, on the built program: memory that is refused, limits on memory, streams that fail, and inputs without end.

Run it at the top of the repository once the program is built (README.md says how): `python3 tools/faults.py`.
It tells what it tried, a line for each part, and ends with status 1 where something is answered otherwise than it has to be.
`--only PART` does one part alone. It needs `cc`, and for the part `endless` two gigabytes of memory.
"""
import argparse
import os
import resource
import signal
import subprocess
import sys
import tempfile
import threading
import time

TOP = os.path.dirname(os.path.dirname(os.path.abspath(__file__)))
PROGRAM = os.path.join(TOP, "crates", "mtrace", "out", "mtrace")
SET_TESTS = os.path.join(TOP, "crates", "turn_set", "out", "turn_set_tests")

STORE_BUFFERING = b"mtest 1\nwords 2\nthread\nst 0\nld 1\nthread\nst 1\nld 0\nend\n"

# What the C library's allocator is asked for, with the request of one number refused. A refusal leaves the file REFUSED.
SHIM = r"""
#include <errno.h>
#include <fcntl.h>
#include <stdatomic.h>
#include <stddef.h>
#include <stdlib.h>
#include <unistd.h>

void *__libc_malloc(size_t);
void *__libc_calloc(size_t, size_t);
void *__libc_realloc(void *, size_t);
void *__libc_memalign(size_t, size_t);

static atomic_long requests;
static long refused = -1;

__attribute__((constructor)) static void begin(void) {
    const char *text = getenv("REFUSE");
    refused = text ? atol(text) : 0;
    atomic_store(&requests, 0);
}

static int refuse(void) {
    if (refused < 0 || atomic_fetch_add(&requests, 1) + 1 != refused) return 0;
    close(open(getenv("REFUSED"), O_WRONLY | O_CREAT, 0600));
    errno = ENOMEM;
    return 1;
}

void *malloc(size_t size) { return refuse() ? NULL : __libc_malloc(size); }
void *calloc(size_t count, size_t size) { return refuse() ? NULL : __libc_calloc(count, size); }
void *realloc(void *block, size_t size) { return refuse() ? NULL : __libc_realloc(block, size); }
void *aligned_alloc(size_t align, size_t size) { return refuse() ? NULL : __libc_memalign(align, size); }
int posix_memalign(void **block, size_t align, size_t size) {
    if (refuse()) return ENOMEM;
    *block = __libc_memalign(align, size);
    return *block ? 0 : ENOMEM;
}
"""


class Wrong(Exception):
    """An answer that isn't what it has to be."""


def run(words, data, program=PROGRAM, **more):
    done = subprocess.run([program] + words, input=data, stdout=subprocess.PIPE, stderr=subprocess.PIPE, timeout=300, **more)
    return done.returncode, done.stdout, done.stderr


def want(is_so, *what):
    if not is_so:
        raise Wrong(" ".join(str(part) for part in what))


MEMORY = (6, b"", b"mtrace: memory\n")
# Where even the words of the call can't be had the program writes nothing (docs/FORMATS.md).
NO_WORDS = (6, b"", b"")


# ---- memory that is refused, one request at a time


def is_race(answer):
    """A race's report is that of `check` on its lines."""
    status, output, errs = answer
    lines = [line for line in output.splitlines(True) if line.startswith(b"run ")]
    checked = run(["check"], STORE_BUFFERING + b"".join(lines) + b"done\n")
    return len(lines) == 20 and (status, b"".join(lines) + checked[1], errs) == (0, output, b"") and checked[0] == 0


def is_no_memory(answer):
    return answer in (MEMORY, NO_WORDS)


def refused_at_each(shim, folder, words, data, is_own, program=PROGRAM, is_refusal=is_no_memory):
    """Refuses one request after another, each in a call of its own, until a call makes fewer; tells how many were refused, and after how many of these the call went on."""
    mark = os.path.join(folder, "refused")
    number, went_on = 0, 0
    while True:
        number += 1
        if os.path.exists(mark):
            os.remove(mark)
        more = dict(os.environ, LD_PRELOAD=shim, REFUSE=str(number), REFUSED=mark)
        answer = run(words, data, program, env=more)
        if not os.path.exists(mark):
            want(is_own(answer), words, "without a refusal:", answer)
            return "%d requests, and after %d of them the call went on" % (number - 1, went_on)
        want(is_refusal(answer) or is_own(answer), words, "request", number, "refused:", answer)
        went_on += not is_refusal(answer)


def refused_memory(folder):
    source, shim = os.path.join(folder, "shim.c"), os.path.join(folder, "shim.so")
    with open(source, "w") as file:
        file.write(SHIM)
    subprocess.run(["cc", "-O2", "-shared", "-fPIC", "-o", shim, source], check=True)
    recorded = STORE_BUFFERING + b"run 0 0\ndone\n"
    drawn = ["run", "--runs", "200", "--seed", "5", "--target", "tso", "--model", "tso"]
    rows = [("check of a run of store buffering", ["check"], recorded)]
    for runners in ("1", "2", "8"):
        rows.append(("200 drawn runs, runners " + runners, drawn + ["--runners", runners], STORE_BUFFERING))
    for name, words, data in rows:
        own = run(words, data)
        want(own[0] in (0, 1) and own[1], words, own)
        print("refused memory,", name + ":", refused_at_each(shim, folder, words, data, lambda a: a == own))
    races = ["race", "--runs", "20"]
    print("refused memory, 20 races:", refused_at_each(shim, folder, races, STORE_BUFFERING, is_race))
    shared_set(shim, folder)


def shared_set(shim, folder):
    """The test of the shared set tries again where its batch was refused memory, and ends with an error where anything else was."""
    if not os.path.exists(SET_TESTS):
        print("refused memory, the shared set: not tried, its tests aren't built")
        return
    words = ["tests::refused_batch_is_whole_and_enters_once"]
    passes = lambda answer: answer[0] == 0
    is_refusal = lambda answer: answer[0] == 101 and answer[2].startswith(b"error: AllocError\n")
    print("refused memory, the shared set:", refused_at_each(shim, folder, words, b"", passes, SET_TESTS, is_refusal))


# ---- a hard limit on memory


def limited(words, data, limit):
    def set_limit():
        resource.setrlimit(resource.RLIMIT_AS, (limit, limit))
    return run(words, data, preexec_fn=set_limit)


def limits(_folder):
    test = run(["generate", "--seed", "9", "--threads", "4", "--ops", "50", "--words", "32"], b"")[1]
    many = STORE_BUFFERING + b"run 0 1\nrun 2 0\n" * 500_000 + b"done\n"
    rows = [
        ("check of 1,000,000 runs", ["check", "--workers", "1"], many, 21),
        ("check, 4 workers", ["check", "--workers", "4"], many, 21),
        ("50,000 drawn runs, 4 runners", ["run", "--runs", "50000", "--runners", "4", "--workers", "4", "--target", "tso", "--model", "tso"], test, 23),
    ]
    least = 1 << 20
    while limited(["no", "words"], b"", least)[0] != 2:
        least += 1 << 20
    for name, words, data, unit in rows:
        own = run(words, data)
        seen = []
        for step in range(10):
            limit = least + (step * step << unit)
            begun = time.time()
            answer = limited(words, data, limit)
            want(answer in (own, MEMORY, NO_WORDS), words, "limit", limit, answer[0], answer[2])
            seen.append("%s at %d MB in %.1f s" % ("memory" if answer != own else "its report", limit >> 20, time.time() - begun))
        print("limits on memory,", name + ":", "; ".join(seen))


# ---- streams that fail, and inputs without end


def streams(_folder):
    data = STORE_BUFFERING + b"run 0 1\nrun 2 0\n" * 1000 + b"done\n"
    failed = (5, b"mtrace: write fault\n")
    with open("/dev/full", "wb") as full:
        done = subprocess.run([PROGRAM, "check"], input=data, stdout=full, stderr=subprocess.PIPE, timeout=60)
    want((done.returncode, done.stderr) == failed, "a full device", done)
    reader, writer = os.pipe()
    os.close(reader)
    for name, restored in (("ignored", False), ("as it is at first", True)):
        done = subprocess.run([PROGRAM, "check"], input=data, stdout=writer, stderr=subprocess.PIPE, timeout=60, restore_signals=restored)
        by_signal = restored and done.returncode == -signal.SIGPIPE
        want((done.returncode, done.stderr) == failed or by_signal, "a closed pipe", done)
        print("a closed pipe, its signal", name + ":", "ended by the signal" if by_signal else "status 5 and its line")
    os.close(writer)
    with open(os.devnull, "rb") as nothing:
        done = subprocess.run([PROGRAM, "check"], stdin=nothing, stdout=subprocess.PIPE, stderr=subprocess.PIPE)
    want((done.returncode, done.stderr) == (3, b"mtrace: input line 1: NoEnd\n"), "an empty input", done)
    print("a full device: status 5 and its line")


def stalls(_folder):
    data = STORE_BUFFERING + b"run 0 1\ndone\n"
    own = run(["check"], data)
    child = subprocess.Popen([PROGRAM, "check"], stdin=subprocess.PIPE, stdout=subprocess.PIPE, stderr=subprocess.PIPE)
    for part in (data[:30], data[30:60], data[60:]):
        child.stdin.write(part)
        child.stdin.flush()
        time.sleep(1)
        want(child.poll() is None, "it didn't wait")
    output, errs = child.communicate(timeout=60)
    want((child.returncode, output, errs) == own, "a source that stalls", child.returncode, errs)
    print("a source that stalls: waited three times for a second, and went on")


def fed(words, blocks):
    """The answer to an input that is written block by block, and the seconds."""
    child = subprocess.Popen([PROGRAM] + words, stdin=subprocess.PIPE, stdout=subprocess.PIPE, stderr=subprocess.PIPE)
    begun = time.time()

    def feed():
        try:
            for block in blocks:
                child.stdin.write(block)
            child.stdin.close()
        except BrokenPipeError:
            pass
    feeder = threading.Thread(target=feed)
    feeder.start()
    output, errs = child.stdout.read(), child.stderr.read()
    child.wait()
    feeder.join()
    return (child.returncode, output, errs), time.time() - begun


def endless(_folder):
    block = 1 << 20
    rows = [
        ("a million empty lines", [b"\n" * 1_000_000], (3, b"", b"mtrace: input line 1: BadHead\n")),
        ("a million empty lines behind a test", [STORE_BUFFERING, b"\n" * 1_000_000], (3, b"", b"mtrace: input line 10: BadRunLine\n")),
        ("2^30 bytes of one line", (b"9" * block for _ in range(1024)), (3, b"", b"mtrace: input line 1: NoEnd\n")),
        ("2^30 bytes of a run line", [STORE_BUFFERING, b"run "] + [b"9" * (block - 64)] * 1024, (3, b"", b"mtrace: input line 10: NoDone\n")),
        ("2^30 + 1 bytes of one line", [b"9"] + [b"9" * block] * 1024, (7, b"", b"mtrace: too large: bytes\n")),
        ("a line without end", (b"9" * block for _ in iter(int, 1)), (7, b"", b"mtrace: too large: bytes\n")),
    ]
    for name, blocks, wanted in rows:
        answer, seconds = fed(["check"], blocks)
        want(answer == wanted, name, answer)
        print("%s: status %d in %.1f s" % (name, answer[0], seconds))


PARTS = {"refused": refused_memory, "limits": limits, "streams": streams, "stalls": stalls, "endless": endless}


def main():
    parser = argparse.ArgumentParser(description=__doc__.splitlines()[0])
    parser.add_argument("--only", choices=sorted(PARTS))
    chosen = parser.parse_args().only
    if not os.path.exists(PROGRAM):
        sys.exit("the program isn't built: README.md says how")
    wrong = 0
    with tempfile.TemporaryDirectory() as folder:
        for name, part in PARTS.items():
            if chosen in (None, name):
                try:
                    part(folder)
                except Wrong as found:
                    print("WRONG:", found)
                    wrong = 1
    sys.exit(wrong)


if __name__ == "__main__":
    main()
