#!/usr/bin/env python3
"""memory.py PROGRAM [COMMAND ...]: want of memory, command by command, on the built program. Not part of the gate; needs gcc.

Each allocation of a run on a small input is refused in turn, by a malloc that is laid over the C library's; then the run is made
again with less and less address space, down to where the program no longer starts. The answer has to be Ok with the whole output,
or 'out of memory' with status 7 and nothing written: never an abort, a hang or another text. Whole is what the command writes with
all memory; two runs of threads may write two reports, and each that the program's own audit finds lawful is whole."""

import os
import resource
import subprocess
import sys
import tempfile

SHIM = r"""
#define _GNU_SOURCE
#include <dlfcn.h>
#include <errno.h>
#include <fcntl.h>
#include <stdlib.h>
#include <sys/mman.h>
#include <unistd.h>
/* Refuses the allocation whose number stands in REFUSED, and counts them in the file COUNTED, however the program ends. */
static long number, refused = -1, *counted;
static int is_refused(void) {
    if (refused < 0) {
        const char *told = getenv("REFUSED"), *place = getenv("COUNTED");
        int file = place ? open(place, O_RDWR | O_CREAT | O_TRUNC, 0600) : -1;
        if (file >= 0 && ftruncate(file, sizeof *counted) == 0)
            counted = mmap(0, sizeof *counted, PROT_READ | PROT_WRITE, MAP_SHARED, file, 0);
        refused = told ? atol(told) : 0;
    }
    if (counted && counted != MAP_FAILED)
        __atomic_add_fetch(counted, 1, __ATOMIC_SEQ_CST);
    return __atomic_add_fetch(&number, 1, __ATOMIC_SEQ_CST) == refused;
}
#define NEXT(name, type) static type real; if (!real) real = (type)dlsym(RTLD_NEXT, name)
typedef void *(*of_size)(size_t);
typedef void *(*of_two)(size_t, size_t);
typedef void *(*of_old)(void *, size_t);
typedef int (*of_place)(void **, size_t, size_t);
void *malloc(size_t n) { NEXT("malloc", of_size); if (is_refused()) { errno = ENOMEM; return 0; } return real(n); }
void *calloc(size_t k, size_t n) { NEXT("calloc", of_two); if (is_refused()) { errno = ENOMEM; return 0; } return real(k, n); }
void *realloc(void *p, size_t n) { NEXT("realloc", of_old); if (is_refused()) { errno = ENOMEM; return 0; } return real(p, n); }
void *aligned_alloc(size_t a, size_t n) { NEXT("aligned_alloc", of_two); if (is_refused()) { errno = ENOMEM; return 0; } return real(a, n); }
int posix_memalign(void **p, size_t a, size_t n) { NEXT("posix_memalign", of_place); if (is_refused()) return ENOMEM; return real(p, a, n); }
"""

DAY = "day.trace"  # of three clients, made by drill
COMMANDS = {
    "replay": (["replay"], "steady.trace"),
    "replay --civil": (["replay", "--civil"], "steady.trace"),
    "order": (["order", "1000000"], "steady.trace"),
    "threads": (["threads"], DAY),
    "threads --workers 2": (["threads", "--workers", "2"], DAY),
    "audit": (["audit"], "judged-report.txt"),
    "pagetime": (["pagetime"], "page-reads.txt"),
    "agree": (["agree"], "four-clocks.txt"),
    "decode reply": (["decode", "reply"], "steady-reply.hex"),
    "decode page": (["decode", "page"], "start-page.hex"),
    "decode image": (["decode", "image"], "kept-image.hex"),
    "drill": (["drill", "0", "6"], None),
    "drill --trace": (["drill", "0", "6", "--trace"], None),
}
PAGE = 4_096
MEMORY = (7, b"", b"clockbound: out of memory\n")


def run(program, words, path, added=None, address_space=None):
    """Status, output and text of one run; a run that hangs or is killed has no status."""
    def limit():
        if address_space is not None:
            resource.setrlimit(resource.RLIMIT_AS, (address_space, address_space))
            resource.setrlimit(resource.RLIMIT_CORE, (0, 0))

    text = open(path, "rb") if path else subprocess.DEVNULL
    try:
        done = subprocess.run(
            [program, *words], stdin=text, capture_output=True, env={**os.environ, **(added or {})}, preexec_fn=limit, timeout=60
        )
    except subprocess.TimeoutExpired:
        return ("hangs", b"", b"")
    finally:
        if path:
            text.close()
    return (done.returncode, done.stdout, done.stderr)


def judge_of(program, words, path):
    """Whether what a run answered is Ok with the whole output."""
    if words[0] != "threads":
        whole = run(program, words, path)
        return lambda found: found[0] == 0 and found == whole
    with open(path, "rb") as text:
        jobs = text.read() + b"report\n"

    def is_lawful(found):
        audit = subprocess.run([program, "audit"], input=jobs + found[1], capture_output=True)
        return found[0] == 0 and found[2] == b"" and audit.stdout == b"lawful\n"
    return is_lawful


def refused_in_turn(program, shim, words, path, is_whole, room):
    """How many allocations there were, those that ended in want of memory, and what else came."""
    counted = os.path.join(room, "counted")
    added = {"LD_PRELOAD": shim, "COUNTED": counted, "REFUSED": "0"}
    if not is_whole(run(program, words, path, added)):
        return 0, 0, ["a malloc that refuses nothing changes the output"]
    with open(counted, "rb") as told:
        total = int.from_bytes(told.read(), "little")
    wants, others = 0, []
    for number in range(1, total + 1):
        found = run(program, words, path, {**added, "REFUSED": str(number)})
        if found == MEMORY:
            wants += 1
        elif not is_whole(found):
            others.append(f"allocation {number} refused: status {found[0]}, {len(found[1])} bytes written, {found[2][:60]!r}")
    return total, wants, others


def starts(program, address_space):
    """Whether the program can be started at all in so much address space: without a word it answers at once."""
    return run(program, [], None, address_space=address_space)[0] == 2


def with_less_space(program, words, path, is_whole, least):
    """How many sizes were tried, those that ended in want of memory, and what else came."""
    sizes = [least + step * PAGE for step in range(257)] + [least + step * 1_048_576 for step in range(2, 17)]
    wants, others = 0, []
    for size in sizes:
        found = run(program, words, path, address_space=size)
        if found == MEMORY:
            wants += 1
        elif not is_whole(found):
            others.append(f"{size} bytes of address space: status {found[0]}, {len(found[1])} bytes written, {found[2][:60]!r}")
    return len(sizes), wants, others


def main():
    program, wanted = os.path.abspath(sys.argv[1]), sys.argv[2:]
    failed = False
    with tempfile.TemporaryDirectory() as room:
        source, shim = os.path.join(room, "refusing.c"), os.path.join(room, "refusing.so")
        with open(source, "w") as text:
            text.write(SHIM)
        subprocess.run(["gcc", "-O1", "-shared", "-fPIC", "-o", shim, source, "-ldl"], check=True)
        least = next(size for size in range(PAGE, 1 << 30, PAGE) if starts(program, size))
        print(f"the program starts in {least // 1024} KiB of address space")
        with open(os.path.join(room, DAY), "wb") as text:
            text.write(run(program, ["drill", "0", "6", "--trace"], None)[1])
        for name, (words, example) in COMMANDS.items():
            if wanted and name not in wanted:
                continue
            path = example and os.path.join(room if example == DAY else "examples", example)
            is_whole = judge_of(program, words, path)
            total, wants, others = refused_in_turn(program, shim, words, path, is_whole, room)
            tried, short, further = with_less_space(program, words, path, is_whole, least)
            print(f"{name}: {total} allocations, {wants} refused with status 7; {tried} sizes, {short} with status 7; {len(others) + len(further)} wrong")
            for line in others + further:
                print(f"  {line}")
            failed = failed or bool(others or further)
    return failed


if __name__ == "__main__":
    sys.exit(main())
