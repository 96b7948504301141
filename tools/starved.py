#!/usr/bin/env python3
"""Runs a program on an event file and refuses it memory at each growth in turn: at the first, at the second, and so on.

    tools/starved.py PROGRAM [run|log|check] FILE [STRIDE]

A run that was refused memory ends with status 6, and what it wrote is the front of what it writes with enough memory, cut behind a
line; or it ends as it does with enough memory, where what it wanted only made it faster. With a stride s every s-th growth is refused. The gate
doesn't run this: it needs a C compiler and a program that finds `malloc` by the loader.
"""
import os
import subprocess
import sys
import tempfile

REFUSING = r"""
#define _GNU_SOURCE
#include <dlfcn.h>
#include <errno.h>
#include <fcntl.h>
#include <stdlib.h>

static long left = -1;

__attribute__((constructor)) static void begin(void)
{
    const char *text = getenv("GROWTH");
    left = text ? atol(text) : -1;
}

static int refuses(void)
{
    if (left < 0)
        return 0;
    if (left > 0) {
        left -= 1;
        return 0;
    }
    left = -1;
    open(getenv("REFUSED"), O_CREAT | O_WRONLY, 0600);
    errno = ENOMEM;
    return 1;
}

void *malloc(size_t size)
{
    static void *(*next)(size_t);
    if (!next)
        next = dlsym(RTLD_NEXT, "malloc");
    return refuses() ? 0 : next(size);
}

void *realloc(void *at, size_t size)
{
    static void *(*next)(void *, size_t);
    if (!next)
        next = dlsym(RTLD_NEXT, "realloc");
    return refuses() ? 0 : next(at, size);
}
"""


def refusing(folder):
    """The library that refuses memory, compiled into a folder."""
    source, made = f"{folder}/refusing.c", f"{folder}/refusing.so"
    with open(source, "w", encoding="utf-8") as it:
        it.write(REFUSING)
    subprocess.run(["cc", "-shared", "-fPIC", "-O1", "-o", made, source, "-ldl"], check=True)
    return made


def answer(program, verb, text, **more):
    """Status and output of one run."""
    around = dict(os.environ) | more
    ran = subprocess.run([program, verb], input=text, env=around, capture_output=True, timeout=600)
    return ran.returncode, ran.stdout


def fault(whole, starved):
    """What is wrong with the answer of a run that was refused memory, beside the answer with enough of it."""
    status, out = starved
    if starved == whole:
        return None
    if status != 6:
        return f"status {status}"
    if not whole[1].startswith(out):
        return "its output is no front part"
    if out and not out.endswith(b"\n"):
        return "its output ends within a line"
    return None


def main():
    program, verb, file = sys.argv[1:4]
    stride = int(sys.argv[4]) if len(sys.argv) > 4 else 1
    with open(file, "rb") as it:
        text = it.read()
    whole = answer(program, verb, text)
    refused = 0
    with tempfile.TemporaryDirectory() as folder:
        library, told = refusing(folder), f"{folder}/refused"
        while True:
            growth = refused * stride
            starved = answer(program, verb, text, LD_PRELOAD=library, GROWTH=str(growth), REFUSED=told)
            if not os.path.exists(told):
                break
            os.remove(told)
            wrong = fault(whole, starved)
            if wrong:
                print(f"growth {growth + 1} refused: {wrong}")
                return 1
            refused += 1
    print(f"{refused} growths refused")
    return 0


sys.exit(main())
