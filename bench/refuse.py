#!/usr/bin/env python3
"""Refuses each request of the program for memory in turn, one in each run, for some commands: each run must end with the
command's answer, or with status 8 and nothing written. Tells how many runs ended which way, and ends with status 1 where
one did neither. Usage: refuse.py [PROGRAM]. Wants a built program, a C compiler and the GNU C library."""
import os, pathlib, subprocess, sys, tempfile

TOP = pathlib.Path(__file__).resolve().parent.parent
PROGRAM = pathlib.Path(sys.argv[1] if len(sys.argv) > 1 else TOP / "crates/n7725/out/n7725").resolve()
NO_MEMORY = 8

# Each call counts, and that of the number in REFUSE gives nothing. At its end the program tells how many there were.
SHIM = r"""
#include <errno.h>
#include <stdio.h>
#include <stdlib.h>

extern void *__libc_malloc(size_t), *__libc_calloc(size_t, size_t), *__libc_realloc(void *, size_t), *__libc_memalign(size_t, size_t);

static long calls, refused;

__attribute__((constructor)) static void begin(void) {
    const char *number = getenv("REFUSE");
    refused = number ? atol(number) : 0;
    calls = 0;
}

__attribute__((destructor)) static void end(void) {
    const char *name = getenv("CALLS");
    FILE *file;
    long count = calls;
    refused = 0;
    if (name && (file = fopen(name, "w"))) {
        fprintf(file, "%ld", count);
        fclose(file);
    }
}

static int refuse(void) { return ++calls == refused; }

void *malloc(size_t size) { return refuse() ? NULL : __libc_malloc(size); }
void *calloc(size_t count, size_t size) { return refuse() ? NULL : __libc_calloc(count, size); }
void *realloc(void *old, size_t size) { return refuse() ? NULL : __libc_realloc(old, size); }
void *memalign(size_t align, size_t size) { return refuse() ? NULL : __libc_memalign(align, size); }
void *aligned_alloc(size_t align, size_t size) { return memalign(align, size); }
int posix_memalign(void **place, size_t align, size_t size) { return (*place = memalign(align, size)) ? 0 : ENOMEM; }
"""

COMMANDS = [
    ["run", TOP / "examples/echo/echo.rom", TOP / "examples/echo/greet.script"],
    ["asm", TOP / "examples/echo/echo.asm"],
    ["dis", TOP / "examples/echo/echo.rom"],
    ["compare", TOP / "examples/echo/echo.rom", TOP / "examples/echo/changed.rom", "2", "12"],
    ["compare", TOP / "examples/adder/old.rom", TOP / "examples/adder/longer.rom", "6", "12", "shape=WWRWWR"],
    ["demo", "7"],
]


def run(folder, command, refused):
    """The status, what was written, and how many requests there were."""
    calls = folder / "calls"
    extra = {"LD_PRELOAD": str(folder / "shim.so"), "REFUSE": str(refused), "CALLS": str(calls)}
    ended = subprocess.run([PROGRAM, *command], capture_output=True, env=os.environ | extra)
    return (ended.returncode, ended.stdout), int(calls.read_text())


def main():
    wrong = 0
    with tempfile.TemporaryDirectory() as name:
        folder = pathlib.Path(name)
        (folder / "shim.c").write_text(SHIM)
        subprocess.run(["cc", "-O2", "-shared", "-fPIC", "-o", folder / "shim.so", folder / "shim.c"], check=True)
        for command in COMMANDS:
            answer, requests = run(folder, command, 0)
            ends = [run(folder, command, number)[0] for number in range(1, requests + 1)]
            same, none = ends.count(answer), ends.count((NO_MEMORY, b""))
            wrong += requests - same - none
            words = " ".join(word.name if isinstance(word, pathlib.Path) else word for word in command)
            print(f"{words}: {requests} requests; {none} runs wanted memory, {same} gave the answer, {requests - same - none} neither")
    sys.exit(wrong > 0)


if __name__ == "__main__":
    main()
