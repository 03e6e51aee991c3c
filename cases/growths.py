#!/usr/bin/env python3
"""Each growth of a replay refused in turn: cases/growths.py [OBJECT]

Links the object of `dex` (crates/dex/out/dex.o where none is given, which a run of `rt` that builds the program leaves there) anew, over a
`malloc` and a `realloc` that refuse one call, or that call and all behind it, and plays `replay` on one adjusted delivery once for each call
that it makes. Each play ends with status 11 and prints nothing, or ends as the undisturbed one, and so ends a later one to which nothing is refused.
It needs `cc`, and the folder of the kit, which `rt doc` names.
Its last line is 'N passed, N failed'; its status is 1 where one failed.
"""
import os
import subprocess
import sys
import tempfile
from concurrent.futures import ThreadPoolExecutor

from stops import FRONT, SETTLED, told

SCRIPT = (FRONT + "CLEAN\n").encode()
REFUSING = """
#include <stdio.h>
#include <stdlib.h>

static unsigned long asked, first, last;

static void tell(void) { fprintf(stderr, "%lu", asked); }

__attribute__((constructor)) static void begin(void) {
    first = strtoul(getenv("REFUSED_FROM"), 0, 10);
    last = strtoul(getenv("REFUSED_TO"), 0, 10);
    atexit(tell);
}

static int is_refused(void) { return ++asked >= first && asked <= last; }

void *__real_malloc(size_t size);
void *__real_realloc(void *place, size_t size);
void *__wrap_malloc(size_t size) { return is_refused() ? 0 : __real_malloc(size); }
void *__wrap_realloc(void *place, size_t size) { return is_refused() ? 0 : __real_realloc(place, size); }
"""
NONE, ALL = 0, 2**63
NO_MEMORY = (11, "")


def linked(target, folder):
    """The program over a heap that refuses."""
    kit = os.path.dirname(subprocess.run(["rt", "doc"], capture_output=True, text=True, check=True).stdout.strip())
    heap, program = f"{folder}/refusing.c", f"{folder}/dex"
    with open(heap, "w") as file:
        file.write(REFUSING)
    wraps = ["-Wl,--wrap=malloc", "-Wl,--wrap=realloc"]
    subprocess.run(["cc", *wraps, "-o", program, target, heap, f"{kit}/c/libos_c.a", f"{kit}/c/liblibc_c.a"], check=True)
    return program


def played(program, first, last):
    """Status and output of a replay to which these growths are refused, and how many it asked for."""
    refused = {"REFUSED_FROM": str(first), "REFUSED_TO": str(last)}
    done = subprocess.run([program, "replay"], input=SCRIPT, env=refused, capture_output=True, timeout=60)
    return (done.returncode, done.stdout.decode("latin-1")), int(done.stderr)


def wrong(program, first, last):
    """What is wrong where these growths are refused."""
    got, _ = played(program, first, last)
    if got not in (NO_MEMORY, (0, SETTLED)):
        return f"growths {first} to {last} refused: status {got[0]}, printed {got[1]!r}"
    later, _ = played(program, NONE, NONE)
    return "" if later == (0, SETTLED) else f"behind {first} to {last}: status {later[0]}, printed {later[1]!r}"


def main():
    target = os.path.abspath(sys.argv[1] if len(sys.argv) > 1 else "crates/dex/out/dex.o")
    with tempfile.TemporaryDirectory() as folder:
        program = linked(target, folder)
        whole, growths = played(program, NONE, NONE)
        ranges = [(at, to) for at in range(1, growths + 1) for to in (at, ALL)]
        with ThreadPoolExecutor(os.cpu_count()) as pool:
            found = list(pool.map(lambda refused: wrong(program, *refused), ranges))
    if whole != (0, SETTLED):
        found.append(f"nothing refused: status {whole[0]}, printed {whole[1]!r}")
    print(f"{growths} growths")
    return told(found)


if __name__ == "__main__":
    sys.exit(main())
