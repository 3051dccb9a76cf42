#!/usr/bin/env python3
"""Lets each allocation of the program fail in turn, on every example: no answer comes in its place.

    tests/program/failed_allocations.py PROGRAM [SESSION ..]

Without names it takes each text of examples/ that has its answers next to it, tests/program/three_clients.txt, whose text
does not depend on the schedule, a session whose text is put together in several pieces on threads, one whose lines
are read in several blocks, the sessions of tests/program/rows.py whose clients have a named number of node slots, and two
texts that `check` is given, one legal and one not. Wanted of each failure: status 7, a start of the whole text, down
to nothing, and one line on standard error; or the same end as without a failure, where a thread could not be started,
and its client was run, its piece made or its block read without one. A session of several clients needs answers that
do not depend on the schedule. PROGRAM is the built program itself, crates/bucketidx/out/bucketidx. A small library,
which is compiled with cc and loaded before the C library, counts the program's allocations and refuses one of them;
those of the C library itself are let through. Not part of the gate.
"""
import argparse
import os
import subprocess
import sys
import tempfile
from pathlib import Path

sys.path.insert(0, str(Path(__file__).resolve().parent.parent / "models"))
from check_rows import VERDICTS
from rows import rows
from running import words_of
from several_blocks import plain_session
from several_pieces import long_lines

HERE = Path(__file__).resolve().parent.parent.parent
THREE = HERE / "tests" / "program" / "three_clients.txt"
# The session of tests/program/rows.txt whose pages follow each other.
PAGES = "a_common_prefix_fills_the_page_and_next_goes_on"
# The examples whose clients have a named number of node slots.
SLOTS = {"few_slots": 2}
# The rows of `check`: a legal text, and one with a wrong line.
CHECKED = ["the text of a run", "an answer that is not true"]
LIBRARY = r"""
#define _GNU_SOURCE
#include <dlfcn.h>
#include <elf.h>
#include <errno.h>
#include <fcntl.h>
#include <stddef.h>
#include <stdlib.h>
#include <sys/auxv.h>
#include <sys/mman.h>
#include <unistd.h>

void *__libc_malloc(size_t);
void *__libc_calloc(size_t, size_t);
void *__libc_realloc(void *, size_t);
void *__libc_memalign(size_t, size_t);

static long uncounted, failing;
static long *count = &uncounted;
static void *program;

/* How many allocations were asked for, of which one may have been refused, stands in a file that is mapped: so it is there
   however the program ends, and whichever thread asks. */
__attribute__((constructor)) static void begin(void) {
    Dl_info info;
    const char *word = getenv("FAILED_ALLOCATION"), *name = getenv("ALLOCATIONS_FILE");
    failing = word ? atol(word) : 0;
    int file = name ? open(name, O_RDWR | O_CREAT | O_TRUNC, 0600) : -1;
    if (file >= 0 && ftruncate(file, sizeof *count) == 0) {
        void *mapped = mmap(NULL, sizeof *count, PROT_READ | PROT_WRITE, MAP_SHARED, file, 0);
        if (mapped != MAP_FAILED) count = mapped;
    }
    if (dladdr((void *)getauxval(AT_ENTRY), &info)) program = info.dli_fbase;
}

static int refused(void *caller) {
    Dl_info info;
    if (!program || !dladdr(caller, &info) || info.dli_fbase != program) return 0;
    if (__atomic_add_fetch(count, 1, __ATOMIC_SEQ_CST) != failing) return 0;
    errno = ENOMEM;
    return 1;
}

#define CALLER __builtin_extract_return_addr(__builtin_return_address(0))
void *malloc(size_t size) { return refused(CALLER) ? NULL : __libc_malloc(size); }
void *calloc(size_t many, size_t size) { return refused(CALLER) ? NULL : __libc_calloc(many, size); }
void *realloc(void *old, size_t size) { return refused(CALLER) ? NULL : __libc_realloc(old, size); }
void *aligned_alloc(size_t align, size_t size) { return refused(CALLER) ? NULL : __libc_memalign(align, size); }
int posix_memalign(void **made, size_t align, size_t size) {
    if (refused(CALLER)) return ENOMEM;
    *made = __libc_memalign(align, size);
    return *made ? 0 : ENOMEM;
}
"""


class Tried:
    """The program, with the library that refuses allocations."""

    def __init__(self, program, folder):
        self.program, self.counted = program, folder / "count"
        source, library = folder / "refusing.c", folder / "refusing.so"
        source.write_text(LIBRARY)
        subprocess.run(["cc", "-O1", "-fPIC", "-shared", "-o", library, source, "-ldl"], check=True)
        self.environment = dict(os.environ, LD_PRELOAD=str(library), ALLOCATIONS_FILE=str(self.counted))

    def run(self, session, failing=0, words=("run",)):
        environment = dict(self.environment, FAILED_ALLOCATION=str(failing))
        return subprocess.run([self.program, *words], input=session, capture_output=True, env=environment)

    def allocations(self):
        """How many allocations the last run asked for."""
        return int.from_bytes(self.counted.read_bytes(), sys.byteorder)


def refused_rightly(ran, whole):
    lines = ran.stderr.decode().splitlines()
    return ran.returncode == 7 and whole.startswith(ran.stdout) and lines == ["bucketidx: no memory"]


def failures_of(tried, session, text=None, words=("run",)):
    """How many allocations were refused in turn, at how many of them something was written, and at how many all of
    it."""
    ran = tried.run(session, words=words)
    ended = ran.returncode, ran.stdout, ran.stderr
    if ran.returncode not in (0, 8):
        sys.exit("status %d without a failing allocation" % ran.returncode)
    if text not in (None, ran.stdout):
        sys.exit("without a failing allocation the text is another one")
    whole, count, begun, borne = ran.stdout, tried.allocations(), 0, 0
    for number in range(1, count + 1):
        ran = tried.run(session, number, words)
        if (ran.returncode, ran.stdout, ran.stderr) == ended:
            borne += 1
            continue
        if not refused_rightly(ran, whole):
            print("allocation %d: status %d, standard error %r" % (number, ran.returncode, ran.stderr.decode()))
            print("written: %r" % ran.stdout[-200:])
            sys.exit(1)
        begun += bool(ran.stdout)
    return count, begun, borne


def main():
    parser = argparse.ArgumentParser(description=__doc__.split("\n")[0])
    parser.add_argument("program")
    parser.add_argument("sessions", nargs="*")
    options = parser.parse_args()
    # The answers of several clients depend on the schedule: such a session has none next to it.
    found = (path for path in (HERE / "examples").glob("*.txt") if path.with_suffix(".out").exists())
    names = options.sessions or sorted(map(str, found)) + [str(THREE)]
    with tempfile.TemporaryDirectory() as folder:
        tried = Tried(options.program, Path(folder))
        tries = [(name, Path(name).read_bytes(), None, words_of(SLOTS.get(Path(name).stem))) for name in names]
        if not options.sessions:
            tries.append(("a text of several pieces", *long_lines(), words_of(None)))
            tries.append(("lines of several blocks", plain_session(), None, words_of(None)))
            tries += [(row.name, row.raw, None, row.words) for row in rows() if len(row.words) > 1 and not row.refusal]
            tries += [(row.name, row.raw, None, row.words) for row in rows() if row.name == PAGES]
            tries += [("check: " + name, raw + line + text, None, words) for name, words, raw, line, text, _ in VERDICTS if name in CHECKED]
            tries.append(("three clients, of two slots each", THREE.read_bytes(), None, words_of(2)))
            tries.append(("three clients, with a pool", THREE.read_bytes(), None, words_of(2, "--pool")))
        for name, session, text, words in tries:
            count, begun, borne = failures_of(tried, session, text, words)
            if count == 0:
                sys.exit("%s: no allocation was seen" % name)
            print("%s: %d allocations failed in turn, %d of them after the first line, %d borne" % (name, count, begun, borne))


if __name__ == "__main__":
    main()
