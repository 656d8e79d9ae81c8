#!/usr/bin/env python3
"""Runs each command of the program with allocations failing, one in turn, and all from one on, over the examples.

    benches/failing_memory.py [--most N] [--jobs N] [--view REPORT_VIEW] PROGRAM [WORD..]

PROGRAM is the built analyser, and REPORT_VIEW the built program that shows reports. Each answer has to be status 6 with
nothing written, or the whole answer, that of a run in which no allocation fails. A line tells for each command and
source how many allocations it makes, in how many runs it had its whole answer, and in how many it gave up; each answer
that is none of both has a line of its own, and then the exit status is 1. With WORDs only the commands with one of these
first words are run.

Where a command makes more than N allocations, 100 if no number is given, only so many of them fail, the first and the
last ones and others evenly between; --most 0 has each of them fail, which takes days for the larger examples. --jobs N
runs so many at a time, as many as there are processors if it is not given.

An allocation is a call of malloc, calloc, realloc, aligned_alloc, posix_memalign or mmap by the program or by a library
that it calls, as for a thread. They are made to fail by a library that is preloaded, which gcc compiles from the text
below. No contract says when memory is found, so this tries what the contracts leave to the program's answer: that it
gives up, and cleanly. Where several threads allocate, the n-th allocation may be another one in each run; the answer is
owed all the same."""
import argparse
import concurrent.futures
import os
import struct
import subprocess
import sys
import tempfile

NO_MEMORY = 6
# how many of the first and of the last allocations always fail
ENDS = 20
# seconds after which a run counts as one that does not end
LONGEST = 120
LIBRARY = r"""
#define _GNU_SOURCE
#include <errno.h>
#include <fcntl.h>
#include <stddef.h>
#include <stdlib.h>
#include <sys/mman.h>
#include <sys/syscall.h>
#include <unistd.h>

void *__libc_malloc(size_t size);
void *__libc_calloc(size_t count, size_t size);
void *__libc_realloc(void *block, size_t size);
void *__libc_memalign(size_t alignment, size_t size);

/* how many allocations there were, shared with who started the program; none is counted before it is there */
static unsigned long *calls;
static unsigned long failing;
static int onwards;

__attribute__((constructor)) static void begin(void) {
    const char *name = getenv("FAILING_COUNT"), *number = getenv("FAILING_CALL");
    failing = number ? strtoul(number, NULL, 10) : 0;
    onwards = getenv("FAILING_ONWARDS") != NULL;
    int file = name ? open(name, O_RDWR) : -1;
    if (file < 0) return;
    void *shared = (void *)syscall(SYS_mmap, NULL, sizeof *calls, PROT_READ | PROT_WRITE, MAP_SHARED, file, 0);
    close(file);
    if (shared != MAP_FAILED) calls = shared;
}

static int fails(void) {
    if (!calls) return 0;
    unsigned long call = __atomic_add_fetch(calls, 1, __ATOMIC_SEQ_CST);
    if (!failing || (onwards ? call < failing : call != failing)) return 0;
    errno = ENOMEM;
    return 1;
}

void *malloc(size_t size) { return fails() ? NULL : __libc_malloc(size); }
void *calloc(size_t count, size_t size) { return fails() ? NULL : __libc_calloc(count, size); }
void *realloc(void *block, size_t size) { return fails() ? NULL : __libc_realloc(block, size); }
void *aligned_alloc(size_t alignment, size_t size) { return fails() ? NULL : __libc_memalign(alignment, size); }
int posix_memalign(void **block, size_t alignment, size_t size) {
    void *made = fails() ? NULL : __libc_memalign(alignment, size);
    if (!made) return ENOMEM;
    *block = made;
    return 0;
}
void *mmap(void *at, size_t size, int access, int flags, int file, off_t offset) {
    return fails() ? MAP_FAILED : (void *)syscall(SYS_mmap, at, size, access, flags, file, offset);
}
"""


def chosen(count, most):
    """Which of so many allocations fail, if so many may."""
    if most == 0 or count <= most:
        return range(1, count + 1)
    step = count / max(1, most - 2 * ENDS)
    between = {1 + int(k * step) for k in range(max(1, most - 2 * ENDS))}
    return sorted(n for n in between.union(range(1, ENDS + 1), range(count - ENDS + 1, count + 1)) if 1 <= n <= count)


class Trials:
    """Runs one program with the library, each run with a count of its own."""

    def __init__(self, folder, jobs):
        self.folder, self.jobs = folder, jobs
        self.library = f"{folder}/failing.so"
        subprocess.run(["gcc", "-O2", "-shared", "-fPIC", "-x", "c", "-", "-o", self.library], check=True,
                       input=LIBRARY.encode())

    def run(self, words, source, failing=0, onwards=False):
        """Status, what was written, and how many allocations there were."""
        handle, name = tempfile.mkstemp(dir=self.folder)
        os.write(handle, bytes(8))
        environment = {"LD_PRELOAD": self.library, "FAILING_COUNT": name, "FAILING_CALL": str(failing)}
        if onwards:
            environment["FAILING_ONWARDS"] = "1"
        try:
            done = subprocess.run(words, input=source, stdout=subprocess.PIPE, stderr=subprocess.DEVNULL,
                                  env=environment, timeout=LONGEST, check=False)
            answer = done.returncode, done.stdout
        except subprocess.TimeoutExpired:
            answer = "does not end", b""
        count, = struct.unpack("@L", os.pread(handle, 8, 0))
        os.close(handle)
        os.unlink(name)
        return answer, count

    def try_all(self, title, words, source, most):
        """Tries the allocations of a run, and says whether all answers were as they have to be."""
        whole, count = self.run(words, source)
        if whole[0] in ("does not end", NO_MEMORY) or count == 0:
            print(f"{title}: status {whole[0]} with {count} allocations, without any that fails")
            return False
        asked = [(n, onwards) for n in chosen(count, most) for onwards in (False, True)]
        wholes = refused = 0
        good = True
        with concurrent.futures.ThreadPoolExecutor(self.jobs) as pool:
            answers = pool.map(lambda one: self.run(words, source, *one)[0], asked)
            for (n, onwards), answer in zip(asked, answers):
                if answer == whole:
                    wholes += 1
                elif answer == (NO_MEMORY, b""):
                    refused += 1
                else:
                    good = False
                    how = "from allocation" if onwards else "at allocation"
                    print(f"{title}: {how} {n} status {answer[0]}, and {len(answer[1])} bytes of {len(whole[1])}")
        print(f"{title}: {count} allocations, {len(asked)} runs, {wholes} whole, {refused} of status 6", flush=True)
        return good


def sources(top):
    """Each example as the script `analyse` hands it to the program, and a source that is refused."""
    names = sorted(f"examples/{name}" for name in os.listdir(f"{top}/examples") if name.endswith(".c"))
    for name in [*names, "examples/project/project.c"]:
        with open(f"{top}/{name}", "rb") as it:
            text = it.read()
        if any(line.lstrip().startswith(b"#") for line in text.splitlines()):
            text = subprocess.run(
                ["cc", "-std=c99", "-undef", "-nostdinc", "-I", f"{top}/include", "-DCEDRATCLEAT_H",
                 "-D__CEDRATCLEAT__", "-E", "-x", "c", f"{top}/{name}"], check=True, stdout=subprocess.PIPE).stdout
        yield name, text
    yield "a source that is refused", b"int x;\n__task(1) void t(void) { x = y; }\n"


def commands(top, program):
    """The words of each command, with a title, and what stands on its standard input."""
    choices = b"\n#replay\nwake 0\nrun 0 0\nrun 0 0\n"
    for name, text in sources(top):
        for words in ["analyse", "analyse --json", "analyse --history", "analyse --json --history",
                      "analyse --workers 3", "analyse 17 40", "waits", "ranges", "certify"]:
            yield f"{words} < {name}", words.split(), text
        yield f"replay < {name}", ["replay"], text + choices
        certificate = subprocess.run([program, "certify"], input=text, stdout=subprocess.PIPE, check=False)
        yield f"check < the certificate of {name}", ["check"], certificate.stdout
    yield "replay < no choices", ["replay"], b"int x;\n"
    yield "generate 9", ["generate", "9"], b""
    yield "demo 2", ["demo", "2"], b""
    yield "demo --workers 3 2", ["demo", "--workers", "3", "2"], b""
    yield "words that are no command", ["nothing"], b""


def views(top, program, view, folder):
    """The words of the program that shows reports, over the report of each example."""
    for name, text in sources(top):
        report = subprocess.run([program, "analyse", "--json"], input=text, stdout=subprocess.PIPE, check=False)
        if report.returncode > 1:
            continue
        path = f"{folder}/{os.path.basename(name)}"
        with open(path, "wb") as it:
            it.write(text)
        others = []
        for command in ["waits", "ranges"]:
            found = subprocess.run([program, command], input=text, stdout=subprocess.PIPE, check=False).stdout
            others.append(f"{path}.{command}")
            with open(others[-1], "wb") as it:
                # (of the answer of `ranges` the view takes what stands behind the lines of objects, of four words)
                it.writelines(line for line in found.splitlines(keepends=True) if len(line.split()) == 2)
        # (no program lists assumptions here; the lines of the text are those of its file)
        others += [f"{path}.assumptions", path, folder, folder]
        with open(f"{path}.assumptions", "wb") as it:
            it.write(b"1:1 ORDER\nassumptions 1\n")
        refusal = ["--refusal", path, name, path, folder, "2", "1", "Syntax", "no source goes on so"]
        for words in [["--lines", path, name], ["--sarif", path, name, *others], ["--summary", path, name], refusal]:
            yield f"{words[0]} < the report of {name}", [view, *words], report.stdout


def main():
    parser = argparse.ArgumentParser(description=__doc__, formatter_class=argparse.RawDescriptionHelpFormatter)
    parser.add_argument("--jobs", type=int, default=os.cpu_count(), metavar="N")
    parser.add_argument("--most", type=int, default=100, metavar="N")
    parser.add_argument("--view", metavar="REPORT_VIEW")
    parser.add_argument("program", metavar="PROGRAM")
    parser.add_argument("words", nargs="*", metavar="WORD")
    asked = parser.parse_args()
    top = os.path.dirname(os.path.dirname(os.path.abspath(__file__)))
    program = os.path.abspath(asked.program)
    good = True
    with tempfile.TemporaryDirectory() as folder:
        trials = Trials(folder, asked.jobs)
        for title, words, source in commands(top, program):
            if not asked.words or words[0] in asked.words:
                good &= trials.try_all(title, [program, *words], source, asked.most)
        if asked.view and not asked.words:
            for title, words, source in views(top, program, os.path.abspath(asked.view), folder):
                good &= trials.try_all(title, words, source, asked.most)
    return 0 if good else 1


if __name__ == "__main__":
    sys.exit(main())
