"""The rows of crates/passkey_rows, the built programs, and shims in front of malloc: what the tools that run programs share."""

import os
import struct
import subprocess
import tempfile
from pathlib import Path

import kinds

ROOT = Path(__file__).resolve().parent.parent
SHOW = ROOT / "crates" / "passkey_show" / "out" / "passkey_show"
FOLDER = ROOT / "crates" / "passkey_rows"
ROWS = FOLDER / "out" / "passkey_rows"

# The kinds of passkey_show: bytes in hexadecimal, and JSON.
SHOWN_BYTES, JSON = kinds.of_show()
BYTES = [*SHOWN_BYTES, "check"]
SHOWN = BYTES + JSON

# The other messages, in hexadecimal, and attestation statements. Some faults of a statement are outputs.
STATEMENTS = [it for it in kinds.of_bytes() if it.startswith("att-")]
OTHERS = [it for it in kinds.of_bytes() if it not in SHOWN + STATEMENTS + ["cose-key", "tpm-cert-info", "tpm-pub-area"]]


def rows():
    """Yields each row: its kind, its input and its answer, which begins with the status."""
    inputs = (FOLDER / "stdin").read_text(encoding="utf-8").split("\n")
    answers = (FOLDER / "stdout").read_text(encoding="utf-8").split("\n")
    for row, answer in zip(inputs, answers, strict=True):
        kind, _, text = row.partition(" ")
        if row and not row.startswith("#"):
            yield kind, text, answer


def shim(name, source):
    """Compiles a shim, and returns its path."""
    folder = ROOT / "out"
    folder.mkdir(exist_ok=True)
    file, made = folder / f"{name}.c", folder / f"{name}.so"
    file.write_text(source, encoding="utf-8")
    subprocess.run([os.environ.get("CC", "cc"), "-O1", "-shared", "-fPIC", "-o", made, file], check=True)
    return made


def run(command, given, **more):
    """Runs a program on this text, and returns its status, its standard output and its standard error."""
    ran = subprocess.run(command, input=given, text=True, capture_output=True, timeout=60, **more)
    return ran.returncode, ran.stdout, ran.stderr


# Before main, forks a run of the program for each of its allocations, the N-th with the N-th one failing, up to the first run that makes
# fewer or to FAIL_MOST runs: forking takes a tenth of the time of starting a process. Each reads standard input from its beginning. Of each it
# writes to the file FAIL_FD its status, whether the allocation was made, and what it printed.
REFUSES = r"""
#define _GNU_SOURCE
#include <errno.h>
#include <stdint.h>
#include <stdlib.h>
#include <sys/mman.h>
#include <sys/wait.h>
#include <unistd.h>
extern void *__libc_malloc(size_t);
extern void *__libc_realloc(void *, size_t);
extern void *__libc_calloc(size_t, size_t);
extern void *__libc_memalign(size_t, size_t);
static long left;
static volatile int *failed;
static int fails(void) {
    if (left > 0 && --left == 0) {
        *failed = 1;
        errno = ENOMEM;
        return 1;
    }
    return 0;
}
void *malloc(size_t n) { return fails() ? NULL : __libc_malloc(n); }
void *realloc(void *p, size_t n) { return fails() ? NULL : __libc_realloc(p, n); }
void *calloc(size_t m, size_t n) { return fails() ? NULL : __libc_calloc(m, n); }
void *aligned_alloc(size_t a, size_t n) { return fails() ? NULL : __libc_memalign(a, n); }
int posix_memalign(void **p, size_t a, size_t n) {
    if (fails()) return ENOMEM;
    *p = __libc_memalign(a, n);
    return *p ? 0 : ENOMEM;
}
static void check(int right) {
    if (!right) _exit(99);
}
static void put(int to, const void *from, size_t size) {
    while (size) {
        ssize_t done = write(to, from, size);
        check(done > 0);
        from = (const char *)from + done;
        size -= (size_t)done;
    }
}
static void begin(int file) { check(lseek(file, 0, SEEK_SET) == 0); }
static void copy(int to, int from, size_t size) {
    static char room[65536];
    begin(from);
    while (size) {
        ssize_t done = read(from, room, sizeof room);
        check(done > 0);
        put(to, room, (size_t)done);
        size -= (size_t)done;
    }
}
__attribute__((constructor)) static void serve(void) {
    long most = atol(getenv("FAIL_MOST")), number;
    int to = atoi(getenv("FAIL_FD")), printed[2], k, status;
    failed = mmap(NULL, sizeof *failed, PROT_READ | PROT_WRITE, MAP_SHARED | MAP_ANONYMOUS, -1, 0);
    check(failed != MAP_FAILED);
    for (k = 0; k < 2; k++) check((printed[k] = memfd_create("printed", 0)) >= 0);
    for (number = 1, *failed = 1; number <= most && *failed; number++) {
        int32_t said[4];
        pid_t child;
        *failed = 0;
        begin(0);
        for (k = 0; k < 2; k++) {
            begin(printed[k]);
            check(ftruncate(printed[k], 0) == 0);
        }
        child = fork();
        check(child >= 0);
        if (!child) {
            for (k = 0; k < 2; k++) check(dup2(printed[k], k + 1) >= 0);
            left = number;
            return;
        }
        check(waitpid(child, &status, 0) == child);
        said[0] = WIFEXITED(status) ? WEXITSTATUS(status) : -WTERMSIG(status);
        said[1] = *failed;
        for (k = 0; k < 2; k++) said[2 + k] = (int32_t)lseek(printed[k], 0, SEEK_END);
        put(to, said, sizeof said);
        for (k = 0; k < 2; k++) copy(to, printed[k], (size_t)said[2 + k]);
    }
    _exit(0);
}
"""


def run_refusing(preload, command, given, most):
    """Runs a program with each of its allocations failing in turn, at most so many, and gives for each how that run ended, as `run`
    does, and whether the allocation was made."""
    with tempfile.TemporaryFile() as entry, tempfile.TemporaryFile() as report:
        entry.write(given.encode())
        entry.seek(0)
        environment = {"LD_PRELOAD": str(preload), "FAIL_MOST": str(most), "FAIL_FD": str(report.fileno()), "LC_ALL": "C"}
        subprocess.run(command, stdin=entry, env=environment, pass_fds=[report.fileno()], timeout=600, check=True)
        report.seek(0)
        while head := report.read(16):
            status, came, *sizes = struct.unpack("=4i", head)
            printed = [report.read(it).decode() for it in sizes]
            yield (status, *printed), bool(came)
