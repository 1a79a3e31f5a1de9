"""Runs a program with some of its calls for memory refused.

    with Refusing() as refusing:
        ran = refusing.run(program, script, Refused(first=3, last=3))

The calls (`malloc`, `realloc`) are refused by a few lines of C that are loaded in front of the C library, so a C compiler has to be there
(`can_refuse`). They are numbered from 1: those of the whole run or, with `window`, those behind the first call for `window[0]` bytes and
before the first one for `window[1]` bytes that follows it. So a script that has a program copy so many bytes says where refusals may begin and where
memory is back.
"""
import os
import shutil
import subprocess
import tempfile
from dataclasses import dataclass

FOR_GOOD = 10**9
SECONDS = 60
SHIM = r"""
#define _GNU_SOURCE
#include <dlfcn.h>
#include <stdio.h>
#include <stdlib.h>

static long first, last, share, begins, ends, calls, refused;
static unsigned long long seed;
static enum { UNREAD, BEFORE, INSIDE, BEHIND } place;

static void read_plan(void) {
  const char *plan = getenv("REFUSED");
  if (!plan || sscanf(plan, "%ld %ld %ld %llu %ld %ld", &first, &last, &share, &seed, &begins, &ends) != 6) abort();
  place = begins ? BEFORE : INSIDE;
}
static int is_drawn(void) {
  seed = seed * 6364136223846793005ULL + 1442695040888963407ULL;
  return (long)((seed >> 33) % 100) < share;
}
static int is_refused(size_t size) {
  if (place == UNREAD) read_plan();
  if (place == BEFORE && size == (size_t)begins) { place = INSIDE; return 0; }
  if (place == INSIDE && begins && size == (size_t)ends) place = BEHIND;
  if (place != INSIDE) return 0;
  calls++;
  return calls >= first && calls <= last && (share == 100 || is_drawn());
}
static void *counted(void *block, size_t size) {
  refused += !block && size;
  return block;
}
void *malloc(size_t size) {
  static void *(*next)(size_t);
  if (!next) next = dlsym(RTLD_NEXT, "malloc");
  return counted(is_refused(size) ? NULL : next(size), size);
}
void *realloc(void *old, size_t size) {
  static void *(*next)(void *, size_t);
  if (!next) next = dlsym(RTLD_NEXT, "realloc");
  return counted(is_refused(size) ? NULL : next(old, size), size);
}
__attribute__((destructor)) static void tell(void) { dprintf(9, "%ld %ld", calls, refused); }
"""


def can_refuse():
    return shutil.which("cc") is not None


@dataclass(frozen=True)
class Refused:
    """The calls `first` to `last`, or of these so many in 100 as a seed draws. None where both are 0."""

    first: int = 0
    last: int = 0
    share: int = 100
    seed: int = 0


@dataclass(frozen=True)
class Ran:
    """what a program wrote, its status, how many calls for memory were numbered, and how many were refused, here or by the system"""

    wrote: bytes
    status: int
    calls: int
    refused: int


class Refusing:
    """the compiled lines of C, in a folder of their own"""

    def __enter__(self):
        self.folder = tempfile.TemporaryDirectory()
        self.shim = f"{self.folder.name}/shim.so"
        with open(f"{self.folder.name}/shim.c", "w", encoding="ascii") as file:
            file.write(SHIM)
        subprocess.run(["cc", "-O1", "-shared", "-fPIC", "-o", self.shim, f"{self.folder.name}/shim.c", "-ldl"], check=True)
        return self

    def __exit__(self, *_):
        self.folder.cleanup()

    def run(self, program, given, plan=Refused(), window=(0, 0), seconds=SECONDS):
        told, tell = os.pipe()
        os.set_inheritable(tell, True)
        numbers = (plan.first, plan.last, plan.share, plan.seed, *window)
        env = {"LD_PRELOAD": self.shim, "REFUSED": " ".join(map(str, numbers))}
        how = {"input": given, "stdout": subprocess.PIPE, "stderr": subprocess.DEVNULL, "env": env, "timeout": seconds, "check": False}
        it = subprocess.run([program], preexec_fn=lambda: os.dup2(tell, 9), pass_fds=(9, tell), **how)
        os.close(tell)
        said = os.read(told, 100).split()
        os.close(told)
        calls, refused = map(int, said) if len(said) == 2 else (0, 0)
        return Ran(it.stdout, it.returncode, calls, refused)
