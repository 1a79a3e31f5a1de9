#!/usr/bin/env python3
"""Writes what lets no call of include/h3.h keep a buffer: poisoned.py FOLDER.

FOLDER/poisoned.c stands between a program and the library: each export is given copies of the caller's buffers, each in a block of its own and of its very size,
which is overwritten and freed as soon as the export returned. FOLDER/poisoned.link has the linker's options that put it there. So what the library reads or writes
after a call, or past an end, is an error that valgrind and the address sanitizer tell."""
import os
import re
import sys

ROOT = os.path.dirname(os.path.dirname(os.path.dirname(os.path.realpath(__file__))))
EXPORT = re.compile(r"^(uint32_t|void) (h3_raw_\w+)\(([^;]*)\);", re.M)
POINTER = re.compile(r"(const )?(\w+) \*(\w+)$")

HEAD = """#define _GNU_SOURCE
#include <h3.h>
#include <dlfcn.h>
#include <stdlib.h>
#include <string.h>

/* A program may count or refuse what the library takes (-Wl,--wrap=malloc): these blocks are none of its. */
static void *block(size_t len) {
  static void *(*take)(size_t);
  if (!take) *(void **)&take = dlsym(RTLD_DEFAULT, "malloc");
  void *taken = take(len);
  if (!taken) abort();
  return taken;
}

static void let_go(void *taken) {
  static void (*give)(void *);
  if (!give) *(void **)&give = dlsym(RTLD_DEFAULT, "free");
  give(taken);
}

static void *lent(const void *bytes, size_t len) {
  void *copy = block(len);
  if (len) memcpy(copy, bytes, len);
  return copy;
}

static void over(void *copy, size_t len) {
  if (len) memset(copy, 0xA5, len);
  let_go(copy);
}

static void filled(void *bytes, void *copy, size_t len) {
  if (len) memcpy(bytes, copy, len);
  over(copy, len);
}
"""


def wrapped(answer, name, given):
    """the function in the place of one export"""
    params = [" ".join(it.split()) for it in given.split(",")] if given.strip() != "void" else []
    names, before, behind = [], [], []
    for at, param in enumerate(params):
        found = POINTER.match(param)
        if found is None:
            names.append(param.split()[-1])
            continue
        const, kind, called = found.groups()
        count = re.fullmatch(r"size_t (\w+)", params[at + 1]) if at + 1 < len(params) else None
        size = f"{count[1]} * sizeof *{called}" if count else f"sizeof *{called}"
        before.append(f"  {kind} *lent_{called} = lent({called}, {size});\n")
        behind.append(f"  over(lent_{called}, {size});\n" if const else f"  filled({called}, lent_{called}, {size});\n")
        names.append(f"lent_{called}")
    call = f"__real_{name}({', '.join(names)});\n"
    kept, back = (f"  {answer} answer = {call}", "  return answer;\n") if answer != "void" else (f"  {call}", "")
    text = ", ".join(params) or "void"
    return f"\n{answer} __real_{name}({text});\n{answer} __wrap_{name}({text});\n{answer} __wrap_{name}({text}) {{\n{''.join(before)}{kept}{''.join(behind)}{back}}}\n"


def main():
    if len(sys.argv) != 2:
        sys.exit("poisoned.py FOLDER")
    with open(f"{ROOT}/include/h3.h", encoding="utf-8") as file:
        exports = EXPORT.findall(file.read())
    if not exports:
        sys.exit("include/h3.h: no exports were found")
    with open(f"{sys.argv[1]}/poisoned.c", "w", encoding="utf-8") as file:
        file.write(HEAD + "".join(wrapped(*it) for it in exports))
    with open(f"{sys.argv[1]}/poisoned.link", "w", encoding="utf-8") as file:
        file.writelines(f"-Wl,--wrap={name}\n" for _, name, _ in exports)


if __name__ == "__main__":
    main()
