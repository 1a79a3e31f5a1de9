#!/usr/bin/env bash
# fuzz.sh SECONDS [FOLDER]: runs each fuzzer of tests/fuzz (libFuzzer, with the sanitizers of addresses and undefined behaviour) for so many
# seconds over the library in that folder, build/c where none is named. A run begins with the stored inputs and those that earlier runs found
# (in FOLDER/fuzz). One line 'ok fuzz NAME' or 'failed fuzz NAME' for each; an input that fails stays in FOLDER/fuzz and is named. Where clang
# or its runtime is missing, one line 'skipped'. `make lib-unproved COVERAGE=1` builds a library that tells which of its branches an input
# takes, so that far more is found: FOLDER is build/c-coverage then. With SEED=1 it makes the same choices each time.
set -uo pipefail
cd "$(dirname "$0")/../.."

seconds=$1
lib=${2:-build/c}
cxx=${CLANGXX:-$(command -v clang++ clang++-14 | head -n 1)}
out=$lib/fuzz
mkdir -p "$out"
flags=(-std=c++17 -O1 -g -Wall -Wextra -Werror -fsanitize=fuzzer,address,undefined -fno-sanitize-recover=all)
if ! echo 'extern "C" int LLVMFuzzerTestOneInput(const unsigned char *, unsigned long) { return 0; }' |
  "${cxx:-clang++}" "${flags[@]}" -x c++ -o "$out/probe" - > "$out/probe.log" 2>&1; then
  echo "skipped fuzz: libFuzzer is not there (Debian: apt-get install clang-14 libclang-rt-14-dev)"
  exit 0
fi

fuzz() { # NAME LONGEST FLAGS..
  local name=$1 longest=$2
  shift 2
  mkdir -p "$out/$name.found"
  local log=$out/$name.log limits=(-max_total_time="$seconds" -max_len="$longest" -rss_limit_mb=2000 -seed="${SEED:-0}" -artifact_prefix="$out/$name.")
  if ! "$cxx" "${flags[@]}" "$@" "-I$lib/beanwhile" -o "$out/$name" "tests/fuzz/$name.cc" "-L$lib" -lbeanwhile_h3 -lbeanwhile_h3_shim; then
    echo "failed fuzz $name: it was not compiled"
  elif "$out/$name" "${limits[@]}" "$out/$name.found" "tests/fuzz/$name" > "$log" 2>&1; then
    echo "ok fuzz $name: $(sed -nE 's/^Done ([0-9]+) runs in ([0-9]+) second.*/\1 inputs in \2 seconds/p' "$log")"
    return
  else
    echo "failed fuzz $name: $(grep -aE '^failed|ERROR|runtime error|Test unit written' "$log" | head -n 4 | tr '\n' ' ')(all of it: $log)"
  fi
  bad=1
}

bad=0
fuzz calls 1200 -Wl,--wrap=malloc,--wrap=realloc
fuzz sessions 1200 -Wl,--wrap=malloc,--wrap=realloc
fuzz bytes 600
exit "$bad"
