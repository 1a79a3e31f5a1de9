#!/usr/bin/env bash
# test.sh LIB: builds the drop-in for nghttp3 over the library in LIB and tests it beside Debian's own library in one process
# (compat/nghttp3/tests), for each version of nghttp3 that is there: the exported calls; byte scripts, calls and steps, which are
# compared; the scripts in pieces; random exchanges and cancellations between all four pairs; refused memory; and some of these with the
# sanitizers of addresses and undefined behaviour. A minute or two. A version that is not there is skipped, and says so. Lines 'ok NAME',
# 'failed NAME' and 'skipped NAME'; the last is the sum.
set -uo pipefail
cd "$(dirname "$0")/../.."
lib=$1
cc=${CC:-cc}
tests=compat/nghttp3/tests
python=(timeout 100 python3 -B) # a test that takes longer has failed
out=build/compat
log=$(mktemp)
trap 'rm -f "$log"' EXIT
bash scripts/dev/packages.sh c || exit 1

run() { # NAME COMMAND..: each line of it names the version, and one that says nothing has failed
  local name=$1 said status=0
  shift
  said=$("$@" 2>&1) || status=$?
  if ! grep -qE '^(ok|failed) ' <<< "$said"; then said="failed $name: $said"; fi
  if [ "$status" -ne 0 ] && ! grep -q '^failed ' <<< "$said"; then said="failed $name: status $status"$'\n'"$said"; fi
  sed -E "s/^(ok|failed) /\1 $SONAME, /" <<< "$said"
}

build() { # KIND FLAGS..
  if ! bash scripts/compat/build.sh "$lib" "$@" > "$out/build.log" 2>&1; then
    echo "failed compat${1:-}: it was not built"
    cat "$out/build.log"
  fi
}

# memory that is refused: a program in C, whose malloc the library uses
refused() { # KIND of the drop-in
  local include program=$out/$SONAME.refused folder=$out/refused$1
  mkdir -p "$folder" && ln -sf "$OURS$1" "$folder/$SONAME"
  include=$(dirname "$(dirname "$HEADER")")
  "$cc" -std=c11 -pthread -D_DEFAULT_SOURCE -O1 -g -Wall -Wextra -Werror -I"$include" -o "$program" $tests/refused.c "$OURS$1" &&
    LD_LIBRARY_PATH=$folder timeout 100 "$program" | sed "s/refused memory/&${1:+, ${1#.}}/"
}

sanitized() { # NAME COMMAND..
  local name=$1
  shift
  OURS=$PWD/$out/$SONAME.sanitized ASAN_OPTIONS=detect_leaks=0 LD_PRELOAD=$("$cc" -print-file-name=libasan.so) run "$name" "$@" |
    sed -E 's/^((ok|failed) [^:]*)/\1 with sanitizers/'
}

checks() { # SONAME, the folder of the header, Debian's library
  export SONAME=$1 HEADER=$2/nghttp3/nghttp3.h NATIVE=$3 OURS=$PWD/$out/$1 MARK=""
  [ ! -e "$lib/UNPROVED" ] || MARK=UNPROVED # what its version is to say
  if [ "$NATIVE" = - ]; then
    echo "skipped $SONAME: its header is there, and Debian's library is not"
    return
  fi
  run exports "${python[@]}" $tests/exports.py
  run calls "${python[@]}" $tests/calls.py
  run priorities "${python[@]}" $tests/priorities.py
  run "byte scripts" "${python[@]}" $tests/byte_scripts.py
  run "frames left" "${python[@]}" $tests/frames_left.py
  run cuts "${python[@]}" $tests/cuts.py 0 60
  run steps "${python[@]}" $tests/steps.py
  run tables "${python[@]}" $tests/tables.py
  run exchanges "${python[@]}" $tests/exchanges.py 0 100
  run cancellations "${python[@]}" $tests/cancellations.py 0 60
  run "refused memory" refused ""
  run "refused memory, plain" refused .plain
  [ -e "$out/$SONAME.sanitized" ] || return
  sanitized "byte scripts" "${python[@]}" $tests/byte_scripts.py
  sanitized cuts "${python[@]}" $tests/cuts.py 1000 1020
  sanitized steps "${python[@]}" $tests/steps.py
  sanitized exchanges "${python[@]}" $tests/exchanges.py 1000 1020
  sanitized cancellations "${python[@]}" $tests/cancellations.py 1000 1015
}

all() {
  local versions soname
  versions=$(bash scripts/compat/versions.sh)
  for soname in libnghttp3.so.3 libnghttp3.so.9; do
    grep -q "^$soname " <<< "$versions" ||
      echo "skipped $soname: its header is not there (libnghttp3-dev of Debian 12 for .so.3, of 13 for .so.9: scripts/compat/debian13.sh)"
  done
  [ -n "$versions" ] || return
  build
  build .plain # with malloc alone: each small block may be refused (memory.c)
  if echo 'int main(void){return 0;}' | "$cc" -x c -fsanitize=address,undefined -o "$out/probe" - 2> /dev/null; then
    build .sanitized -fsanitize=address,undefined -fno-sanitize-recover=all
  fi
  while read -r version; do checks $version < /dev/null; done <<< "$versions"
}

rm -rf "$out"
mkdir -p "$out"
all | tee "$log"
passed=$(grep -cE '^ok ' "$log")
failed=$(grep -cE '^failed ' "$log")
skipped=$(grep -cE '^skipped ' "$log")
[ "$((passed + failed + skipped))" -gt 0 ] || failed=1
if [ "$skipped" -gt 0 ]; then echo "$passed passed, $failed failed, $skipped skipped"; else echo "$passed passed, $failed failed"; fi
[ "$failed" -eq 0 ]
