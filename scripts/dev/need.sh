#!/usr/bin/env bash
# need.sh WHAT..: is what a command stands on there? Where something is not, one line says what, and how to get it.
#   rt            the command of Rattle's kit, of a version that this repository was proved with
#   library DIR   what `make lib` or `make lib-unproved` leaves
#   bench         what `make bench-build` leaves
set -uo pipefail

KITS="rattle-kit-13b rattle-kit-13f"

missing() {
  echo "$1" >&2
  exit 1
}

while [ $# -gt 0 ]; do
  case $1 in
    rt)
      command -v rt >/dev/null ||
        missing "rt is not on the PATH: it is the command of Rattle's kit (${KITS// / or }); unpack it and link its bin/rt there (README.md, \"Get rt\")"
      version=$(rt version 2>/dev/null | cut -d' ' -f1)
      [[ " $KITS " == *" $version "* ]] || echo "rt is of ${version:-an unknown kit}; this repository was proved with ${KITS// / and }" >&2
      ;;
    library)
      shift
      [ -e "$1/libbeanwhile_h3.a" ] || missing "there is no $1/libbeanwhile_h3.a: run 'make lib' first (or 'make lib-unproved', and give LIB=build/c-unproved)"
      ;;
    bench)
      [ -x bench/out/bench ] && [ -x bench/out/exchange ] && [ -e bench/out/sides ] || missing "bench/out is not built: run 'make bench-build' first"
      ;;
    *) missing "need.sh knows no $1" ;;
  esac
  shift
done
