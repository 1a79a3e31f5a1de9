#!/usr/bin/env bash
# build.sh LIB [KIND FLAGS..]: builds the drop-in for nghttp3 (compat/nghttp3) into build/compat over the library in LIB, for each version
# of nghttp3 whose header is there. KIND is added to the names, as .asan; FLAGS go to the compiler.
set -euo pipefail
cd "$(dirname "$0")/../.."
lib=$(realpath "$1")
kind=${2:-}
shift "$(($# < 2 ? $# : 2))"

versions=$(bash scripts/compat/versions.sh)
[ -n "$versions" ] || bash scripts/dev/packages.sh compat
mkdir -p build/compat
while read -r soname header _; do
  make --no-print-directory -s -C compat/nghttp3 LIB="$lib" OUT="$PWD/build/compat" NGHTTP3="$header" KIND="$kind" CFLAGS="-O3 -g $*"
  [ -n "$kind" ] || echo "build/compat/$soname"
done <<< "$versions"
