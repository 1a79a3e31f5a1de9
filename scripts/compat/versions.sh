#!/usr/bin/env bash
# versions.sh: the versions of nghttp3 whose header is there, a line for each: SONAME, the folder above nghttp3/nghttp3.h, and Debian's
# own library, or '-' where only the header is there. Of each version the first is taken of: the system, build/nghttp3
# (scripts/compat/debian13.sh), build/trixie (make upstream-root).
set -euo pipefail
cd "$(dirname "$0")/../.."

declare -A seen
for root in /usr build/nghttp3/usr build/trixie/usr; do
  header=$root/include/nghttp3/version.h
  [ -e "$header" ] || continue
  case $(sed -nE 's/^#define NGHTTP3_VERSION_NUM 0x([0-9a-f]{4}).*/\1/p' "$header") in
    0008) soname=libnghttp3.so.3 ;;
    0108 | 0111) soname=libnghttp3.so.9 ;;
    *) echo "$header is of a version that compat/nghttp3 is not built for: 0.8, 1.8 and 1.17 are" >&2; continue ;;
  esac
  [ -z "${seen[$soname]:-}" ] || continue
  seen[$soname]=1
  native=$(find "$root/lib" -maxdepth 2 -name "$soname" 2> /dev/null | head -n 1 || true)
  if [ -n "$native" ]; then native=$(realpath "$native"); fi
  # by a folder that has nothing else: the other headers of a root of Debian are of another C library
  mkdir -p "build/headers/$soname"
  ln -sfn "$(realpath "$root/include/nghttp3")" "build/headers/$soname/nghttp3"
  echo "$soname $(realpath "build/headers/$soname") ${native:--}"
done
