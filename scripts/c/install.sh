#!/usr/bin/env bash
# Installs what `make lib` left in build/c (or in the folder LIB) below PREFIX (/usr/local), or below DESTDIR/PREFIX: the two archives and
# the shared library in LIBDIR (lib), beanwhile/h3.h and h3.hpp in include, the package files of pkg-config in LIBDIR/pkgconfig, and those
# of CMake in LIBDIR/cmake/beanwhile-h3. All have names of their own: other projects have a libh3, an h3.h and an h3.pc. A library without
# proofs is refused, unless UNPROVED=1 asks for it: its package files say so.
set -euo pipefail
cd "$(dirname "$0")/../.."
lib_folder=${LIB:-build/c}
bash scripts/dev/need.sh library "$lib_folder"
mark=""
if [ -e "$lib_folder/UNPROVED" ]; then
  mark=unproved
  if [ "${UNPROVED:-}" != 1 ]; then
    echo "$lib_folder was built without proofs, and is not installed: run 'make lib' first" >&2
    exit 1
  fi
fi

to=${DESTDIR:-}${PREFIX:-/usr/local}
libdir=$to/${LIBDIR:-lib}
install -d "$libdir/pkgconfig" "$libdir/beanwhile-h3" "$libdir/cmake/beanwhile-h3" "$to/include/beanwhile"
install -m 644 "$lib_folder/libbeanwhile_h3.a" "$lib_folder/libbeanwhile_h3_shim.a" "$libdir"
install -m 755 "$lib_folder"/libbeanwhile_h3.so.* "$libdir"
cp -P "$lib_folder/beanwhile-h3/libbeanwhile_h3.so" "$libdir/beanwhile-h3"
install -m 644 "$lib_folder/beanwhile/h3.h" "$lib_folder/beanwhile/h3.hpp" "$to/include/beanwhile"
for kind in pc:pkgconfig cmake:cmake/beanwhile-h3; do
  folder=$libdir/${kind#*:}
  bash scripts/c/package_file.sh "${kind%%:*}" "$folder" "$(realpath --relative-to="$folder" "$libdir")" \
    "$(realpath --relative-to="$folder" "$to/include")" $mark
done
echo "installed in $to: include/beanwhile/h3.h; in ${LIBDIR:-lib}: libbeanwhile_h3.a, libbeanwhile_h3.so.1, pkgconfig/beanwhile-h3.pc, cmake"
