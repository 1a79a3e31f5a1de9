#!/usr/bin/env bash
# library_folder.sh ARCHIVE FOLDER [unproved]: leaves in FOLDER what a program needs of the library for C: the archive as
# libbeanwhile_h3.a, the kit's C shims of malloc and free as libbeanwhile_h3_shim.a, both as the shared library libbeanwhile_h3.so.1,
# beanwhile/h3.h and h3.hpp, and the package files of pkg-config (beanwhile-h3 and beanwhile-h3-shared) and CMake.
set -euo pipefail
cd "$(dirname "$0")/../.."
archive=$1
folder=$2
proved=${3:-}

rm -rf "$folder"
mkdir -p "$folder/beanwhile"
cp -p "$archive" "$folder/libbeanwhile_h3.a"
cp "$(dirname "$(rt doc)")/c/liblibc_c.a" "$folder/libbeanwhile_h3_shim.a"
cp include/h3.h include/h3.hpp "$folder/beanwhile"
if [ -z "${COVERAGE:-}" ]; then # what that adds is libFuzzer's
  bash scripts/c/shared.sh "$folder"
fi
for kind in pc cmake; do
  bash scripts/c/package_file.sh "$kind" "$folder" . . $proved
done
if [ "$proved" = unproved ]; then
  cat > "$folder/UNPROVED" <<END
This library was built without its proofs, from commit $(git describe --always --dirty 2>/dev/null || echo unknown). It is for a first hour: \`make lib\` proves the
same sources, and builds the library that programs should stand on.
END
fi
echo "$folder: $(ls "$folder" | paste -sd' ')"
