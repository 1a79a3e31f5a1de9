#!/usr/bin/env bash
# Prints how much of their names and values heads take, ours beside nghttp3's and ls-qpack's, and has both decoders read what we write
# (bench/sizes.c), over the folder LIB (default build/c). ls-qpack is that of python3-pylsqpack, here or in the root of Debian 13 that
# `make upstream-root` makes; without it a line says 'skipped'. It ends with an error where a decoder reads anything else than was sent.
set -euo pipefail
cd "$(dirname "$0")/../.."

lib=${LIB:-build/c}
bash scripts/dev/need.sh library "$lib"
bash scripts/dev/packages.sh peer
rm -f bench/out/sizes
make --no-print-directory -s -C bench out/sizes FOLDER="$(realpath "$lib")"

lsqpack=
for python in python3 /usr/bin/python3 "chroot build/trixie python3"; do
  if $python -c 'import pylsqpack' 2>/dev/null; then
    lsqpack="exec $python -c \"\$(cat bench/lsqpack.py)\""
    break
  fi
done
bench/out/sizes bench/data "$lsqpack"
