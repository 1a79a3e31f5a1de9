#!/usr/bin/env bash
# Proves and builds the static library for C (scripts/c/archive.py: over the libraries that rt ci left, or the proofs that earlier runs
# kept), and leaves in build/c what a program needs (scripts/c/library_folder.sh). Sources are proved once: where the archive in build/c is
# of the sources as they are (scripts/c/sources.sh), it stays, and only what lies beside it is made again.
set -euo pipefail
cd "$(dirname "$0")/../.."
bash scripts/dev/need.sh rt

room=$(mktemp -d)
trap 'rm -rf "$room"' EXIT
archive=crates/h3_c/out/libh3_c.a
sources=$(bash scripts/c/sources.sh)
if bash scripts/c/made_of.sh is build/c "$sources"; then
  echo "build/c was proved of these very sources: nothing is proved again" >&2
  archive=$room/libbeanwhile_h3.a
  cp -p build/c/libbeanwhile_h3.a "$archive"
else
  echo "proving and building crates/h3_c and what it stands on: minutes over proofs that are kept, an hour from nothing" >&2
  if ! bash scripts/dev/watched.sh "$room/log" python3 scripts/c/archive.py h3_c; then
    echo "h3_c was not built" >&2
    exit 1
  fi
fi
bash scripts/c/library_folder.sh "$archive" build/c
if [ "$(bash scripts/c/sources.sh)" = "$sources" ]; then
  bash scripts/c/made_of.sh write build/c "$sources"
else
  echo "the sources changed while they were proved: the next 'make lib' proves them again" >&2
fi
