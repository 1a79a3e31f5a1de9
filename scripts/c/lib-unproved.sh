#!/usr/bin/env bash
# Builds the library for C from the same sources without their proofs (scripts/c/unproved.py), into build/c-unproved, and marks it there: in the file
# UNPROVED and in the package files; with COVERAGE=1 into build/c-coverage, for the fuzzers. build/c, which `make lib` makes, is left alone. As
# there, sources are compiled once.
set -euo pipefail
cd "$(dirname "$0")/../.."
bash scripts/dev/need.sh rt

folder=build/c-unproved
[ -z "${COVERAGE:-}" ] || folder=build/c-coverage
room=$(mktemp -d)
trap 'rm -rf "$room"' EXIT
archive=$room/libbeanwhile_h3.a
sources_now() { # a library with fewer tests (scripts/c/unproved.py) is another one
  echo "$(bash scripts/c/sources.sh)${UNTESTED:+-untested}"
}
sources=$(sources_now)
if bash scripts/c/made_of.sh is "$folder" "$sources"; then
  echo "$folder was compiled of these very sources: they are not compiled again" >&2
  cp -p "$folder/libbeanwhile_h3.a" "$archive"
else
  echo "compiling crates/h3_c and what it stands on, without their proofs: one or two minutes" >&2
  if ! bash scripts/dev/watched.sh "$room/log" python3 scripts/c/unproved.py "$archive"; then
    echo "h3_c was not built" >&2
    exit 1
  fi
fi
bash scripts/c/library_folder.sh "$archive" "$folder" unproved
[ "$(sources_now)" != "$sources" ] || bash scripts/c/made_of.sh write "$folder" "$sources"
