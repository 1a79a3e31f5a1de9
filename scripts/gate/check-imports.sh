#!/usr/bin/env bash
# Does each crate cite of another crate only what stands in its specs/ and its public functions, never its proofs/? One line
# 'ok CRATE' or 'failed CRATE' a crate, and the lines that cite another crate's proofs. And does each file that an import names
# have the names that it takes (scripts/gate/imports.py); does something need each definition and lemma (scripts/gate/reached.py); is
# crates.txt in order, with no name that is not used (scripts/gate/crates.py)?
set -uo pipefail
export LC_ALL=C
cd "$(dirname "$0")/../.."

# the crates of this repository, as crates.txt lists them
crates=$(grep -oE '^[a-z0-9_]+' crates.txt)

bad=0
for crate in $crates; do
  others=$(grep -vx "$crate" <<<"$crates" | paste -sd '|')
  cited=$(find "crates/$crate" -path '*/out' -prune -o \( -name '*.antt' -o -name '*.rt' -o -name '*.edit' \) -print0 |
    xargs -0r grep -nE "(Rattle\.|\b)($others)(\.|::)proofs\b" /dev/null)
  if [ ! -d "crates/$crate/src" ]; then
    echo "failed $crate: crates.txt lists it, and it has no sources"
    bad=1
  elif [ -z "$cited" ]; then
    echo "ok $crate: it cites no other crate's proofs"
  else
    echo "failed $crate: it cites another crate's proofs"
    echo "$cited"
    bad=1
  fi
done
python3 scripts/gate/imports.py || bad=1
python3 scripts/gate/reached.py || bad=1
python3 scripts/gate/crates.py || bad=1
exit "$bad"
