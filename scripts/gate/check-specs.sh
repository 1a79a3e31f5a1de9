#!/usr/bin/env bash
# Does each file of a crate's specs/ hold definitions alone or lemmas alone? A definition is an `abbrev`, an `unfoldable`, a `record` or a `data`, a lemma any other item:
# its body is a proof. Lemmas stand in files whose name ends in `Laws`, where a contract or a crate above cites them, and in proofs/ where none does. Lib names each file
# once. One line 'ok CRATE' or 'failed CRATE' a crate, and the files that are not so.
set -uo pipefail
export LC_ALL=C
cd "$(dirname "$0")/../.."

# "FILE DEFINITIONS LEMMAS", with the name of the first lemma; items stand at the margin, or by two in a `module _ .. where`
counts() {
  awk '
    FNR == 1 { if (NR > 1) print file, definitions, lemmas, first; file = FILENAME; definitions = lemmas = inside = 0; first = "" }
    /^[^ \t]/ { if ($1 != "--") inside = ($1 == "module") }
    !/^[^ \t]/ && !(inside && /^  [^ \t]/) { next }
    { sub(/^  /, "") }
    /^(--|use |pub use |module |unfolding )/ { next }
    /^(abbrev|unfoldable|record|data|pub record|pub data) / { definitions++; next }
    /^(pub )?[^ ()]+ :( |$)/ { lemmas++; if (first == "") { first = $0; sub(/^pub /, "", first); sub(/ :.*/, "", first) } }
    END { print file, definitions, lemmas, first }
  ' "$@"
}

bad=0
for crate in $(grep -oE '^[a-z0-9_]+' crates.txt); do
  mapfile -d '' files < <(find "crates/$crate/specs" -name '*.antt' ! -name Lib.antt -print0 2> /dev/null | sort -z)
  if [ "${#files[@]}" -eq 0 ]; then continue; fi
  wrong=$(
    counts "${files[@]}" | while read -r file definitions lemmas first; do
      if [ "$definitions" -gt 0 ] && [ "$lemmas" -gt 0 ]; then
        echo "$file: $definitions definitions, and lemmas: $first"
      elif [ "$lemmas" -gt 0 ] && [[ $file != *Laws.antt ]]; then
        echo "$file: lemmas alone, in a file whose name does not end in Laws: $first"
      fi
      name=$(basename "$file" .antt)
      if ! grep -qx "pub mod $name" "crates/$crate/specs/Lib.antt"; then
        echo "$file: specs/Lib.antt has no line 'pub mod $name'"
      fi
    done
  )
  if [ -z "$wrong" ]; then
    echo "ok $crate: ${#files[@]} files of specs/ hold definitions alone or lemmas alone"
  else
    echo "failed $crate: see the lines below"
    echo "$wrong"
    bad=1
  fi
done
exit "$bad"
