#!/usr/bin/env bash
# Is every file in the layout of `rt fmt`, and does every edit that must be refused apply to the sources as they are? `rt ci` refuses a crate for the first, and
# counts an edit that does not apply as failed, but only after what stands below was proved. One line 'ok CRATE' or 'failed CRATE' a crate.
set -uo pipefail
export LC_ALL=C
cd "$(dirname "$0")/../.."

rattle=$(dirname "$(rt doc)")/bin/rattle
bad=0
for crate in $(grep -oE '^[a-z0-9_]+' crates.txt); do
  mapfile -d '' files < <(find "crates/$crate"/{src,specs,proofs} \( -name '*.rt' -o -name '*.antt' \) -print0 2> /dev/null)
  if [ "${#files[@]}" -eq 0 ]; then
    echo "failed $crate: crates.txt lists it, and it has no sources"
    bad=1
  elif said=$("$rattle" fmt --check "${files[@]}" 2>&1) && said=$(python3 scripts/gate/edits.py "crates/$crate" 2>&1); then
    echo "ok $crate: ${#files[@]} files in the layout of rt fmt; $said"
  else
    echo "failed $crate: see the lines below (rt fmt in its folder lays files out)"
    echo "$said"
    bad=1
  fi
done
exit "$bad"
