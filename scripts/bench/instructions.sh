#!/usr/bin/env bash
# Prints how many instructions an exchange takes, ours beside nghttp3's, over the folder LIB (default build/c): valgrind's callgrind counts
# 700 exchanges and 200, on one connection without a dynamic table or, where the kind says so, each on its own. A five-hundredth of what
# lies between is one; of bodies of a MiB and more 12 and 2. KINDS names some kinds of bench/exchange_kinds.c, a line each (default: all).
# The counts of a build are the same in each run and on each machine; they say nothing of caches. FUNCTIONS=N: also the N functions that
# take most of ours, each without those that it calls. A library by `UNTESTED=1 make lib-unproved` counts as a proved one does.
# NGHTTP3=FOLDER: beside the nghttp3 in that folder, as scripts/compat/debian13.sh [sid] leaves it in build/nghttp3/usr.
set -euo pipefail
cd "$(dirname "$0")/../.."

lib=${LIB:-build/c}
bash scripts/dev/need.sh library "$lib"
bash scripts/dev/packages.sh count peer
room=$(mktemp -d)
trap 'rm -rf "$room"' EXIT
make --no-print-directory -s -C bench "$room/exchange" OUT="$room" FOLDER="$(realpath "$lib")" ${NGHTTP3:+NGHTTP3="$(realpath "$NGHTTP3")"}

# one KIND EXCHANGES WHO: what callgrind counts of it
count() {
  valgrind --tool=callgrind --callgrind-out-file="$room/$2.$3" "$room/exchange" bench/data once "$1" "$2" "$3" >"$room/log" 2>&1 ||
    { cat "$room/log" >&2 && return 1; }
}

echo "| Set | ours | nghttp3 |"
echo "|---|---|---|"
while read -r kind; do
  counts=(200 700)
  case $kind in *MiB*) counts=(2 12) ;; esac
  for who in ours nghttp3; do
    for exchanges in "${counts[@]}"; do count "$kind" "$exchanges" "$who" < /dev/null; done
  done
  python3 scripts/bench/instructions.py "$kind" "$room" "${FUNCTIONS:-0}" "${counts[@]}"
done <<< "${KINDS:-$(sed -nE 's/^ +\{"([^"]+)", [a-z].*/\1/p' bench/exchange_kinds.c)}"
