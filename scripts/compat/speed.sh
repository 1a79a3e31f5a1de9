#!/usr/bin/env bash
# speed.sh LIB [KIND..]: the drop-in for nghttp3 over the library in LIB, beside Debian's own library: the same program of bench/ runs over both, for
# each version of nghttp3 that is there. A row for each kind of exchange (bench/exchange_kinds.c): microseconds, the fastest round of ROUNDS=5 interleaved
# runs of SECONDS_A_RUN=0.3 each, by the processor's time of the thread; and instructions (valgrind's callgrind, the difference of two runs on one
# connection). Above 1 the drop-in is the faster. TIMES=0 or COUNTS=0 leaves one of them out.
set -euo pipefail
cd "$(dirname "$0")/../.."
lib=$1
shift
bash scripts/dev/packages.sh c compat
bash scripts/compat/build.sh "$lib" > /dev/null
out=build/compat
few=(20 5) many=(120 15) # how many exchanges are counted: of small bodies, of long ones
mapfile -t kinds < <(sed -nE 's/^ +\{"([^"]+)", [a-z].*/\1/p' bench/exchange_kinds.c)
[ $# -eq 0 ] || kinds=("$@")
room=$(mktemp -d)
trap 'rm -rf "$room"' EXIT

build_program() {
  "${CC:-cc}" -O2 -std=c11 -I"$header" -Wl,--wrap=malloc,--wrap=calloc,--wrap=realloc,--wrap=free -o "$program" \
    bench/exchange_speed.c bench/exchange_kinds.c bench/exchange_peer.c bench/exchange_turns.c bench/exchange_wanted.c bench/measure.c bench/lists.c "$native"
}

# over FOLDER COMMAND..: with the library of that folder
over() {
  local folder=$1
  shift
  LD_LIBRARY_PATH=$folder "$@"
}

least() { sort -n | head -n 1; }

time_of() { # KIND: the least of nghttp3's, and of ours
  local folder
  rm -f "$room"/*.times
  for ((round = 0; round < ${ROUNDS:-5}; round++)); do
    over "$room/native" "$program" bench/data time "$1" "${SECONDS_A_RUN:-0.3}" >> "$room/native.times"
    over "$out" "$program" bench/data time "$1" "${SECONDS_A_RUN:-0.3}" >> "$room/ours.times"
  done
  for folder in native ours; do least < "$room/$folder.times"; done
}

counted() { # FOLDER KIND EXCHANGES
  over "$1" valgrind --tool=callgrind --callgrind-out-file="$room/count" "$program" bench/data once "$2" "$3" > "$room/log" 2>&1 ||
    { cat "$room/log" >&2 && return 1; }
  sed -nE 's/^(summary|totals): ([0-9]+)$/\2/p' "$room/count" | tail -n 1
}

count_of() { # KIND: nghttp3's instructions an exchange, and ours
  local at=0 folder
  case $1 in *MiB*) at=1 ;; esac
  for folder in "$room/native" "$out"; do
    echo $((($(counted "$folder" "$1" "${many[at]}") - $(counted "$folder" "$1" "${few[at]}")) / (many[at] - few[at])))
  done
}

row() { # KIND, and the cells
  awk -v kind="$1" -v a="$2" -v b="$3" -v c="$4" -v d="$5" \
    'BEGIN { printf "| %s | %s | %s | %s | %s | %s | %s |\n", kind, a, b, (b ? sprintf("%.2f", a / b) : ""), c, d, (d ? sprintf("%.2f", c / d) : "") }'
}

while read -r soname header native; do
  [ "$native" != - ] || continue
  program=$PWD/$out/$soname.speed
  build_program
  rm -rf "$room/native" && mkdir "$room/native" && ln -s "$native" "$room/native/$soname"
  echo "| $soname | nghttp3, us | drop-in, us | ratio | nghttp3, instructions | drop-in, instructions | ratio |"
  echo "|---|---|---|---|---|---|---|"
  for kind in "${kinds[@]}"; do
    times=("" "") counts=("" "")
    [ "${TIMES:-1}" = 0 ] || mapfile -t times < <(time_of "$kind")
    [ "${COUNTS:-1}" = 0 ] || mapfile -t counts < <(count_of "$kind")
    row "$kind" "${times[0]}" "${times[1]}" "${counts[0]}" "${counts[1]}"
  done
  echo
done < <(bash scripts/compat/versions.sh)
