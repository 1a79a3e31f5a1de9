#!/usr/bin/env bash
# Measures on one core: the rows of h3_bench, and whole exchanges over the library for C; with the argument `exchange` these alone, which wants no
# proof of h3_bench. With the argument `page` it builds nothing, measures with what an earlier run built, and writes the tables of
# bench/RESULTS.md and docs/PERFORMANCE.md. BUILD_ONLY=1: it builds and does not measure. CORE says which core (default: the last one), SECONDS_A_ROW how long each row
# takes (default 0.5), QUIET how many seconds to wait at most for a load below one (default 120). It installs nothing, and ends with an error where
# a row misses its target.
set -euo pipefail
cd "$(dirname "$0")/../.."

core=${CORE:-$(($(nproc) - 1))}
seconds=${SECONDS_A_ROW:-0.5}
what=${1:-all}
status=0
load() { cut -d' ' -f1 /proc/loadavg; }
is_busy() { [ "$(load | cut -d. -f1)" -ge 1 ]; }

wait_for_quiet() {
  local left=${QUIET:-120}
  is_busy && [ "$left" -gt 0 ] && echo "the load of the machine is $(load): waiting for one below 1, at most $left s" >&2
  while [ "$left" -gt 0 ] && is_busy; do
    sleep 5
    left=$((left - 5))
  done
}

measure() {
  wait_for_quiet
  echo "load of the machine: $(load)"
  taskset -c "$core" "bench/out/$1" bench/data "$seconds" || status=1
}

# how each side was compiled, as bench/out/sides says
build_bench() {
  bash scripts/bench/driver.sh bench >"bench/out/sides.new"
  mv bench/out/sides.new bench/out/sides
}

build_exchange() {
  bash scripts/dev/packages.sh peer
  bash scripts/c/lib.sh >&2
  make --no-print-directory -s -C bench out/exchange out/long
}

measure_all() {
  cat bench/out/sides
  echo "a row is the median of five runs of $(awk "BEGIN { print $seconds / 5 }") s, on core $core"
  measure bench
  measure exchange
  wait_for_quiet
  taskset -c "$core" bench/out/long 100000 || status=1
  return "$status"
}

mkdir -p bench/out
case $what in
  all)
    build_bench
    build_exchange
    [ -n "${BUILD_ONLY:-}" ] || measure_all || status=1
    ;;
  exchange)
    build_exchange
    [ -n "${BUILD_ONLY:-}" ] || measure exchange
    ;;
  page)
    run=$(mktemp)
    trap 'rm -f "$run"' EXIT
    measure_all | tee "$run" || status=1
    python3 scripts/bench/bench_page.py "$run"
    python3 scripts/dev/pictures.py --write # the chart of docs/PERFORMANCE.md
    ;;
  *)
    echo "bench.sh [exchange|page]" >&2
    exit 2
    ;;
esac
exit "$status"
