#!/usr/bin/env bash
# watched.sh LOG CMD..: runs a command whose output goes to a file, and says each half minute on stderr how long it has taken and what it said
# last. Where it fails, the end of the file is shown.
set -uo pipefail
log=$1
shift
"$@" >"$log" 2>&1 &
work=$!
trap 'kill "$work" 2>/dev/null' INT TERM
while kill -0 "$work" 2>/dev/null; do
  for _ in {1..30}; do
    sleep 1
    kill -0 "$work" 2>/dev/null || break
  done
  kill -0 "$work" 2>/dev/null && printf '%4d s: %s\n' "$SECONDS" "$(tail -n 1 "$log" | cut -c 1-100)" >&2
done
wait "$work"
status=$?
[ "$status" -eq 0 ] || tail -n 40 "$log" >&2
exit "$status"
