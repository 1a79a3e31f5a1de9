#!/usr/bin/env bash
# Does the model of an endpoint that was written without the definitions and the code have the program write what each NAME.stdout has? (The
# program is held against these files by stored_scripts.py, and against the model by hostile_calls.py.) One line 'ok ..' or 'failed ..'.
set -uo pipefail
cd "$(dirname "$0")/../.."

bad=0
scripts=0
differing=""
for script in examples/*.talk tests/talk/*.talk; do
  written=$(mktemp)
  python3 -B scripts/gate/independent_talk.py "$script" > "$written" 2> /dev/null
  scripts=$((scripts + 1))
  cmp -s "$written" "${script%.talk}.stdout" || differing="$differing $script"
  rm -f "$written"
done
if [ -z "$differing" ]; then
  echo "ok the independent model writes what $scripts scripts have"
else
  echo "failed the independent model writes something else than$differing have"
  bad=1
fi
exit "$bad"
