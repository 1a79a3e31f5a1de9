#!/usr/bin/env bash
# The gate, whose steps docs/GATE.md lists: the checks; `rt ci`, and beside it the edits that the prover refuses; the programs that rt ci built; and the
# edits that runs show. Where one of these fails the gate ends there. The last line is the sum.
set -uo pipefail
cd "$(dirname "$0")/../.."

log=$(mktemp)
times=$(mktemp)
ci=$(mktemp)
tried=$(mktemp)
shown=$(mktemp)
said=$(mktemp -d)
trap 'rm -rf "$log" "$times" "$ci" "$tried" "$shown" "$said"' EXIT
passed=0
failed=0

# runs a check, and counts its lines
count() {
  "$@" 2>&1 | tee "$log"
  status=${PIPESTATUS[0]}
  good=$(grep -cE '^ok ' "$log")
  bad=$(grep -cE '^failed ' "$log")
  # a script that stopped early, or checked nothing, is a failure of its own
  if [ "$status" -ne 0 ] && [ "$bad" -eq 0 ]; then bad=1; fi
  if [ "$good" -eq 0 ] && [ "$bad" -eq 0 ]; then bad=1; fi
  passed=$((passed + good))
  failed=$((failed + bad))
}

# what a check has said, and its status
repeated() { # FILE STATUS
  cat "$1"
  return "$2"
}

# Passes the lines of rt ci on, and keeps those that say what has ended or begun, with the seconds so far.
clock() {
  local line began=$SECONDS
  while IFS= read -r line; do
    printf '%s\n' "$line"
    case $line in
      "rt: "*" proved" | "rt: "*" NOT PROVED" | "rt: "*": trying its must-fail edits"* | "rt: "*": its tests "*)
        printf '%7d s  %s\n' $((SECONDS - began)) "${line#rt: }" >> "$times" ;;
    esac
  done
}

# side by side: two of them take a minute of one processor
for script in scripts/gate/check-*.sh; do
  (
    bash "$script" > "$said/${script##*/}" 2>&1
    echo $? > "$said/${script##*/}.status"
  ) &
done
wait
for script in scripts/gate/check-*.sh; do
  count repeated "$said/${script##*/}" "$(cat "$said/${script##*/}.status")"
done

# As many proofs of one job at a time as there are processors, where there are 5 GB for each (one takes 5.3 GB, and each other one less). Left to itself rt ci runs fewer, since it
# reckons with twice the memory, and gives further jobs to a proof that all others wait for: it is over sooner so, and takes more of the processors in all. What one
# job leaves of them goes to the edits.
free_kib=$(awk '/^MemAvailable:/ { print $2 }' /proc/meminfo)
if [ "$free_kib" -ge $(($(nproc) * 5000000)) ]; then
  export RT_JOBS=${RT_JOBS:-$(nproc)}
fi

# What an earlier rt ci left has no stamp. This one would put it back in the place of its own libraries, over which what follows is built.
for library in crates/*/out/rlib; do
  if [ ! -e "$library/stamp" ]; then rm -rf "$library"; fi
done

if [ "$failed" -eq 0 ]; then
  nice -n 19 python3 scripts/gate/refused.py --beside "$ci" > "$tried" 2>&1 &
  edits=$!
  rt ci 2>&1 | tee "$ci" | clock | tee "$log"
  last=$(grep -E '^[0-9]+ passed, [0-9]+ failed' "$log" | tail -n 1)
  good=$(sed -nE 's/^([0-9]+) passed, .*/\1/p' <<<"$last")
  bad=$(sed -nE 's/^[0-9]+ passed, ([0-9]+) failed.*/\1/p' <<<"$last")
  # no closing line: the gate itself did not finish
  passed=$((passed + ${good:-0}))
  failed=$((failed + ${bad:-1}))
  if [ "$failed" -ne 0 ]; then
    pkill -P "$edits"
    kill "$edits"
  fi
fi

if [ "$failed" -eq 0 ]; then
  # its build needs no proof, and leaves processors to the edits and the programs
  python3 scripts/gate/witnesses.py > "$shown" 2>&1 &
  runs=$!
  began=$SECONDS
  wait "$edits"
  status=$?
  count repeated "$tried" "$status"
  printf '%7d s  behind that, the edits of refused/ that were left\n' $((SECONDS - began)) >> "$times"
fi

if [ "$failed" -eq 0 ]; then
  count python3 scripts/gate/stored_scripts.py crates/h3_talk/out/h3_talk
  count python3 scripts/gate/exchange.py crates/h3_talk/out/h3_talk
  count python3 scripts/gate/sizes.py crates/h3_talk/out/h3_talk crates/h3_cases/out/h3_cases
  count python3 scripts/gate/refused_memory.py crates/h3_talk/out/h3_talk crates/h3_cases/out/h3_cases
  count python3 scripts/gate/memory_runs.py crates/h3_talk/out/h3_talk crates/h3_cases/out/h3_cases
  count python3 scripts/gate/failing_streams.py crates/h3_talk/out/h3_talk
  count python3 scripts/gate/hostile_calls.py crates/h3_cases/out/h3_cases
  count python3 scripts/gate/strict_messages.py crates/h3_cases/out/h3_cases
  count python3 scripts/gate/wide_scripts.py crates/h3_cases/out/h3_cases
  began=$SECONDS
  wait "$runs"
  count repeated "$shown" $?
  printf '%7d s  behind that, the edits that runs show\n' $((SECONDS - began)) >> "$times"
elif [ -n "${runs:-}" ]; then
  pkill -P "$runs"
  kill "$runs"
fi

if [ -s "$times" ]; then
  echo "when each crate was proved (several at a time), and what took how long behind that:"
  cat "$times"
fi
echo "$passed passed, $failed failed"
[ "$failed" -eq 0 ] && [ "$passed" -gt 0 ]
