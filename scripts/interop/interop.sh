#!/usr/bin/env bash
# The library for C beside nghttp3 (and its header sections beside ls-qpack), then the examples against HTTP/3 peers over QUIC, and then our encoder and decoder of QPACK against nghttp3's, which
# want a second library (h3_bench) proved. Beside them peers of Debian 13 and the Rust crate h3, where `make upstream-root` made a root of Debian 13, and
# Firefox, where its packages are there. LIB: the folder of a library that is there, which is taken as it is. Without LIB the library is made (`make lib`).
# Both libraries are proved once for their sources. LANES=3: the scripts over QUIC run three at a time (7: all), and what each said is printed at its end. The last
# line is 'N passed, M failed', with ', K skipped' behind it where something is not there; the lines before it say how long each part took, and what the
# library was made of.
set -uo pipefail
cd "$(dirname "$0")/../.."

room=$(mktemp -d)
lanes=${LANES:-1}
trap 'rm -rf "$room"' EXIT
trap 'kill $(jobs -p) 2> /dev/null; exit 1' INT TERM
export GOCACHE=${GOCACHE:-$room/go} # one for all parts: what they compile is the same. Not kept, since Go looks at no header of the library when it looks there
first_port=$((20000 + RANDOM % 12 * 1000)) # below those that the kernel gives to clients

sums() { # NAME, since when, PASSED, FAILED, SKIPPED
  echo "$((SECONDS - $2)) $3 $4 $5 $1" >> "$room/sums"
}
# part NAME COMMAND..: runs it, and counts its lines 'ok ..', 'failed ..' and 'skipped ..'
part() {
  local name=$1 began=$SECONDS status good bad said
  shift
  said=$(mktemp -p "$room")
  if [ -n "${in_lane:-}" ]; then
    "$@" > "$said" 2>&1 &
    child=$!
    wait "$child"
    status=$?
    flock "$room" cat "$said"
  else
    "$@" 2>&1 | tee "$said"
    status=${PIPESTATUS[0]}
  fi
  good=$(grep -cE '^ok ' "$said")
  bad=$(grep -cE '^failed ' "$said")
  # a command that stopped early, or checked nothing, is a failure of its own
  if [ "$bad" -eq 0 ] && { [ "$status" -ne 0 ] || [ "$good" -eq 0 ]; }; then bad=1; fi
  sums "$name" "$began" "$good" "$bad" "$(grep -cE '^skipped ' "$said")"
}
missing() { # WHAT: it could not be built
  echo "failed $1"
  sums "$1" "$SECONDS" 0 1 0
}
left_out() { # WHAT, WHY
  echo "skipped $1: $2"
  sums "$1" "$SECONDS" 0 0 1
}

find_library() { # `lib`, an absolute path
  lib=${LIB:-build/c}
  if [ -z "${LIB:-}" ]; then
    bash scripts/c/lib.sh || return 1
  else
    bash scripts/dev/need.sh library "$lib" || return 1
  fi
  lib=$(realpath "$lib")
}
# beside_nghttp3 FOLDER of bench, and the folder of another nghttp3 than the system's: built again, since what is there may be linked with another library
beside_nghttp3() {
  rm -f "bench/$1"/interop_*
  if make --no-print-directory -s -C bench "$1/interop_exchange" "$1/interop_strict" OUT="$1" FOLDER="$lib" NGHTTP3="${2:-}"; then
    local version
    version=$("bench/$1/interop_strict" version)
    part "exchanges beside nghttp3 $version" "bench/$1/interop_exchange" bench/data
    part "strict messages beside nghttp3 $version" python3 scripts/gate/strict_messages.py --peer "bench/$1/interop_strict"
  else
    missing "what runs the library beside nghttp3"
  fi
}
beside_libraries() {
  beside_nghttp3 out
  if bash scripts/interop/upstream.sh curl; then
    mkdir -p "$room"/nghttp3/{include,lib} # of that root nghttp3 alone, and not its headers of the system
    ln -s "$PWD/build/trixie/usr/include/nghttp3" "$room/nghttp3/include"
    ln -s "$PWD"/build/trixie/usr/lib/x86_64-linux-gnu/libnghttp3.a "$room/nghttp3/lib"
    beside_nghttp3 out/trixie "$room/nghttp3"
  else
    left_out "exchanges and strict messages beside nghttp3 of Debian 13" "there is no build/trixie (make upstream-root)"
  fi
  part "header sections beside nghttp3 and ls-qpack" env LIB="$lib" bash scripts/bench/sizes.sh
}
# those over QUIC, of which each has a hundred ports of its own; the longest come first
list_scripts() {
  local port=$first_port name
  for name in peers compat quic proxy programs bindings sections; do
    echo "$name $port"
    port=$((port + 100))
  done > "$room/queue"
}
run_script() { part "interop_$1.sh" env LIB="$lib" PORTS="$2" bash "scripts/interop/interop_$1.sh"; } # NAME, FIRST PORT
lane() { # the next script that is left, while there is one, beside other lanes; TERM ends it
  local child in_lane=yes name port
  trap 'kill "$child" 2> /dev/null; exit 1' TERM
  while read -r name port < <(flock "$room" sh -c 'head -n 1 "$1" && sed -i 1d "$1"' sh "$room/queue"); do run_script "$name" "$port"; done
}
over_quic() {
  local _ name port
  list_scripts
  if [ "$lanes" -gt 1 ]; then
    for _ in $(seq "$lanes"); do lane & done
    wait
  else
    while read -r name port <&3; do run_script "$name" "$port"; done 3< "$room/queue"
  fi
}
made_of() { # what the library of this run was made of
  if [ -e "$lib/UNPROVED" ]; then
    echo "without its proofs"
  elif bash scripts/c/made_of.sh is "$lib" "$(bash scripts/c/sources.sh)"; then
    echo "proved, of the sources as they are"
  else
    echo "not known to be of the sources as they are"
  fi
}

if ! bash scripts/dev/packages.sh peer examples interop; then
  echo "0 passed, 1 failed"
  exit 1
fi
if find_library; then
  echo "the library: $lib, $(made_of)" | tee "$room/about"
  beside_libraries
  over_quic
else
  missing "the library for C"
fi
if [ -n "${LIB:-}" ] && ! bash scripts/bench/driver.sh there; then
  left_out "our encoder and decoder beside nghttp3's" "with LIB h3_bench is not proved (bash scripts/bench/driver.sh interop)"
elif bash scripts/bench/driver.sh interop; then
  part "our encoder and decoder beside nghttp3's" bench/out/interop bench/data
else
  missing "our encoder and decoder beside nghttp3's"
fi
if bash scripts/interop/upstream.sh there; then
  part "the comparison with the Rust crate h3" bash scripts/interop/upstream.sh
else
  left_out "the comparison with the Rust crate h3" "there is no build/trixie (make upstream-root)"
fi

passed=0
failed=0
skipped=0
while read -r seconds good bad left name; do
  printf '%6d s  %s: %d passed, %d failed, %d skipped\n' "$seconds" "$name" "$good" "$bad" "$left"
  passed=$((passed + good))
  failed=$((failed + bad))
  skipped=$((skipped + left))
done < "$room/sums"
[ ! -e "$room/about" ] || cat "$room/about"
echo "$passed passed, $failed failed$([ "$skipped" -eq 0 ] || echo ", $skipped skipped")"
[ "$failed" -eq 0 ]
