#!/usr/bin/env bash
# soak.sh SECONDS: the server and the proxy of examples/c for so long, each beside clients that read, read slowly or not at all, cancel, reset, post, and are
# hostile. Then all clients are gone, and what the allocator has in use and the descriptors have to be what they were after a first round: lines
# 'ok NAME' and 'failed NAME', with the figures. The library is in the folder LIB (build/c).
set -uo pipefail
cd "$(dirname "$0")/../.."
seconds=${1:-1800}
lib=${LIB:-$PWD/build/c}
. scripts/interop/checks.sh
. scripts/interop/programs.sh

make_programs
mapfile -t ports < <(python3 scripts/interop/ports.py 2)
whole=0
not_whole=0

# a server without the ten minutes of `start`: `last` is its process. The C library counts what it keeps of each small size for the next call as in
# use, and fills that for hours: so it keeps none.
program() { # LOG, COMMAND..
  local log=$1
  shift
  GLIBC_TUNABLES=glibc.malloc.tcache_count=0 "$@" > "$work/$log" 2>&1 &
  last=$!
  pids+=("$last")
  sleep 1
}
figure() { # LOG, PROCESS, WORD: the number after a word of what SIGUSR1 writes
  kill -USR1 "$2"
  sleep 1.5
  sed -n "s/^.*\b$3 \([0-9]*\).*$/\1/p" "$work/$1" | tail -n 1
}
# until no connection is open: a client that vanished is waited for until its idle timeout, and what is reset then, once more
quiet() { # LOG, PROCESS
  for _ in $(seq 60); do
    if [ "$(figure "$1" "$2" connections)" = 0 ]; then return; fi
  done
}
# client NAME, COMMAND..: one that may have all it asks for, in the background; what it says stands in a file of its own. It has ten minutes: one
# that stands still fails, and not one that is slow since the machine is busy.
client() {
  local name=$1
  shift
  PEER_SECONDS=600 timeout -k 5 660 "$@" > /dev/null 2> "$work/said.$name" &
  jobs[$!]=$name
}
# one round of all kinds of clients at a port
round() { # PORT
  local at="localhost:$1" process status
  local -A jobs=()
  client files "$work/plain/fetch" --address 127.0.0.1 --trust "$cert" --seconds 600 --count 20 --parallel 5 "$(url "$1" /big.bin)"
  client requests "$work/plain/fetch" --address 127.0.0.1 --trust "$cert" --seconds 600 --count 500 --parallel 50 "$(url "$1" /hello.txt)"
  client posts "$work/plain/fetch" --address 127.0.0.1 --trust "$cert" --seconds 600 --post "$big" "$(url "$1" /answer)"
  client slow "$work/peer" slow "$cert" 3000000 "$(url "$1" /big.bin)"
  client cancels "$work/peer" cancel "$cert" "$(url "$1" /big.bin)" 5
  client resets "$work/peer" resets "$cert" 2000 "$at"
  "$work/hostile" "$cert" "127.0.0.1:$1" window 3 > /dev/null 2>&1 &
  "$work/hostile" "$cert" "127.0.0.1:$1" streams 100 > /dev/null 2>&1 &
  timeout 1 "$work/peer" slow "$cert" 100000 "$(url "$1" /big.bin)" > /dev/null 2>&1 & # it vanishes
  for process in "${!jobs[@]}"; do
    wait "$process"
    status=$?
    if [ $status -eq 0 ]; then
      whole=$((whole + 1))
    else
      not_whole=$((not_whole + 1))
      echo "$(date -u +%T) port $1, ${jobs[$process]}: status $status, $(tail -n 2 "$work/said.${jobs[$process]}" | tr '\n' ' ')"
    fi
  done
}
# what the servers say of clients stands in their logs: the last lines of each, where a client had not all
show_logs() { for name in serve proxy; do tail -n 20 "$work/$name.log" | sed "s/^/  $name: /"; done; }

# the readers that read nothing hold 100 requests each until --timeout: the pool has room for the others beside them
program serve.log "$work/plain/serve" 127.0.0.1 "${ports[0]}" "$cert" "$key" "$folder"
server=$last
program proxy.log "$work/plain/proxy" --trust "$cert" --pool 16 127.0.0.1 "${ports[1]}" "$cert" "$key" 127.0.0.1 "${ports[0]}" localhost
proxy=$last
for port in "${ports[@]}"; do round "$port"; done
for name in serve:$server proxy:$proxy; do quiet "${name%:*}.log" "${name#*:}"; done
declare -A before
for name in serve:$server proxy:$proxy; do
  for word in memory descriptors; do before[$name $word]=$(figure "${name%:*}.log" "${name#*:}" $word); done
done
end=$((SECONDS + seconds))
rounds=0
while [ $SECONDS -lt $end ]; do
  for port in "${ports[@]}"; do round "$port"; done
  rounds=$((rounds + 1))
done
for name in serve:$server proxy:$proxy; do quiet "${name%:*}.log" "${name#*:}"; done
echo "$rounds rounds, $whole clients had all, $not_whole had not"
[ "$not_whole" -eq 0 ] || show_logs
: > "$work/log"
check "every client that may have all had it" test "$not_whole" -eq 0
stays() { # NAME:PROCESS, WORD, MORE: the figure is at most so much above what it was
  local after
  after=$(figure "${1%:*}.log" "${1#*:}" "$2")
  echo "${1%:*}: $2 ${before[$1 $2]} before, $after after; resident $(sed -n 's/^VmRSS:[^0-9]*\([0-9]*\) kB/\1/p' "/proc/${1#*:}/status") KiB"
  [ "$after" -le $((${before[$1 $2]} + $3)) ]
}
for name in serve:$server proxy:$proxy; do
  check "${name%:*}: memory in use ends where it began" stays "$name" memory 16384
  check "${name%:*}: descriptors end where they began" stays "$name" descriptors 0
done
[ "$failed" -eq 0 ]
