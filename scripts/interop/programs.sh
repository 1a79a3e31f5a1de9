# programs.sh, for scripts of this folder to read in at the top of the repository, behind checks.sh: the example programs in C, and clients for them.
# The folder of the library is `lib`; it is made (`make lib`) where LIB names none.

# make_programs SET..: the packages, quic-go's client `peer`, the client `hostile`, and a folder that is served
make_programs() {
  if ! bash scripts/dev/packages.sh examples-c examples-go "$@"; then
    bad "packages"
    exit 1
  fi
  export PKG_CONFIG_PATH=$lib GO111MODULE=off GOPATH=/usr/share/gocode GOCACHE=${GOCACHE:-$work/go}
  [ -n "${LIB:-}" ] || build make -s lib
  build make -s -j2 -C examples/c LIB="$lib" OUT="$work/plain"
  build go build -o "$work/peer" scripts/interop/peer.go
  build go build -o "$work/hostile" scripts/interop/hostile.go
  make_served
}

SANITIZERS="-O1 -g -fsanitize=address,undefined -fno-sanitize-recover=undefined"
# the programs with sanitizers
make_checked() {
  build make -s -j2 -C examples/c LIB="$lib" OUT="$work/checked" CFLAGS="$SANITIZERS"
  ours=("$work/checked/fetch" --address 127.0.0.1 --trust "$cert")
}
# make_client NAME: a program of this folder with sanitizers, over what the examples in C share; make_checked came before
make_client() {
  local objects=$work/checked/objects
  # shellcheck disable=SC2046,SC2086
  build gcc $SANITIZERS -std=c11 -D_GNU_SOURCE -Wall -Wextra -Werror -Iexamples/c -o "$work/$1" "scripts/interop/$1.c" "$objects"/http3*.o \
    "$objects"/quic*.o "$objects"/{qlog,timers,tls,buffer,ending,report}.o \
    $(pkg-config --cflags --libs beanwhile-h3 libngtcp2 libngtcp2_crypto_gnutls gnutls)
}

# running PORT, LOG, COMMAND..: a server in the background; `last` is its process, and not that of `timeout`
running() {
  local timed
  start "$@"
  timed=$last
  read -r last < "/proc/$timed/task/$timed/children"
}
# serving PORT, LOG, COMMAND..: the same of serve and its options
serving() {
  local port=$1 log=$2
  shift 2
  running "$port" "$log" "$@" 127.0.0.1 "$port" "$cert" "$key" "$folder"
}
# proxying PORT, LOG, PORT of the server, COMMAND..: the same of proxy and its options
proxying() {
  local port=$1 log=$2 to=$3
  shift 3
  running "$port" "$log" "$@" --trust "$cert" 127.0.0.1 "$port" "$cert" "$key" 127.0.0.1 "$to" localhost
}
# soon COMMAND..: the command succeeds within ten seconds, tried each tenth of a second
soon() {
  local tries
  for ((tries = 0; tries < 100; tries++)); do
    if "$@"; then return 0; fi
    sleep 0.1
  done
  return 1
}
# says TEXT, COMMAND..: the command ends well and prints this alone
says() {
  local text=$1
  shift
  works "$@" && [ "$(cat "$work/got")" = "$text" ]
}
# has PATTERN, COMMAND..: standard error has it
has() {
  local pattern=$1
  shift
  within 60 "$@" > "$work/got"
  grep -qE -- "$pattern" "$work/log"
}
# await FILE, PATTERN: a line of it has this, within 30 seconds
await() {
  for _ in $(seq 300); do
    if grep -q -- "$2" "$1" 2> /dev/null; then return; fi
    sleep 0.1
  done
  return 1
}
# ended PROCESS, SECONDS: is it gone by then?
ended() { timeout "$2" tail --pid="$1" -f /dev/null; }
# is_silent LOG: no sanitizer said anything
is_silent() { ! grep -qE "Sanitizer|runtime error" "$work/$1"; }
# kib PROCESS, WORD of /proc/PROCESS/status
kib() { sed -n "s/^$2:[^0-9]*\([0-9]*\) kB/\1/p" "/proc/$1/status"; }

# loses_none PROCESS, PORT, OTHER: four clients, 250 requests each, beside the end (SIGTERM) of the server at PORT; those that it does not take go to the
# one at OTHER. All are answered, and some by the other.
loses_none() {
  local clients=() client status=0
  for client in 1 2 3 4; do
    within 120 "$work/leave" "$cert" 250 50 /part.bin 50000 "$2" "$3" > "$work/leave.$client" &
    clients+=($!)
  done
  await "$work/leave.1" half || status=1
  kill -TERM "$1"
  for client in "${clients[@]}"; do wait "$client" || status=1; done
  cat "$work"/leave.? >> "$work/log"
  grep -h connections "$work"/leave.?
  [ $status -eq 0 ] && grep -q ", 2 connections$" "$work"/leave.?
}
