#!/usr/bin/env bash
# test-dist.sh FOLDER: packs the library once more and compares the bytes; then takes what `make dist` left in FOLDER into roots of Debian 12
# and 13 without the kit (scripts/dist/roots.sh), and builds and runs programs there with no network (scripts/dist/inside.sh). At last the
# server of examples/c, built in each root, against gtlsclient of Debian 12, curl of Debian 13 with HTTP/3 and fetch of examples/c, over
# loopback. As root. ROOTS=trixie: in that root alone. Prints 'ok NAME', 'failed NAME: ..' and 'skipped NAME: ..', and their counts.
set -uo pipefail
cd "$(dirname "$0")/../.."
from=$1
roots=build/roots
[ -e "$from/SHA256SUMS" ] || { echo "there is no $from: run 'make dist' first" >&2; exit 1; }
[ "$(id -u)" -eq 0 ] || { echo "test-dist goes into roots of Debian, and wants to be root" >&2; exit 1; }

# one run in a network of its own, which has loopback alone
if [ -z "${IN_LOOPBACK:-}" ]; then exec unshare --net env IN_LOOPBACK=1 bash "$0" "$from"; fi
python3 - <<'END'
import fcntl, socket, struct
with socket.socket() as it:  # SIOCSIFFLAGS, IFF_UP | IFF_RUNNING
    fcntl.ioctl(it, 0x8914, struct.pack("16sh22x", b"lo", 0x41))
END

work=$(mktemp -d)
log=$work/log
pids=()
leave() {
  for pid in "${pids[@]}"; do kill "$pid" 2> /dev/null && wait "$pid" 2> /dev/null; done
  rm -rf "$work"
}
trap leave EXIT

inside() { # ROOT COMMAND..: with processes and a /proc of its own, which end with it. With run=exec it takes the place of the shell
  local root=$1
  shift
  # shellcheck disable=SC2016
  ${run:-} unshare --mount --pid --fork --kill-child bash -c 'mount -t proc proc "$0/proc" && exec chroot "$0" "$@"' "$roots/$root" \
    env -i PATH=/usr/sbin:/usr/bin:/sbin:/bin HOME=/root "$@"
}

# the same bytes twice
packed_again() {
  local lib=${LIB:-build/c} mark
  mark=$(ls "$from" | grep -q unproved && echo 1)
  if ! [ -e "$lib/libbeanwhile_h3.a" ] || ! command -v rt > /dev/null; then
    echo "skipped the same bytes twice, since $lib or the kit is not here"
  elif [ "$(grep -c . "$from/SHA256SUMS")" -lt 5 ]; then
    echo "failed the same bytes twice: $from/SHA256SUMS has too few lines"
  elif said=$(UNPROVED=$mark python3 scripts/dist/dist.py "$lib" "$work/again" 2>&1) && diff -r "$from" "$work/again"; then
    echo "ok the same bytes twice"
  else
    echo "failed the same bytes twice: ${said:-}"
  fi
}

# no error and no warning, as root too
by_lintian() {
  if ! command -v lintian > /dev/null; then
    echo "skipped lintian, which is not there (Debian: apt-get install lintian)"
  elif said=$(lintian --allow-root --fail-on error,warning "$from"/*.deb 2>&1); then
    echo "ok lintian: $(ls "$from"/*.deb | wc -l) packages"
  else
    echo "failed lintian: $(tr '\n' ' ' <<< "$said")"
  fi
}

cleaned() { # ROOT: as it was before anything was installed
  inside "$1" dpkg --purge libbeanwhile-h3-nghttp3 libbeanwhile-h3-dev libbeanwhile-h3-1 > /dev/null 2>&1
  rm -rf "$roots/$1/root/try"
}

in_root() { # ROOT
  if ! bash scripts/dist/roots.sh there "$1"; then
    echo "skipped the root $1, which is not there (make dist-roots)"
    return
  fi
  cleaned "$1"
  local try=$roots/$1/root/try
  mkdir -p "$try/dist"
  cp "$from"/* "$try/dist"
  cp -r examples/start "$try/start"
  mkdir "$try/python-tests" && cp -r bindings/python/{README.md,pyproject.toml,tests} "$try/python-tests"
  cp docs/INSTALL.md scripts/dist/inside.sh tests/c/endpoint.cpp "$try"
  (run=exec; inside "$1" timeout -k 5 5400 bash /root/try/inside.sh)
}

listens() { grep -qi ":$(printf %04X "$1") " /proc/net/udp; }

# the server of examples/c that a root has built, on a port of 127.0.0.1
begin_server() { # ROOT PORT
  local at=$roots/$1/root/try/server there=/root/try/server
  mkdir -p "$at/folder" && head -c 1000000 /dev/urandom > "$at/folder/big"
  inside "$1" openssl req -x509 -newkey ec -pkeyopt ec_paramgen_curve:P-256 -nodes -keyout $there/key.pem -out $there/cert.pem -days 13 \
    -subj /CN=localhost -addext 'subjectAltName=DNS:localhost,IP:127.0.0.1' > /dev/null 2>&1
  (
    run=exec
    inside "$1" timeout 300 $there/serve 127.0.0.1 "$2" $there/cert.pem $there/key.pem $there/folder
  ) > "$work/server" 2>&1 &
  pids+=($!)
  for _ in $(seq 100); do
    if listens "$2"; then return; fi
    sleep 0.1
  done
  return 1
}
compared() { # NAME ROOT FILE: what came is what the server of that root has
  if cmp -s "$3" "$roots/$2/root/try/server/folder/big"; then
    echo "ok $1"
  else
    echo "failed $1: $(tail -n 3 "$work/client" "$work/server" | tr '\n' ' ')"
  fi
}
by_gtlsclient() { # ROOT PORT, and what env gives the program
  local root=$1 port=$2 down=$roots/bookworm/root/try/down
  shift 2
  rm -rf "$down" && mkdir -p "$down"
  inside bookworm "$@" timeout 60 gtlsclient -q --exit-on-all-streams-close --download=/root/try/down 127.0.0.1 "$port" \
    "https://localhost:$port/big" > "$work/client" 2>&1
  compared "gtlsclient of Debian 12${1:+ over the drop-in for nghttp3} fetches a file from examples/c, built in $root" "$root" "$down/big"
}
by_curl() { # ROOT PORT, and what env gives the program
  local root=$1 port=$2
  shift 2
  inside trixie "$@" timeout 60 curl -sk --http3-only "https://127.0.0.1:$port/big" > "$work/big" 2> "$work/client"
  compared "curl of Debian 13${1:+ over the drop-in for nghttp3} fetches a file from examples/c, built in $root" "$root" "$work/big"
}
by_fetch() { # ROOT PORT CLIENT'S-ROOT
  local there=/root/try/server
  cp "$roots/$1/root/try/server/cert.pem" "$roots/$3$there/peer.pem"
  inside "$3" timeout 60 $there/fetch --address 127.0.0.1 --trust $there/peer.pem "https://localhost:$2/big" > "$work/big" 2> "$work/client"
  compared "fetch, built in $3, fetches a file from examples/c, built in $1" "$1" "$work/big"
}
drop_in=/usr/lib/x86_64-linux-gnu/beanwhile-h3/nghttp3
over_drop_in() { # ROOT PROGRAM: does it load the drop-in for nghttp3 from there?
  inside "$1" "LD_LIBRARY_PATH=$drop_in" ldd "/usr/bin/$2" 2> /dev/null | grep -q "$drop_in/libnghttp3"
}
over_quic() { # ROOT
  local port client
  if ! [ -x "$roots/$1/root/try/server/serve" ]; then
    echo "skipped the server of examples/c in $1 against gtlsclient, curl and fetch, since it was not built"
    return
  fi
  port=$(python3 scripts/interop/ports.py 1)
  if ! begin_server "$1" "$port"; then
    echo "failed the server of examples/c in $1: it does not listen: $(cat "$work/server")"
    return
  fi
  if [ -x "$roots/bookworm/usr/bin/gtlsclient" ]; then
    by_gtlsclient "$1" "$port"
    ! over_drop_in bookworm gtlsclient || by_gtlsclient "$1" "$port" "LD_LIBRARY_PATH=$drop_in"
  else
    echo "skipped gtlsclient of Debian 12: its root is not there"
  fi
  if inside trixie curl -V 2> /dev/null | grep -q HTTP3; then
    by_curl "$1" "$port"
    ! over_drop_in trixie curl || by_curl "$1" "$port" "LD_LIBRARY_PATH=$drop_in"
  else
    echo "skipped curl of Debian 13 with HTTP/3, which is not there"
  fi
  for client in bookworm trixie; do
    [ ! -x "$roots/$client/root/try/server/fetch" ] || by_fetch "$1" "$port" "$client"
  done
}

checks() {
  packed_again
  by_lintian
  for root in ${ROOTS:-bookworm trixie}; do in_root "$root"; done
  for root in ${ROOTS:-bookworm trixie}; do over_quic "$root"; done
  for root in bookworm trixie; do [ ! -d "$roots/$root" ] || cleaned "$root"; done
}

checks | tee "$log"
passed=$(grep -c '^ok ' "$log")
failed=$(grep -c '^failed ' "$log")
skipped=$(grep -c '^skipped ' "$log")
echo "$passed passed, $failed failed, $skipped skipped"
[ "$failed" -eq 0 ] && [ "$passed" -gt 0 ]
