#!/usr/bin/env bash
# The bindings by the types of their languages, over QUIC: http.Handler and http.RoundTripper of examples/go beside the examples in C and
# gtlsclient, with the tests of examples/go; and examples/rust/quinn, built in the root that `make upstream-root` leaves (build/trixie), beside
# the examples in C and Go, curl, and gtlsclient of that root. Only loopback addresses are used. Each command has a time limit, and each server
# is ended. Prints 'ok NAME', 'failed NAME' or 'skipped NAME' for each check or group of checks. The library is that of the folder LIB
# (build/c, as `make lib` leaves it).
set -uo pipefail
cd "$(dirname "$0")/../.."
top=$PWD
lib=${LIB:-$top/build/c}
. scripts/interop/checks.sh

# ---- programs, and what is served ----

make_examples
make_served
has_root=no
if bash scripts/interop/upstream.sh peers; then
  has_root=yes
  build bash scripts/interop/upstream.sh example "$lib" # before a server starts, which has ten minutes
fi
# rustls takes no certificate of an authority for a server's
leaf=$work/leaf.pem
leaf_key=$work/leaf_key.pem
build openssl req -x509 -newkey ec -pkeyopt ec_paramgen_curve:P-256 -nodes -keyout "$leaf_key" -out "$leaf" -days 13 -subj /CN=localhost \
  -addext 'subjectAltName=DNS:localhost,IP:127.0.0.1' -addext 'basicConstraints=critical,CA:FALSE'
mapfile -t ports < <(python3 scripts/interop/ports.py 4)
start "${ports[0]}" serve.log "$work/checked/serve" 127.0.0.1 "${ports[0]}" "$leaf" "$leaf_key" "$folder"
start "${ports[1]}" handler.log "$work/h3go" serve -handler "127.0.0.1:${ports[1]}" "$leaf" "$leaf_key" "$folder"
fetch=("$work/checked/fetch" --address 127.0.0.1 --trust "$leaf")
go_fetch=("$work/h3go" fetch)
go_client=("$work/h3go" client)
is_silent() { ! grep -qE "Sanitizer|runtime error|panic|DATA RACE" "$work/$1"; }

# ---- net/http ----

example_tests() { within 300 make -s -C examples/go test LIB="$lib" OUT="$work" > "$work/got" || { cat "$work/got" >> "$work/log"; false; }; }
gtls() { # PORT: 10 MB down, and 10 MB up
  rm -rf "$work/down"
  mkdir "$work/down"
  within 60 gtlsclient -q --exit-on-all-streams-close --download="$work/down" 127.0.0.1 "$1" "$(url "$1" /big.bin)" > /dev/null &&
    within 60 gtlsclient -q --exit-on-all-streams-close --download="$work/down" -m POST -d "$big" 127.0.0.1 "$1" "$(url "$1" /answer)" > /dev/null &&
    cmp -s "$work/down/big.bin" "$big" && cmp -s "$work/down/answer" "$work/posted"
}
net_http() {
  local port
  check "http.Client and http.Handler: the tests of examples/go" example_tests
  for port in "${ports[@]:0:2}"; do
    local server="serve"
    [ "$port" = "${ports[0]}" ] || server="http.Handler"
    check "http.Client, $server: 10 MB" gives "$big" "${go_client[@]}" "$leaf" "$(url "$port" /big.bin)"
    check "http.Client, $server: POST of 10 MB" gives "$work/posted" "${go_client[@]}" -post "$big" "$leaf" "$(url "$port" /answer)"
    check "http.Client, $server: 1,000 requests at once" gives "$work/thousand" "${go_client[@]}" -count 1000 "$leaf" "$(url "$port" /hello.txt)"
    check "http.Client, $server: no such file" refuses "status 404" "${go_client[@]}" "$leaf" "$(url "$port" /none)"
  done
  check "http.Handler, fetch: 10 MB" gives "$big" "${fetch[@]}" "$(url "${ports[1]}" /big.bin)"
  check "http.Handler, fetch: POST of 10 MB" gives "$work/posted" "${fetch[@]}" --post "$big" "$(url "${ports[1]}" /answer)"
  check "http.Handler, fetch: a body that comes back" gives "$big" "${fetch[@]}" --post "$big" "$(url "${ports[1]}" /echo)"
  check "http.Handler, fetch: 1,000 requests on one connection" gives "$work/thousand" "${fetch[@]}" --count 1000 --parallel 50 "$(url "${ports[1]}" /hello.txt)"
  check "http.Handler, fetch: HEAD" gives /dev/null "${fetch[@]}" --head "$(url "${ports[1]}" /big.bin)"
  check "http.Handler, Go client: 10 MB" gives "$big" "${go_fetch[@]}" "$leaf" "$(url "${ports[1]}" /big.bin)"
  check "http.Handler, gtlsclient: 10 MB, and a POST of 10 MB" gtls "${ports[1]}"
  check "http.Handler: no panic" is_silent handler.log
}

# ---- quinn ----

root=$top/build/trixie
there=/tmp/bindings # of the root: what its programs read and write
program=/root/example/target/release/h3_over_quinn
curl3=(chroot "$root" curl --silent --http3-only --curves X25519 --cacert $there/leaf.pem)
posts() { # PORT COUNT LENGTH: the client over quinn
  within 120 chroot "$root" $program post "127.0.0.1:$1" $there/leaf.pem "$2" "$3" > "$work/got" && [ "$(grep -c ": $3 bytes$" "$work/got")" -eq "$2" ]
}
gtls13() { # PORT
  rm -rf "$root$there/down"
  mkdir "$root$there/down"
  within 60 chroot "$root" gtlsclient -q --exit-on-all-streams-close --download=$there/down -m POST -d $there/big.bin 127.0.0.1 "$1" "$(url "$1" /echo)" \
    > /dev/null && cmp -s "$root$there/down/echo" "$big"
}
quinn() {
  local port=${ports[2]}
  mkdir -p "$root$there"
  cp "$leaf" "$leaf_key" "$big" "$root$there"
  limited chroot "$root" $program serve "127.0.0.1:$port" $there/leaf.pem $there/leaf_key.pem > "$work/quinn.log" 2>&1 &
  pids+=("$!")
  for _ in $(seq 100); do
    if listens "$port"; then break; fi
    sleep 0.1
  done
  check "client over quinn, server over quinn: three bodies of 1 MB" posts "$port" 3 1000000
  check "client over quinn, http.Handler: three bodies of 1 MB" posts "${ports[1]}" 3 1000000
  check "client over quinn, http.Handler: 90 small bodies" posts "${ports[1]}" 90 100
  check "server over quinn, curl: a body of 10 MB comes back" gives "$big" "${curl3[@]}" --data-binary @$there/big.bin "$(url "$port" /echo)"
  check "server over quinn, gtlsclient 1.11: a body of 10 MB comes back" gtls13 "$port"
  check "server over quinn, fetch: a body of 10 MB comes back" gives "$big" "${fetch[@]}" --post "$big" "$(url "$port" /echo)"
  check "server over quinn, Go client: a body of 10 MB comes back" gives "$big" "${go_fetch[@]}" -post "$big" "$leaf" "$(url "$port" /echo)"
  check "server over quinn, http.Client: a body of 10 MB comes back" gives "$big" "${go_client[@]}" -post "$big" "$leaf" "$(url "$port" /echo)"
  check "server over quinn: no panic" is_silent quinn.log
  rm -rf "${root:?}$there"
}

net_http
if [ "$has_root" = yes ]; then quinn; else echo "skipped examples/rust/quinn: there is no build/trixie (make upstream-root)"; fi
[ "$failed" -eq 0 ]
