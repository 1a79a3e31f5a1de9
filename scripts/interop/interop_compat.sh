#!/usr/bin/env bash
# Programs of Debian that have their HTTP/3 from nghttp3, over QUIC: gtlsclient and gtlsserver of the system, where it is Debian 12, and curl,
# gtlsclient and gtlsserver in the root of Debian 13 that `make upstream-root` leaves (build/trixie). All checks run twice: these programs
# have Debian's nghttp3, and then the drop-in (compat/nghttp3) in its place. The other end is our server and client in C, nginx, Caddy,
# aioquic, Chromium, Firefox, or such a program over nghttp3, as far as they are there. Only loopback addresses, each command within a time,
# each server ended at the end. The first run prints its lines with 'nghttp3: ' in front. The second prints 'ok NAME', 'failed NAME' or
# 'skipped NAME' for each check or group of checks; and the last line says whether the drop-in fails a check that nghttp3 passes.
# The library is that of the folder LIB.
set -uo pipefail
cd "$(dirname "$0")/../.."
top=$PWD
lib=$(realpath "${LIB:-$top/build/c}")
. scripts/interop/checks.sh

if ! bash scripts/dev/packages.sh examples-c compat || ! bash scripts/dev/need.sh library "$lib"; then
  bad "what the drop-in for nghttp3 stands on"
  exit 1
fi

# ---- programs, and what is served ----

export PKG_CONFIG_PATH=$lib
build make -s -C examples/c LIB="$lib" OUT="$work/plain"
build bash scripts/compat/build.sh "$lib"
make_served
make_authority
: > "$folder/empty"
letters="1000000 $(hash_of "$folder/letters.txt")"
for _ in $(seq 20); do echo "$letters"; done > "$work/twenty"
ours=("$work/plain/fetch" --address 127.0.0.1 --trust "$cert")
mapfile -t ports < <(python3 scripts/interop/ports.py 3)
versions=$(bash scripts/compat/versions.sh)
has_firefox=no
! bash scripts/dev/packages.sh firefox 2> /dev/null || has_firefox=yes

# ---- where programs run ----

# runs_in ROOT THERE: programs run in this root ("" for the system), and see the certificate, the key and the files in the folder THERE, which
# is `inside` here. `over` runs one over what is checked, which `it` says.
runs_in() {
  there=$2
  inside=$1$2
  plain=()
  [ -z "$1" ] || plain=(chroot "$1")
  over=("${plain[@]}")
  [ "$it" = nghttp3 ] || over+=(env LD_LIBRARY_PATH="$there/compat")
}
lay_out() { # SONAME
  mkdir -p "$inside/compat"
  cp "build/compat/$1" "$inside/compat/"
}
has_it() { # PROGRAM: it loads the library that is checked
  "${over[@]}" ldd "$("${plain[@]}" sh -c "command -v $1")" > "$work/got"
  if [ "$it" = nghttp3 ]; then ! grep -F "$there/compat" "$work/got"; else grep -qF "$there/compat/libnghttp3.so" "$work/got"; fi
}

# ---- checks of a client ----

in_order() { # FILE LINE..: it has these lines, in this order, perhaps with others between
  local file=$1 line from=1 at
  shift
  for line; do
    at=$(tail -n "+$from" "$file" | grep -anxF -- "$line" | head -n 1 | cut -d: -f1)
    [ -n "$at" ] || return 1
    from=$((from + at))
  done
}
# of `client`, which is gtlsclient: what it downloads stands in $inside/down
downloads() { # options and URLs
  rm -rf "$inside/down"
  mkdir "$inside/down"
  within 60 "${client[@]}" -q --exit-on-all-streams-close --download="$there/down" "$@" > /dev/null
}
gtls_file() { downloads 127.0.0.1 "$1" "$(url "$1" /big.bin)" && cmp -s "$inside/down/big.bin" "$big"; }
gtls_post() {
  downloads -m POST -d "$there/folder/big.bin" 127.0.0.1 "$1" "$(url "$1" /answer)" && cmp -s "$inside/down/answer" "$work/posted"
}
gtls_many() { # PORT, options: 100 files
  local port=$1 urls=()
  shift
  for i in $(seq 0 99); do urls+=("$(url "$port" "/small/$i.txt")"); done
  downloads "$@" 127.0.0.1 "$port" "${urls[@]}" && diff -rq "$inside/down" "$folder/small" >> "$work/log"
}
gtls_early() { # PORT: the request is in the first packet of a second connection (0-RTT), and is answered
  local saved=(--session-file="$there/session" --tp-file="$there/tp")
  rm -f "$inside/session" "$inside/tp"
  downloads "${saved[@]}" 127.0.0.1 "$1" "$(url "$1" /hello.txt)" || return 1
  within 60 "${client[@]}" "${saved[@]}" --no-quic-dump --no-http-dump --exit-on-all-streams-close --download="$there/down" \
    127.0.0.1 "$1" "$(url "$1" /letters.txt)" > /dev/null
  grep -aqE "frm tx .* 0RTT STREAM.* id=0x0 fin=1" "$work/log" && ! grep -aq "rejected" "$work/log" && cmp -s "$inside/down/letters.txt" "$folder/letters.txt"
}
# gtls_tells PORT PATH LINE..: what gtlsclient says of a response has these lines, in this order, perhaps with others between
gtls_tells() {
  local port=$1 path=$2
  shift 2
  within 60 "${client[@]}" --no-quic-dump --exit-on-all-streams-close 127.0.0.1 "$port" "$(url "$port" "$path")" > /dev/null
  grep -a "^http: " "$work/log" > "$work/got"
  cp "$work/got" "$work/log"
  in_order "$work/got" "$@"
}
gtls_client() { # what the client is called, the server's name, PORT, whether it counts what is posted
  check "$1, $2: 10 MB" gtls_file "$3"
  check "$1, $2: 100 requests" gtls_many "$3"
  [ "$4" = no ] || check "$1, $2: POST of 10 MB" gtls_post "$3"
}
our_client() { # the server's name, PORT
  check "fetch, $1: 10 MB" gives "$big" "${ours[@]}" "$(url "$2" /big.bin)"
  check "fetch, $1: 1,000 requests on one connection" gives "$work/thousand" "${ours[@]}" --count 1000 --parallel 50 "$(url "$2" /hello.txt)"
  check "fetch, $1: a response that is given up" gives "$big" "${ours[@]}" --count 2 --cancel 100000 "$(url "$2" /big.bin)"
}

curl_says() { # TEXT, arguments of curl: status, a blank, and the bytes of the body
  local text=$1
  shift
  [ "$(within 60 "${curl[@]}" -o /dev/null -w '%{http_version} %{response_code} %{size_download}' "$@")" = "3 $text" ]
}
curl_status() { # STATUS, arguments of curl
  local status=$1
  shift
  [ "$(within 60 "${curl[@]}" -o /dev/null -w '%{response_code}' "$@")" = "$status" ]
}
curl_has_it() {
  local mark="-(UNPROVED-)?beanwh"
  [ "$it" != nghttp3 ] || mark=" "
  "${over[@]}" curl -V > "$work/got" && grep -qE "nghttp3/1.8.0$mark" "$work/got"
}
curl_many() { # PORT, options: 100 files. $work/connects: for each how many connections were made
  local port=$1 urls=()
  shift
  for i in $(seq 0 99); do urls+=(-o "$there/small-$i" "$(url "$port" "/small/$i.txt")"); done
  within 60 "${curl[@]}" -w '%{num_connects}\n' "$@" "${urls[@]}" > "$work/connects" || return 1
  for i in $(seq 0 99); do cmp -s "$inside/small-$i" "$folder/small/$i.txt" || return 1; done
}
curl_on_one() { curl_many "$1" && [ "$(grep -c '^1$' "$work/connects")" -eq 1 ]; } # PORT: the same on one connection
curl_on_more() { curl_many "$1" && [ "$(grep -c '^1$' "$work/connects")" -gt 1 ]; } # PORT: the server ends connections by GOAWAY
curl_head() { # PORT
  within 60 "${curl[@]}" -I "$(url "$1" /big.bin)" | tr -d '\r' > "$work/got"
  grep -q "^HTTP/3 200" "$work/got" && grep -qi "^content-length: 10000000$" "$work/got"
}
curl_aborts() { # PORT: curl gives up after a second, and goes on with another connection
  within 60 "${curl[@]}" --limit-rate 200k --max-time 1 -o /dev/null "$(url "$1" /big.bin)"
  [ $? -eq 28 ] && curl_says "200 6" "$(url "$1" /hello.txt)"
}
curl_fields() { # PORT: 100 fields, and one of 6,000 bytes
  local fields=(-H "x-long: $(printf 'a%.0s' $(seq 6000))")
  for i in $(seq 100); do fields+=(-H "x-field-$i: value $i"); done
  curl_says "200 6" "${fields[@]}" "$(url "$1" /hello.txt)"
}
curl_pipe() { # PORT: of an unknown length
  within 60 "${curl[@]}" -X POST -T - "$(url "$1" /answer)" < <(cat "$big") > "$work/got" && cmp -s "$work/got" "$work/posted"
}
curl_posts() { # PORT: 20 of 1 MB, at once
  local urls=()
  for _ in $(seq 20); do urls+=("$(url "$1" /answer)"); done
  gives "$work/twenty" "${curl[@]}" -Z --parallel-max 20 --data-binary "@$there/folder/letters.txt" "${urls[@]}"
}
# curl_tells PORT PATH LINE..: what curl says of a response, and its body, have these lines, in this order, perhaps with others between
curl_tells() {
  local port=$1 path=$2
  shift 2
  within 60 "${curl[@]}" -D - "$(url "$port" "$path")" | tr -d '\r' > "$work/got"
  cat "$work/got" >> "$work/log"
  in_order "$work/got" "$@"
}
curl_resets() { # PORT: a response that the server resets has failed, and curl goes on
  within 60 "${curl[@]}" -o /dev/null "$(url "$1" /reset)" && return 1
  curl_says "200 6" "$(url "$1" /hello.txt)"
}
curl_leaves() { # PORT: its first response comes behind a GOAWAY that refuses a second request
  within 60 "${curl[@]}" -w '%{num_connects}\n' "$(url "$1" /goaway)" "$(url "$1" /hello.txt)" > "$work/got" &&
    [ "$(tr '\n' ' ' < "$work/got")" = "the last 1 hello 1 " ]
}
curl_client() { # the server's name, PORT, whether it counts what is posted: no, yes, or of a known length
  check "curl over $it, $1: 10 MB" gives "$big" "${curl[@]}" "$(url "$2" /big.bin)"
  check "curl over $it, $1: HEAD" curl_head "$2"
  check "curl over $it, $1: an empty file" curl_says "200 0" "$(url "$2" /empty)"
  check "curl over $it, $1: no such file" curl_status 404 "$(url "$2" /none)"
  check "curl over $it, $1: 100 requests in turn" curl_on_one "$2"
  check "curl over $it, $1: 100 requests, 50 at once" curl_many "$2" -Z --parallel-max 50
  check "curl over $it, $1: 100 fields, and one of 6,000 bytes" curl_fields "$2"
  check "curl over $it, $1: a download that is aborted" curl_aborts "$2"
  [ "$3" != no ] || return
  check "curl over $it, $1: POST of 10 MB" gives "$work/posted" "${curl[@]}" --data-binary "@$there/folder/big.bin" "$(url "$2" /answer)"
  check "curl over $it, $1: POST of nothing" curl_says "200 67" --data-binary "" "$(url "$2" /answer)"
  check "curl over $it, $1: an upload" gives "$work/posted" "${curl[@]}" -X POST -T "$there/folder/big.bin" "$(url "$2" /answer)"
  check "curl over $it, $1: POST with Expect" gives "$work/posted" "${curl[@]}" -H "Expect: 100-continue" --data-binary "@$there/folder/big.bin" \
    "$(url "$2" /answer)"
  check "curl over $it, $1: 20 times POST of 1 MB, at once" curl_posts "$2"
  [ "$3" != length ] || return
  check "curl over $it, $1: an upload from a pipe" curl_pipe "$2"
}

# ---- checks of a server ----

aioquic_cases() { # which of aio_files.py, the server's name, PORT
  local word case
  : > "$work/log"
  timeout -k 5 300 "${plain[@]}" python3 "$there/aio_files.py" "$1" "$3" "$there/cert.pem" "$there/folder" > "$work/cases" 2>> "$work/log"
  while read -r word case; do
    if [ "$word" = ok ]; then good "aioquic, $2: $case"; else bad "aioquic, $2: ${case%%: *}" && echo "  $case" >&2; fi
  done < "$work/cases"
  [ -s "$work/cases" ] || bad "aioquic, $2: $1"
}
page_is_seen() { "$1" "$2" / && saw "image 64 x 48" "small 100" "protocols h3 of .*"; } # COMMAND that has a browser see pages, PORT
transfers_are_seen() { "$1" "$2" "/transfers.html?urgent=/20000000&others=/10000000" && saw "upload aborted"; }
# of the page that was seen last, or of another try: on a busy machine the page may learn late which of five transfers of a second was whole first. A server that
# knows no urgency has all four before it each time.
urgent_is_seen() { saw "$3" || { transfers_are_seen "$1" "$2" && saw "$3"; }; } # COMMAND, PORT, LINE
browser() { # its name, COMMAND, the server's name, PORT, and what else is to be seen of an urgent response
  local name="$1, $3"
  check "$name: a page with an image, and 100 requests at once" page_is_seen "$2" "$4"
  check "$name: an upload that is aborted" transfers_are_seen "$2" "$4"
  check "$name: a download that is aborted" saw "download aborted"
  check "$name: 10 MB" saw "big $(cat "$work/posted")"
  check "$name: POST of 10 MB" saw "posted hello"
  check "$name: 20 times POST of 1 MB, at once" saw "posts 20, hello"
  check "$name: HEAD, and no such file" saw "none 404" "head 200 10000000"
  check "$name: 500 requests in turn" saw "serial 500"
  check "$name: nothing by another version of HTTP" saw "then h3"
  [ -z "${5:-}" ] || check "$name: an urgent response of 20 MB before most of four of 10 MB" urgent_is_seen "$2" "$4" "$5"
}
has_trailer() { # PORT: what our client says of a response with a trailer
  : > "$work/log"
  gives "$folder/hello.txt" "${ours[@]}" --verbose "$(url "$1" /hello.txt)" && grep -q "^trailer of 1 field" "$work/log"
}

# ---- the system ----

our_server() { start "${ports[0]}" serve.log "$work/plain/serve" "$@" 127.0.0.1 "${ports[0]}" "$cert" "$key" "$folder"; } # options

debian12() {
  if ! grep -q '^libnghttp3.so.3 ' <<< "$versions" || ! command -v gtlsclient gtlsserver > /dev/null; then
    echo "skipped ngtcp2's programs over libnghttp3.so.3: Debian 12's libnghttp3-dev, ngtcp2-client and ngtcp2-server are not there"
    return
  fi
  runs_in "" "$work"
  lay_out libnghttp3.so.3
  check "gtlsclient 0.12 has $it" has_it gtlsclient
  check "gtlsserver 0.12 has $it" has_it gtlsserver
  our_server
  start "${ports[1]}" native.log gtlsserver -q -d "$folder" 127.0.0.1 "${ports[1]}" "$key" "$cert"
  start "${ports[2]}" over.log "${over[@]}" gtlsserver -q -d "$folder" 127.0.0.1 "${ports[2]}" "$key" "$cert"
  client=("${over[@]}" gtlsclient)
  gtls_client "gtlsclient 0.12 over $it" serve "${ports[0]}" yes
  gtls_client "gtlsclient 0.12 over $it" "gtlsserver 0.12" "${ports[1]}" no
  gtls_client "gtlsclient 0.12 over $it" "gtlsserver 0.12 over $it" "${ports[2]}" no
  client=(gtlsclient)
  gtls_client "gtlsclient 0.12" "gtlsserver 0.12 over $it" "${ports[2]}" no
  our_client "gtlsserver 0.12 over $it" "${ports[2]}"
  end_servers
}

# ---- Debian 13 ----

link="</style.css>; rel=preload; as=style"
stream="http: stream 0x0"
trailer=("$stream [:status: 200]" "$stream trailers started" "$stream [x-count: 9]" "$stream [x-sum: 0]" "$stream trailers ended")
both_clients() { # the server's name, PORT, whether it counts what is posted: see curl_client
  curl_client "$@"
  gtls_client "gtlsclient 1.11 over $it" "$@"
}

beside_serve() {
  our_server
  both_clients serve "${ports[0]}" yes
  end_servers
  our_server --requests 40
  check "curl over $it, serve: 100 requests, of which a connection takes 40 (GOAWAY)" curl_on_more "${ports[0]}"
  end_servers
}

nginx_conf() {
  cat << NGINX
user root;
worker_processes 1;
daemon off;
pid $there/nginx.pid;
error_log stderr error;
events {}
http {
  access_log off;
  ssl_certificate $there/cert.pem;
  ssl_certificate_key $there/key.pem;
  client_max_body_size 0;
  client_body_temp_path $there/body;
  proxy_http_version 1.1;
  types { text/plain txt; }
  server {
    listen 127.0.0.1:${ports[0]} quic;
    http3 on;
    large_client_header_buffers 8 32k;
    keepalive_requests 100000;
    root $there/folder;
    location = /answer { proxy_request_buffering off; proxy_pass http://127.0.0.1:${ports[2]}; }
    location = /trailers { add_trailer x-count 9; add_trailer x-sum 0; proxy_pass http://127.0.0.1:${ports[2]}/hello.txt; }
    location = /reset { proxy_buffering off; proxy_pass http://127.0.0.1:${ports[2]}/cut; }
  }
}
NGINX
}
start_backend() { # what counts what is posted behind the proxies, by HTTP/1.1
  limited python3 scripts/interop/backend.py "${ports[2]}" "$folder" > "$work/backend.log" 2>&1 &
  pids+=("$!")
  for _ in $(seq 100); do
    ! grep -qi ":$(printf %04X "${ports[2]}") " /proc/net/tcp || return 0
    sleep 0.1
  done
}
beside_nginx() {
  nginx_conf > "$inside/nginx.conf"
  start_backend
  start "${ports[0]}" nginx.log "${plain[@]}" nginx -c "$there/nginx.conf"
  both_clients nginx "${ports[0]}" yes
  check "gtlsclient 1.11 over $it, nginx: a trailer" gtls_tells "${ports[0]}" /trailers "${trailer[@]}"
  check "curl over $it, nginx: a response that is cut" curl_resets "${ports[0]}"
  end_servers
}

caddy_conf() {
  cat << CADDY
{
	admin off
	auto_https off
	default_bind 127.0.0.1
}
https://localhost:${ports[0]} {
	tls $cert $key
	root * $folder
	reverse_proxy /answer 127.0.0.1:${ports[2]}
	file_server
}
CADDY
}
beside_caddy() {
  caddy_conf > "$work/Caddyfile"
  start_backend
  start "${ports[0]}" caddy.log env HOME="$work" caddy run --config "$work/Caddyfile" --adapter caddyfile
  both_clients Caddy "${ports[0]}" length
  end_servers
}

beside_aioquic() {
  start "${ports[0]}" aioquic.log "${plain[@]}" python3 "$there/aio.py" serve "${ports[0]}" "$there/cert.pem" "$there/key.pem" "$there/folder"
  both_clients aioquic "${ports[0]}" yes
  check "curl over $it, aioquic: 103" curl_tells "${ports[0]}" /103 "HTTP/3 103 " "link: $link" "HTTP/3 200 " "hints"
  # curl 8.14.1 writes a trailer behind the body
  check "curl over $it, aioquic: a trailer" curl_tells "${ports[0]}" /trailers "HTTP/3 200 " "trailers" "x-count: 9" "x-sum: 0"
  check "gtlsclient 1.11 over $it, aioquic: 103" gtls_tells "${ports[0]}" /103 "$stream [:status: 103]" "$stream [link: $link]" \
    "$stream headers ended" "$stream [:status: 200]" "$stream body 6 bytes"
  check "gtlsclient 1.11 over $it, aioquic: a trailer" gtls_tells "${ports[0]}" /trailers "${trailer[@]}"
  check "curl over $it, aioquic: a response that is reset" curl_resets "${ports[0]}"
  check "curl over $it, aioquic: GOAWAY before a response" curl_leaves "${ports[0]}"
  end_servers
}

gtls_server() { # LOG, KEY, CERTIFICATE, options: gtlsserver at the first port, over what the array `has` says
  local log=$1 key=$2 cert=$3
  shift 3
  start "${ports[0]}" "$log" "${has[@]}" gtlsserver -q "$@" -d "$there/folder" 127.0.0.1 "${ports[0]}" "$there/$key" "$there/$cert"
}
beside_gtlsserver() {
  has=("${plain[@]}")
  gtls_server native13.log key.pem cert.pem
  both_clients "gtlsserver 1.11" "${ports[0]}" no
  end_servers
}
of_gtlsserver() {
  local which name="gtlsserver 1.11 over $it"
  has=("${over[@]}")
  gtls_server over13.log key.pem cert.pem
  both_clients "$name" "${ports[0]}" no
  check "gtlsclient 1.11 over $it, $name: a request before the handshake is done" gtls_early "${ports[0]}"
  our_client "$name" "${ports[0]}"
  end_servers
  gtls_server cases13.log key.pem cert.pem --max-streams-uni=10 # some cases open further ones
  if [ "$has_aioquic" = yes ]; then
    for which in files ordering broken; do aioquic_cases "$which" "$name" "${ports[0]}"; done
  fi
  ! command -v chromium > /dev/null || browser Chromium chromium_sees "$name" "${ports[0]}" # it holds back what is not urgent, at any server
  end_servers
  gtls_server options13.log key.pem cert.pem --send-trailers --early-response
  check "gtlsclient 1.11 over $it, $name: a trailer" gtls_tells "${ports[0]}" /hello.txt "$stream body 6 bytes" "$stream trailers started" \
    "$stream [x-ngtcp2-stream-id: 0]"
  check "fetch, $name: a trailer" has_trailer "${ports[0]}"
  check "fetch, $name: an answer that stops a POST of 10 MB" gives "$folder/hello.txt" "${ours[@]}" --post "$big" "$(url "${ports[0]}" /hello.txt)"
  [ "$has_aioquic" = no ] || aioquic_cases options "$name" "${ports[0]}"
  end_servers
  gtls_server lost13.log key.pem cert.pem --tx-loss=0.03 --rx-loss=0.03
  gtls_client "gtlsclient 1.11 over $it" "$name, packets lost" "${ports[0]}" no
  our_client "$name, packets lost" "${ports[0]}"
  end_servers
  [ "$has_firefox" = yes ] || return
  gtls_server firefox13.log leaf_key.pem leaf.pem
  browser Firefox firefox_sees "$name" "${ports[0]}" "before 20000000 urgent bytes [012]"
  end_servers
}

has_aioquic=no
[ ! -e build/trixie/usr/lib/python3/dist-packages/aioquic ] || has_aioquic=yes

debian13() {
  local root=$top/build/trixie
  if ! bash scripts/interop/upstream.sh curl || ! grep -q '^libnghttp3.so.9 ' <<< "$versions"; then
    echo "skipped curl and ngtcp2's programs over libnghttp3.so.9: there is no build/trixie with them and libnghttp3-dev (make upstream-root)"
    return
  fi
  runs_in "$root" /tmp/interop_compat
  lay_out libnghttp3.so.9
  cp -r "$folder" "$cert" "$key" "$work"/leaf*.pem scripts/interop/aio*.py "$inside"
  # one packet of ClientHello: see curl in examples/PEERS.md
  curl=("${over[@]}" curl --silent --show-error --http3-only --curves X25519 --cacert "$there/cert.pem")
  client=("${over[@]}" gtlsclient)
  check "curl of Debian 13 has $it" curl_has_it
  check "gtlsclient 1.11 has $it" has_it gtlsclient
  check "gtlsserver 1.11 has $it" has_it gtlsserver
  beside_serve
  beside_nginx
  beside_gtlsserver
  if command -v caddy > /dev/null; then beside_caddy; else echo "skipped Caddy over libnghttp3.so.9: there is none"; fi
  if [ "$has_aioquic" = yes ]; then beside_aioquic; else echo "skipped aioquic over libnghttp3.so.9: build/trixie has no python3-aioquic"; fi
  command -v chromium > /dev/null || echo "skipped Chromium over libnghttp3.so.9: there is none"
  [ "$has_firefox" = yes ] || echo "skipped Firefox over libnghttp3.so.9: $(bash scripts/dev/packages.sh firefox 2>&1)"
  of_gtlsserver
  rm -rf "${root:?}$there"
}

# ---- both runs ----

run() ( # over what: a shell of its own, whose servers end with it
  it=$1
  pids=()
  trap end_servers EXIT
  rm -rf "$work"/profile* # of Chromium, with what it keeps
  debian12
  debian13
)
passes() { grep '^ok ' "$1" | sed 's/the drop-in/nghttp3/g' | sort; } # FILE: the names

run nghttp3 | tee "$work/nghttp3" | sed -u 's/^/nghttp3: /'
run "the drop-in" | tee "$work/drop-in"
none_less() { # of the checks that pass over nghttp3
  comm -23 <(passes "$work/nghttp3") <(passes "$work/drop-in") > "$work/log"
  [ -s "$work/nghttp3" ] && [ ! -s "$work/log" ]
}
check "the drop-in fails no check that nghttp3 passes ($(passes "$work/drop-in" | wc -l) pass, and $(passes "$work/nghttp3" | wc -l))" none_less
[ "$failed" -eq 0 ] && ! grep -q '^failed ' "$work/drop-in"
