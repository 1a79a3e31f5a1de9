#!/usr/bin/env bash
# The examples in C and Go against HTTP/3 peers of Debian 13, which run in the root that `make upstream-root` leaves (build/trixie): curl,
# aioquic, nginx, haproxy, the Rust crate h3 over quinn, gtlsclient and gtlsserver; and against Firefox, where Debian's firefox-esr and
# libnss3-tools are there. Only loopback addresses, each command within a time, each server ended at the end. Prints 'ok NAME', 'failed
# NAME' or 'skipped NAME' for each check or group of checks. The library is that of the folder LIB (build/c, as `make lib` leaves it).
set -uo pipefail
cd "$(dirname "$0")/../.."
top=$PWD
lib=${LIB:-$top/build/c}
. scripts/interop/checks.sh

# ---- programs, and what is served ----

make_examples
has_root=no
if bash scripts/interop/upstream.sh peers; then
  has_root=yes
  build bash scripts/interop/upstream.sh quinn # before a server starts, which has ten minutes
fi
make_served
ours=("$work/checked/fetch" --address 127.0.0.1 --trust "$cert")
go_ours=("$work/h3go" fetch)
mapfile -t ports < <(python3 scripts/interop/ports.py 30)
start "${ports[0]}" serve.log "$work/checked/serve" 127.0.0.1 "${ports[0]}" "$cert" "$key" "$folder"
start "${ports[1]}" serve150.log "$work/checked/serve" --requests 150 127.0.0.1 "${ports[1]}" "$cert" "$key" "$folder"
start "${ports[2]}" h3go.log "$work/h3go" serve "127.0.0.1:${ports[2]}" "$cert" "$key" "$folder"
start "${ports[3]}" h3go150.log "$work/h3go" serve -requests 150 "127.0.0.1:${ports[3]}" "$cert" "$key" "$folder"
relay "${ports[4]}" "${ports[0]}"
relay "${ports[5]}" "${ports[2]}"
servers=("serve ${ports[0]} ${ports[1]} ${ports[4]}" "Go_server ${ports[2]} ${ports[3]} ${ports[5]}")
logs=(serve.log serve150.log h3go.log h3go150.log)
is_silent() { ! grep -qE "Sanitizer|runtime error|panic|DATA RACE" "$work/$1"; }

# ---- Debian 13 ----

root=$top/build/trixie
there=/tmp/interop # of the root: what its programs read and write

quinn_peer=/root/quinn/target/release/quinn_peer
cases_of() { # what the server is called, the peer, what is said behind its name, CASES, PORT, COMMAND
  local server=$1 name=$2 more=$3 which=$4 port=$5
  shift 5
  : > "$work/log"
  timeout -k 5 300 chroot "$root" "$@" "$which" "$port" $there/cert.pem $there/folder/big.bin $there/posted > "$work/cases" 2>> "$work/log"
  while read -r word case; do
    if [ "$word" = ok ]; then good "$server, $name$more: $case"; else bad "$server, $name$more: $case"; fi
  done < "$work/cases"
  [ -s "$work/cases" ] || bad "$server, $name$more"
}
aioquic_cases() { cases_of "$1" aioquic "$2" "$3" "$4" python3 $there/aio.py; }
quinn_cases() { cases_of "$1" "h3 and quinn" "$2" "$3" "$4" $quinn_peer; }
# A ClientHello of one packet (--curves): curl 8.14.1 over OpenSSL 3.5 loses its control and encoder stream for good where a timer ends in its handshake,
# and quic-go 0.29.0 drops the second of two packets that come at once (examples/PEERS.md).
curl3=(chroot "$root" curl --silent --http3-only --curves X25519 --cacert $there/cert.pem)
curl_says() { # TEXT, arguments of curl: status, a blank, and the bytes of the body
  local text=$1
  shift
  [ "$(within 60 "${curl3[@]}" -o /dev/null -w '%{http_version} %{response_code} %{size_download}' "$@")" = "3 $text" ]
}
curl_many() { # PORT
  local urls=()
  for i in $(seq 0 99); do urls+=(-o "$there/small-$i" "$(url "$1" "/small/$i.txt")"); done
  within 60 "${curl3[@]}" -Z --parallel-max 50 "${urls[@]}" || return 1
  for i in $(seq 0 99); do cmp -s "$root$there/small-$i" "$folder/small/$i.txt" || return 1; done
}
# Where packets of its handshake are lost such a timer ends all the same.
once_or_twice() { "$@" || "$@"; }
curl_aborts() { # PORT: the upload is given up behind a second, and the server goes on
  within 60 "${curl3[@]}" --limit-rate 200k --max-time 1 --data-binary @$there/folder/big.bin "$(url "$1" /answer)"
  [ $? -eq 28 ] && curl_says "200 6" "$(url "$1" /hello.txt)"
}
curl_head() { # PORT
  within 60 "${curl3[@]}" -I "$(url "$1" /big.bin)" | tr -d '\r' > "$work/got"
  grep -q "^HTTP/3 200" "$work/got" && grep -qi "^content-length: 10000000$" "$work/got"
}
curl_large() { # PORT: 20 fields of 3,500 bytes
  local fields=()
  for i in $(seq 20); do fields+=(-H "x-large-$i: $(printf 'a%.0s' $(seq 3500))"); done
  [ "$(within 60 "${curl3[@]}" -o /dev/null -w '%{response_code}' "${fields[@]}" "$(url "$1" /hello.txt)")" = 431 ]
}
gtls13() { # PORT, options and URLs
  local port=$1
  shift
  rm -rf "$root$there/down"
  mkdir "$root$there/down"
  within 60 chroot "$root" gtlsclient -q --exit-on-all-streams-close --download=$there/down "$@" > /dev/null
}
gtls13_file() { gtls13 "$1" 127.0.0.1 "$1" "$(url "$1" /big.bin)" && cmp -s "$root$there/down/big.bin" "$big"; }
gtls13_post() { gtls13 "$1" -m POST -d $there/folder/big.bin 127.0.0.1 "$1" "$(url "$1" /answer)" && cmp -s "$root$there/down/answer" "$work/posted"; }
gtls13_many() {
  local urls=()
  for i in $(seq 0 99); do urls+=("$(url "$1" "/small/$i.txt")"); done
  gtls13 "$1" 127.0.0.1 "$1" "${urls[@]}" && diff -rq "$root$there/down" "$folder/small" >> "$work/log"
}

clients13() { # what our server is called, PORT, PORT of one with --requests 150, PORT of a relay
  local peer
  for peer in aioquic_cases quinn_cases; do
    "$peer" "$1" "" client "$2"
    "$peer" "$1 --requests 150" "" limited "$3"
    "$peer" "$1" ", packets lost" lost "$4"
  done
  check "$1, curl: 10 MB" gives "$big" "${curl3[@]}" "$(url "$2" /big.bin)"
  check "$1, curl: POST of 10 MB" gives "$work/posted" "${curl3[@]}" --data-binary @$there/folder/big.bin "$(url "$2" /answer)"
  check "$1, curl: HEAD" curl_head "$2"
  check "$1, curl: an upload that is aborted" curl_aborts "$2"
  check "$1, curl: 100 requests, 50 at once" curl_many "$2"
  check "$1, curl: no such file" curl_says "404 13" "$(url "$2" /none)"
  check "$1, curl: a PUT of 10 MB gives 405" curl_says "405 29" -X PUT --data-binary @$there/folder/big.bin "$(url "$2" /answer)"
  check "$1, curl: a head of 70,000 bytes gives 431" curl_large "$2"
  check "$1, curl, packets lost: 10 MB" once_or_twice gives "$big" "${curl3[@]}" "$(url "$4" /big.bin)"
  check "$1, curl, packets lost: POST of 10 MB" once_or_twice gives "$work/posted" "${curl3[@]}" --data-binary @$there/folder/big.bin "$(url "$4" /answer)"
  check "$1, gtlsclient 1.11: 10 MB" gtls13_file "$2"
  check "$1, gtlsclient 1.11: POST of 10 MB" gtls13_post "$2"
  check "$1, gtlsclient 1.11: 100 requests" gtls13_many "$2"
}

# what our clients say of an answer: the words of --verbose, and the body
said() { # WORDS, FILE of the body, COMMAND..
  local words=$1 file=$2
  shift 2
  within 60 "$@" > "$work/got"
  [ "$(tr '\n' ' ' < "$work/log")" = "$words " ] && cmp -s "$work/got" "$file"
}
both() { # NAME, CHECK, its words, PATH, PORT, options that both clients know: for each client
  local name=$1 path=$3 port=$4
  local -a what
  read -ra what <<< "$2"
  shift 4
  check "fetch, $name" "${what[@]}" "${ours[@]}" "$@" "$(url "$port" "$path")"
  check "Go client, $name" "${what[@]}" "${go_ours[@]}" "$@" "$cert" "$(url "$port" "$path")"
}
# connects COMMAND..: with a second try if its handshake stood still for the five seconds that quic-go gives it, as haproxy's did once where packets are lost
connects() { "$@" || { grep -q "^h3go: no connection: timeout" "$work/log" && "$@"; }; }
nothing=/dev/null
verbose() { # NAME, WORDS, FILE, PATH, PORT, options
  local name=$1 words=$2 file=$3 path=$4 port=$5
  shift 5
  check "fetch, $name" said "$words" "$file" "${ours[@]}" --verbose "$@" "$(url "$port" "$path")"
  check "Go client, $name" said "$words" "$file" "${go_ours[@]}" --verbose "$@" "$cert" "$(url "$port" "$path")"
}
is_304() { # what a client says of 304, which is no status of success
  within 60 "$@" > "$work/got"
  [ $? -eq 1 ] && grep -q "status 304" "$work/log" && [ ! -s "$work/got" ]
}

servers13() { # the server's name, PORT, PORT of a relay
  both "$1: 10 MB" "gives $big" /big.bin "$2"
  both "$1: 1,000 requests on one connection" "gives $work/thousand" /hello.txt "$2" --count 1000 --parallel 50
  both "$1: POST of 10 MB" "gives $work/posted" /answer "$2" --post "$big"
  both "$1: a response that is given up" "gives $big" /big.bin "$2" --count 2 --cancel 100000
  verbose "$1: HEAD" "status 200" $nothing /big.bin "$2" --head
  verbose "$1: 204" "status 204" $nothing /204 "$2"
  both "$1: 304" is_304 /304 "$2"
  both "$1: no such file" "refuses status.404" /none "$2"
  verbose "$1: trailers" "status 200 trailer of 2 fields" "$work/trailers" /trailers "$2"
  both "$1, packets lost: 10 MB" "connects gives $big" /big.bin "$3"
  both "$1, packets lost: POST of 10 MB" "connects gives $work/posted" /answer "$3" --post "$big"
}

aborted_upload() { # the server's name, PORT
  both "$1: an upload that is aborted" "gives $work/posted" /answer "$2" --count 2 --cancel 100000 --post "$big"
}

start13() { # PORT, LOG, COMMAND inside of the root
  local port=$1 log=$2
  shift 2
  start "$port" "$log" chroot "$root" "$@"
}

proxies() {
  cat > "$root$there/nginx.conf" <<NGINX
user root;
worker_processes 1;
daemon off;
pid $there/nginx.pid;
error_log stderr error;
events {}
http {
  access_log off;
  ssl_certificate $there/cert.pem;
  ssl_certificate_key $there/key.pem;
  client_max_body_size 0;
  client_body_temp_path $there/body;
  proxy_http_version 1.1;
  types { text/plain txt; }
  server {
    listen 127.0.0.1:${ports[8]} quic;
    http3 on;
    keepalive_requests 100000;
    root $there/folder;
    location = /204 { return 204; }
    location = /304 { return 304; }
    location = /trailers { add_trailer x-count 9; add_trailer x-sum 0; proxy_pass http://127.0.0.1:${ports[15]}/plain; }
    location = /answer { proxy_request_buffering off; proxy_pass http://127.0.0.1:${ports[15]}; }
    location = /cut { proxy_buffering off; proxy_pass http://127.0.0.1:${ports[15]}; }
    location = /early { return 200 "early\n"; }
  }
  server {
    listen 127.0.0.1:${ports[10]} quic;
    http3 on;
    keepalive_requests 50;
    root $there/folder;
  }
}
NGINX
  cat "$cert" "$key" > "$root$there/both.pem"
  cat > "$root$there/haproxy.cfg" <<HAPROXY
global
  limited-quic
  maxconn 200
defaults
  mode http
  timeout connect 10s
  timeout client 60s
  timeout server 60s
frontend h3
  bind quic4@127.0.0.1:${ports[11]} ssl crt $there/both.pem alpn h3
  default_backend python
backend python
  server python 127.0.0.1:${ports[15]}
HAPROXY
  limited python3 scripts/interop/backend.py "${ports[15]}" "$folder" > "$work/backend.log" 2>&1 &
  pids+=("$!")
  start13 "${ports[8]}" nginx.log nginx -c $there/nginx.conf
  start13 "${ports[11]}" haproxy.log haproxy -f $there/haproxy.cfg
  relay "${ports[9]}" "${ports[8]}"
  relay "${ports[12]}" "${ports[11]}"
}

closes_at_end() { # PORT, PROCESS: a WebSocket is closed with 1001 at the server's end
  timeout -k 5 60 chroot "$root" python3 $there/aio.py leaving "$1" $there/cert.pem $there/folder/big.bin $there/posted > "$work/left" 2>> "$work/log" &
  local client=$! tries
  for ((tries = 0; tries < 300; tries++)); do
    if grep -q "^open$" "$work/left"; then break; fi
    sleep 0.1
  done
  kill -TERM "$2"
  wait "$client" && grep -q "^ok" "$work/left" && wait "$2"
}
websockets13() {
  start "${ports[23]}" websocket.log "$work/checked/websocket" 127.0.0.1 "${ports[23]}" "$cert" "$key"
  relay "${ports[24]}" "${ports[23]}"
  aioquic_cases websocket "" websockets "${ports[23]}"
  aioquic_cases websocket ", packets lost" websockets "${ports[24]}"
  start "${ports[25]}" websocket_end.log "$work/checked/websocket" 127.0.0.1 "${ports[25]}" "$cert" "$key"
  check "websocket, aioquic: a close with 1001 at its end" closes_at_end "${ports[25]}" "$last"
  logs+=(websocket.log websocket_end.log)
}

debian13() {
  mkdir -p "$root$there"
  cp -r "$folder" "$cert" "$key" "$work/posted" scripts/interop/aio.py "$root$there"
  echo "trailers" > "$work/trailers"
  echo "hints" > "$work/hints"
  echo "early" > "$work/early"
  echo "the last" > "$work/last"
  cp "$work/trailers" "$folder/plain"
  for line in "${servers[@]}"; do
    read -r name port limited lost <<< "$line"
    clients13 "${name//_/ }" "$port" "$limited" "$lost"
  done

  start "${ports[21]}" webtransport.log "$work/checked/webtransport" 127.0.0.1 "${ports[21]}" "$cert" "$key"
  relay "${ports[22]}" "${ports[21]}"
  aioquic_cases webtransport "" sessions "${ports[21]}"
  aioquic_cases webtransport ", packets lost" sessions "${ports[22]}"
  logs+=(webtransport.log)
  start13 "${ports[26]}" aioquic_sessions.log python3 $there/aio.py sessions-serve "${ports[26]}" $there/cert.pem $there/key.pem
  relay "${ports[27]}" "${ports[26]}"
  check "webtransport_client, aioquic: streams of each kind from both sides, datagrams" own_session "${ports[26]}"
  check "webtransport_client, aioquic, packets lost: streams of each kind from both sides, datagrams" own_session "${ports[27]}"
  if [ -x "$work/checked/websocket" ]; then websockets13; else echo "skipped aioquic's WebSockets: there is no libwslay-dev"; fi

  start13 "${ports[6]}" aioquic.log python3 $there/aio.py serve "${ports[6]}" $there/cert.pem $there/key.pem $there/folder
  relay "${ports[7]}" "${ports[6]}"
  servers13 aioquic "${ports[6]}" "${ports[7]}"
  aborted_upload aioquic "${ports[6]}"
  verbose "aioquic: 103" "interim 103 status 200" "$work/hints" /103 "${ports[6]}"
  both "aioquic: a response that the peer resets" "refuses reset\|H3_FAULT_RESET" /reset "${ports[6]}"
  both "aioquic: an answer that stops a POST of 10 MB" "gives $work/early" /early "${ports[6]}" --post "$big"
  check "fetch, aioquic: GOAWAY" refuses "takes no more requests" "${ours[@]}" --count 2 "$(url "${ports[6]}" /goaway)"
  check "Go client, aioquic: GOAWAY" refuses "H3_GOING_AWAY" "${go_ours[@]}" --count 2 "$cert" "$(url "${ports[6]}" /goaway)"

  start13 "${ports[19]}" quinn.log $quinn_peer serve "${ports[19]}" $there/cert.pem $there/key.pem $there/folder
  relay "${ports[20]}" "${ports[19]}"
  servers13 "h3 and quinn" "${ports[19]}" "${ports[20]}" # no upload that is aborted: where its head was not read h3 0.0.6 closes the connection
  both "h3 and quinn: a response that the peer resets" "refuses reset\|H3_FAULT_RESET" /reset "${ports[19]}"
  both "h3 and quinn: an answer that stops a POST of 10 MB" "gives $work/early" /early "${ports[19]}" --post "$big"
  check "fetch, h3 and quinn: GOAWAY" refuses "takes no more requests" "${ours[@]}" --count 2 "$(url "${ports[19]}" /goaway)"
  check "Go client, h3 and quinn: GOAWAY" refuses "H3_GOING_AWAY" "${go_ours[@]}" --count 2 "$cert" "$(url "${ports[19]}" /goaway)"

  proxies
  servers13 nginx "${ports[8]}" "${ports[9]}"
  aborted_upload nginx "${ports[8]}"
  both "nginx: a response that is cut" "refuses reset\|H3_FAULT_RESET\|closed" /cut "${ports[8]}"
  both "nginx: an answer that stops a POST of 10 MB" "gives $work/early" /early "${ports[8]}" --post "$big"
  check "fetch, nginx with keepalive_requests 50: GOAWAY" refuses "takes no more requests" "${ours[@]}" --count 80 "$(url "${ports[10]}" /hello.txt)"
  check "Go client, nginx with keepalive_requests 50: GOAWAY" refuses "H3_GOING_AWAY\|error 0x100" "${go_ours[@]}" --count 80 "$cert" "$(url "${ports[10]}" /hello.txt)"
  servers13 haproxy "${ports[11]}" "${ports[12]}"
  aborted_upload haproxy "${ports[11]}"
  # no 103 of haproxy: 3.0.11 sends a broken message, and then fails a check of its own, with curl as with ours
  both "haproxy: a response that is cut" "refuses reset\|H3_FAULT_RESET" /cut "${ports[11]}"

  start13 "${ports[13]}" gtlsserver.log gtlsserver -q -d $there/folder 127.0.0.1 "${ports[13]}" $there/key.pem $there/cert.pem
  both "gtlsserver 1.11: 10 MB" "gives $big" /big.bin "${ports[13]}"
  both "gtlsserver 1.11: 1,000 requests on one connection" "gives $work/thousand" /hello.txt "${ports[13]}" --count 1000 --parallel 50
  rm -rf "${root:?}$there"
}

if [ "$has_root" = yes ]; then debian13; else echo "skipped curl, aioquic, nginx, haproxy and ngtcp2 1.11: there is no build/trixie (make upstream-root)"; fi

# ---- Firefox ----

browse() { # PORT
  firefox_sees "$1" / /transfers.html &&
    saw "image 64 x 48" "post $letters" "small 100" "protocols h3 of .*" "upload aborted" "download aborted" "big $(cat "$work/posted")" \
      "posted $(cat "$work/posted")" "posts 20, $letters" "none 404" "head 200 10000000" "serial 500" "then h3"
}
letters="1000000 $(hash_of "$folder/letters.txt")"
if bash scripts/dev/packages.sh firefox 2> /dev/null; then
  make_authority
  start "${ports[16]}" serve_firefox.log "$work/checked/serve" 127.0.0.1 "${ports[16]}" "$work/leaf.pem" "$work/leaf_key.pem" "$folder"
  start "${ports[17]}" h3go_firefox.log "$work/h3go" serve "127.0.0.1:${ports[17]}" "$work/leaf.pem" "$work/leaf_key.pem" "$folder"
  relay "${ports[18]}" "${ports[16]}"
  page="a page with an image, transfers that are aborted, 10 MB both ways, 20 POSTs at once, HEAD, 404, 100 requests at once and 500 in turn"
  check "serve, Firefox: $page" browse "${ports[16]}"
  check "Go server, Firefox: $page" browse "${ports[17]}"
  check "serve, Firefox, packets lost: $page" browse "${ports[18]}"
  start "${ports[28]}" sessions_firefox.log "$work/checked/webtransport" 127.0.0.1 "${ports[28]}" "$work/leaf.pem" "$work/leaf_key.pem"
  relay "${ports[29]}" "${ports[28]}"
  session() { firefox_sees "${ports[16]}" "$(session_page "$1" "$work/leaf.pem")" && saw_session; } # PORT of a server of sessions
  check "webtransport, Firefox: sessions, streams of each kind from both sides, datagrams" session "${ports[28]}"
  check "webtransport, Firefox: the numbers of streams that are reset" says_numbers sessions_firefox.log
  check "webtransport, Firefox, packets lost: sessions, streams of each kind from both sides, datagrams" session "${ports[29]}"
  logs+=(serve_firefox.log h3go_firefox.log sessions_firefox.log)
else
  echo "skipped Firefox: $(bash scripts/dev/packages.sh firefox 2>&1)"
fi
# the servers end, and LeakSanitizer looks
ends_silently() {
  end_servers
  for log in "${logs[@]}"; do is_silent "$log" || return 1; done
}
check "our servers: no leak, no panic and no error of memory" ends_silently
[ "$failed" -eq 0 ]
