#!/usr/bin/env bash
# The proxy of examples/c between clients and servers: ours, gtlsclient and gtlsserver of Debian 12, and quic-go. Only loopback addresses. Prints
# 'ok NAME' or 'failed NAME' for each check. It makes the library (`make lib`), or takes it from the folder LIB.
set -uo pipefail
cd "$(dirname "$0")/../.."
lib=${LIB:-$PWD/build/c}
. scripts/interop/checks.sh
. scripts/interop/programs.sh

make_programs proxy count
make_checked
for name in origin leave tunnel; do make_client "$name"; done
head -c 50000 "$big" > "$folder/part.bin"
mapfile -t ports < <(python3 scripts/interop/ports.py 25)

proxy() { # PORT, LOG, PORT of the server, options
  local port=$1 log=$2 to=$3
  shift 3
  proxying "$port" "$log" "$to" "$work/checked/proxy" "$@"
}

# ---- bodies, between each client and each server ----

running "${ports[0]}" serve.log "$work/checked/serve" 127.0.0.1 "${ports[0]}" "$cert" "$key" "$folder"
running "${ports[1]}" gtlsserver.log gtlsserver -q -d "$folder" 127.0.0.1 "${ports[1]}" "$key" "$cert"
running "${ports[2]}" quic-go.log "$work/peer" serve "127.0.0.1:${ports[2]}" "$cert" "$key" "$folder"
gtls_file() {
  rm -rf "$work/down"
  mkdir "$work/down"
  within 60 gtlsclient -q --exit-on-all-streams-close --download="$work/down" 127.0.0.1 "$1" "$(url "$1" /big.bin)" > /dev/null
  cmp -s "$work/down/big.bin" "$big"
}
through() { # the server's name, PORT of the proxy, whether it takes a POST
  check "proxy to $1, fetch: 10 MB" gives "$big" "${ours[@]}" "$(url "$2" /big.bin)"
  check "proxy to $1, gtlsclient: 10 MB" gtls_file "$2"
  check "proxy to $1, quic-go: 10 MB" gives "$big" "$work/peer" fetch "$cert" "$(url "$2" /big.bin)"
  check "proxy to $1, fetch: 1,000 requests on one connection" gives "$work/thousand" "${ours[@]}" --count 1000 --parallel 100 "$(url "$2" /hello.txt)"
  check "proxy to $1, fetch: no such file" refuses "status 404" "${ours[@]}" "$(url "$2" /none)"
  [ "$3" = yes ] || return
  check "proxy to $1, fetch: POST of 10 MB" gives "$work/posted" "${ours[@]}" --post "$big" "$(url "$2" /answer)"
  check "proxy to $1, quic-go: POST of 10 MB" gives "$work/posted" "$work/peer" post "$cert" "$big" "$(url "$2" /answer)"
}
cat "$big" "$big" > "$work/twice"
proxy "${ports[3]}" proxy.log "${ports[0]}"
first=$last
through serve "${ports[3]}" yes
check "proxy, fetch: a response that is given up" gives "$work/twice" "${ours[@]}" --count 3 --cancel 100000 "$(url "${ports[3]}" /big.bin)"
check "proxy, quic-go: a slow reader, 2 MB a second" gives "$big" "$work/peer" slow "$cert" 2000000 "$(url "${ports[3]}" /big.bin)"
check "proxy, quic-go: 10,000 resets" works "$work/peer" resets "$cert" 10000 "localhost:${ports[3]}"
proxy "${ports[4]}" proxy_gtls.log "${ports[1]}"
through gtlsserver "${ports[4]}" no
proxy "${ports[5]}" proxy_go.log "${ports[2]}"
through quic-go "${ports[5]}" yes

# ---- what is passed on, piece by piece ----

running "${ports[6]}" origin.log "$work/origin" 127.0.0.1 "${ports[6]}" "$cert" "$key"
proxy "${ports[7]}" proxy_origin.log "${ports[6]}" --timeout 2
second=$last
to=$(url "${ports[7]}" "")
check "proxy: an interim response" has "^:status: 103" "${ours[@]}" --fields "$to/all"
check "proxy: its fields" has "^link: </style.css>; rel=preload" "${ours[@]}" --fields "$to/all"
check "proxy: a trailer section of the response" has "^x-count: 1" "${ours[@]}" --fields "$to/all"
check "proxy: a field of the response that is never indexed" has "^x-secret: kept \(never indexed\)$" "${ours[@]}" --fields "$to/all"
check "proxy: and of its trailer section" has "^x-count: 1 \(never indexed\)$" "${ours[@]}" --fields "$to/all"
echo x-token > "$work/names"
check "proxy: a field of the request that is never indexed" gives "$work/names" "${ours[@]}" --secret x-token:a "$to/secret"
: > "$work/none"
check "proxy: the same field without that" gives "$work/none" "${ours[@]}" --field x-token:a "$to/secret"
echo authorization > "$work/guarded"
check "proxy: a credential, which its client guards by default" gives "$work/guarded" "${ours[@]}" --field authorization:a "$to/secret"
check "proxy: via" has "^via: 3 h3-proxy-" "${ours[@]}" --fields "$to/all"
echo body > "$work/body"
check "proxy: the body between them" gives "$work/body" "${ours[@]}" "$to/all"
check "proxy: 10 MB there and back" gives "$big" "${ours[@]}" --post "$big" "$to/echo"
check "proxy: a trailer section of the request" has "^x-trailer: last" "${ours[@]}" --fields --post "$folder/hello.txt" --trailer last "$to/echo"
check "proxy: a reset of the server's, with its code" refuses "reset the request with code 263" "${ours[@]}" "$to/reset"
check "proxy: a client's reset reaches the server" works "${ours[@]}" --cancel 5000000 --post "$big" "$to/echo"
sleep 0.5
check "proxy: with its code" grep -q "H3_REQUEST_CANCELLED" "$work/origin.log"
check "proxy: a rejected request goes out again" says again "${ours[@]}" "$to/reject"
check "proxy: a request whose connection was lost goes out again" says again "${ours[@]}" "$to/lost"
check "proxy: an early answer" says early "${ours[@]}" --post "$big" "$to/early"
check "proxy: a silent server gives 504" refuses "status 504" "${ours[@]}" "$to/silent"
proxy "${ports[8]}" proxy_none.log "${ports[9]}"
third=$last
check "proxy: no server gives 503" refuses "status 503" "${ours[@]}" "$(url "${ports[8]}" /)"

# ---- tunnels ----

tunnel() { # TEXT, PORT, and of tunnel.c PROTOCOL, PATH, HOW, COUNT: it prints this text
  local text=$1 port=$2
  shift 2
  says "$text" "$work/tunnel" "$cert" "$port" "$@" && return
  cat "$work/got" >> "$work/log"
  return 1
}
check "proxy: extended CONNECT is not announced" tunnel "refused here" "${ports[7]}" websocket /echo all 1
proxy "${ports[14]}" proxy_tunnels.log "${ports[6]}" --tunnels --timeout 5
fourth=$last
through=${ports[14]}
for protocol in connect-udp websocket a-token-of-one-and-thirty-bytes; do
  check "proxy --tunnels, $protocol: 100 capsules, one after another" tunnel "200 800 ended" "$through" "$protocol" /echo turns 100
  check "proxy --tunnels, $protocol: 100 kB there and back, each way to its end" tunnel "200 100000 ended" "$through" "$protocol" /echo all 12500
done
check "proxy --tunnels, quic-go: 10 MB there and back" gives "$big" "$work/peer" tunnel "$cert" "$big" "$(url "$through" /echo)"
check "proxy --tunnels, quic-go: a refusal" refuses "status 403" "$work/peer" tunnel "$cert" "$big" "$(url "$through" /refuse)"
check "proxy --tunnels: bytes before the answer" tunnel "200 100000 ended" "$through" websocket /echo "at once" 12500
check "proxy --tunnels: the server's end comes first, and 100 kB go the other way" tunnel "200 6 ended sent" "$through" websocket /first after 12500
check "proxy --tunnels: and reach the server" soon grep -q "100000 came after the answer" "$work/origin.log"
check "proxy --tunnels: a refusal, with its body" tunnel "403 3 ended" "$through" websocket /refuse all 12500
check "proxy --tunnels: a reset of the server's, with its code" tunnel "200 1000 H3_EXCESSIVE_LOAD" "$through" websocket /reset none 0
check "proxy --tunnels: a client's reset" tunnel "200 8000" "$through" websocket /echo reset 1000
check "proxy --tunnels: reaches the server, with its code" soon grep -q "failed: H3_CONNECT_ERROR" "$work/origin.log"
check "proxy --tunnels: a server that reads nothing more, after its end" tunnel "200 6 ended stopped" "$through" websocket /early open 0
check "proxy --tunnels: and one that does before its last bytes, which come" tunnel "200 5 ended" "$through" websocket /deaf all 100000
check "proxy --tunnels: a client that reads nothing more, but sends 120 kB" tunnel "200 sent" "$through" websocket /both deaf 15000
check "proxy --tunnels: they reach the server" soon grep -q "120000 came after the answer" "$work/origin.log"
check "proxy --tunnels: which is stopped" soon grep -q "^stopped" "$work/origin.log"
check "proxy --tunnels: nothing moves for --timeout 5" tunnel "200 0 H3_REQUEST_CANCELLED" "$through" websocket /echo none 0
check "proxy --tunnels: one that was rejected goes out again" tunnel "200 6 ended" "$through" websocket /reject none 0
check "proxy --tunnels: but not if bytes of it went" tunnel "502 0 ended" "$through" websocket /reject "at once" 1
check "proxy --tunnels: nor if its connection was lost" tunnel "502 0 ended" "$through" websocket /lost none 0
# The windows of the client and of the server, 256 KiB each, and of the proxy on both sides, 256 and 128 KiB, are 917,504 bytes. A piece of 16 KiB may
# go beyond each, and the server and the proxy keep up to 64 KiB beside them.
still() {
  within 60 "$work/tunnel" "$cert" "$through" websocket /echo still 500000 | tee "$work/log" > "$work/got"
  read -r status went came end < "$work/got"
  [ "$status $came $end" = "200 4000000 ended" ] && [ "$went" -ge 400000 ] && [ "$went" -le 1200000 ]
}
check "proxy --tunnels: of 4 MB to a reader that stands still the windows are filled, and the rest comes later" still
check "proxy --tunnels: a session of WebTransport is not taken" tunnel "501 0 ended" "$through" webtransport /echo none 0
proxy "${ports[22]}" tunnels_unknown.log "${ports[0]}" --tunnels
seventh=$last
check "proxy --tunnels: a server that does not announce extended CONNECT gives 502" tunnel "502 0 ended" "${ports[22]}" websocket /echo none 0
running "${ports[23]}" webtransport.log "$work/checked/webtransport" 127.0.0.1 "${ports[23]}" "$cert" "$key"
sessions=$last
proxy "${ports[24]}" tunnels_sessions.log "${ports[23]}" --tunnels
eighth=$last
check "webtransport: a protocol that it does not know gives 501" tunnel "501 0 ended" "${ports[23]}" websocket /echo none 0
check "proxy --tunnels: which is passed on" tunnel "501 0 ended" "${ports[24]}" websocket /echo none 0

# ---- what an operator asks for ----

check "proxy --version" bash -c "'$work/checked/proxy' --version | grep -q '^proxy of Beanwhile [0-9]'"
certificate() { # NAME
  openssl req -x509 -newkey ec -pkeyopt ec_paramgen_curve:P-256 -nodes -keyout "$work/other_key.pem" -out "$work/other.pem" -days 13 \
    -subj "/CN=$1" -addext "subjectAltName=DNS:$1" 2>> "$work/log"
}
build certificate other.example
proxy "${ports[17]}" operated.log "${ports[0]}" --log "$work/access.log" --certificate "$work/other.pem,$work/other_key.pem"
operated=$last
shows() { gives "$folder/hello.txt" "$work/checked/fetch" --address 127.0.0.1 --trust "$work/other.pem" "https://$1:${ports[17]}/hello.txt"; }
check "proxy: a second certificate, by its name" shows other.example
reloaded() {
  certificate new.example
  mv "$work/access.log" "$work/access.1"
  kill -HUP "$operated"
  sleep 1
  shows new.example
}
check "proxy: SIGHUP shows new certificates" reloaded
LINE='^[0-9TZ:-]{20} 127\.0\.0\.1:[0-9]+ "GET /hello\.txt" 200 6 [0-9]+ ms -$'
check "proxy: a line for each request" soon grep -qE "$LINE" "$work/access.log"
check "proxy: the log before SIGHUP stays" grep -qE "$LINE" "$work/access.1"
counts() {
  kill -USR1 "$operated"
  soon grep -qE "^connections [0-9]+ open, 2 taken, .* 2xx 2, 3xx 0" "$work/operated.log"
}
check "proxy: counts at SIGUSR1" counts
kill -TERM "$operated"
check "proxy: it ends, with a log" ended "$operated" 20

# ---- answers that wait for others ----

head -c 1500000 "$big" > "$folder/wait.bin"
cat "$folder/wait.bin" "$folder/wait.bin" "$folder/wait.bin" > "$work/thrice"
proxy "${ports[18]}" proxy_waits.log "${ports[0]}" --timeout 2
fifth=$last
start "${ports[19]}" narrow.log python3 scripts/interop/narrow.py "${ports[19]}" "${ports[18]}" 500000
running "${ports[20]}" short.log "$work/checked/serve" --idle 7 127.0.0.1 "${ports[20]}" "$cert" "$key" "$folder"
short=$last
proxy "${ports[21]}" proxy_pings.log "${ports[20]}"
sixth=$last
head -c 1000000 "$big" > "$folder/still.bin"
stands_still() { # PORT: its reader grants 128 KiB each 8.7 s, and nothing in between (quic-go: a quarter of 512 KiB)
  PEER_SECONDS=150 within 150 "$work/peer" slow "$cert" 15000 "$(url "$1" /still.bin)" > "$work/got"
  cmp -s "$work/got" "$folder/still.bin"
}
check "proxy: a reader that stands still longer than the server's --idle 7" stands_still "${ports[21]}"
check "proxy --timeout 2: three answers of 1.5 MB one after another, over 500 KB a second" gives "$work/thrice" "${ours[@]}" --count 3 --parallel 3 \
  "$(url "${ports[19]}" /wait.bin)"

# ---- a reader that reads nothing ----

running "${ports[10]}" proxy_plain.log "$work/plain/proxy" --trust "$cert" --drain 5 127.0.0.1 "${ports[10]}" "$cert" "$key" 127.0.0.1 "${ports[0]}" localhost
plain=$last
held() { # PORT, PROCESS: 100 requests whose client reads nothing, and another client beside it
  local before
  # on a busy machine the proxy's first handshake may take longer than the ten seconds that it may
  for _ in 1 2 3; do if works "${ours[@]}" "$(url "$1" /big.bin)"; then break; fi; done
  before=$(kib "$2" VmHWM)
  "$work/hostile" "$cert" "127.0.0.1:$1" window 8 > "$work/there" &
  sleep 3
  gives "$big" "${ours[@]}" "$(url "$1" /big.bin)" || return 1
  wait $!
  echo "$(($(kib "$2" VmHWM) - before)) KiB" | tee "$work/log"
  [ $(($(kib "$2" VmHWM) - before)) -le 20480 ]
}
check "proxy: 100 requests of a reader that grants no credit: within 20 MiB, and another client goes on" held "${ports[10]}" "$plain"

# ---- under valgrind ----

under_valgrind=(valgrind -q --leak-check=full --error-exitcode=9)
start "${ports[15]}" valgrind.log "${under_valgrind[@]}" "$work/plain/proxy" --trust "$cert" 127.0.0.1 "${ports[15]}" "$cert" "$key" \
  127.0.0.1 "${ports[0]}" localhost
# on a busy machine valgrind's first handshakes may take longer than the ten seconds that they may
for _ in $(seq 10); do if works "${ours[@]}" "$(url "${ports[15]}" /hello.txt)"; then break; fi; done
head -c 500000 "$big" > "$folder/half.bin"
echo "500000 $(hash_of "$folder/half.bin")" > "$work/half_posted"
head -c 300 "$work/thousand" > "$work/fifty"
check "valgrind, proxy: 500 kB" gives "$folder/half.bin" "${ours[@]}" "$(url "${ports[15]}" /half.bin)"
check "valgrind, proxy: POST of 500 kB" gives "$work/half_posted" "${ours[@]}" --post "$folder/half.bin" "$(url "${ports[15]}" /answer)"
check "valgrind, proxy: 50 requests" gives "$work/fifty" "${ours[@]}" --count 50 --parallel 10 "$(url "${ports[15]}" /hello.txt)"
check "valgrind, proxy: a request that is reset" works "${ours[@]}" --cancel 100000 --post "$folder/half.bin" "$(url "${ports[15]}" /answer)"
check "valgrind, proxy: no leak and no error of memory" stop "$last"

# ---- the end ----

proxy "${ports[11]}" proxy_leaves.log "${ports[0]}"
process=$last
check "proxy: SIGTERM under 1,000 requests of four clients: none is lost" loses_none "$process" "${ports[11]}" "${ports[3]}"
check "proxy: it ends then" ended "$process" 20
restarts() { # PORT of a proxy, PORT of its server, and the process of that: it ends under load, and another one takes its port
  within 120 "$work/leave" "$cert" 1000 50 /part.bin 50000 "$1" > "$work/leave.1" &
  local client=$!
  await "$work/leave.1" half || return 1
  kill -TERM "$3"
  ended "$3" 30 || return 1
  running "$2" restarted.log "$work/checked/serve" 127.0.0.1 "$2" "$cert" "$key" "$folder"
  wait "$client"
  local status=$?
  tail -n 1 "$work/leave.1" | tee -a "$work/log"
  return $status
}
running "${ports[12]}" ends.log "$work/checked/serve" 127.0.0.1 "${ports[12]}" "$cert" "$key" "$folder"
server=$last
proxy "${ports[13]}" proxy_restarts.log "${ports[12]}"
process=$last
check "proxy: its server ends under 1,000 requests, and starts again: none is lost" restarts "${ports[13]}" "${ports[12]}" "$server"
kill -TERM "$process" "$last"
kill -TERM "$first" "$second" "$third" "$fourth" "$fifth" "$sixth" "$seventh" "$eighth" "$plain" "$short" "$sessions"
for process in $first $second $third $fourth $fifth $sixth $seventh $eighth $plain $short $sessions; do check "proxy: it ends" ended "$process" 40; done
for log in operated proxy_waits proxy_pings short proxy proxy_gtls proxy_go proxy_origin proxy_none proxy_tunnels tunnels_unknown tunnels_sessions webtransport proxy_leaves proxy_restarts origin serve ends restarted; do check "proxy: no leak and no error of memory, $log" is_silent "$log.log"; done
[ "$failed" -eq 0 ]
