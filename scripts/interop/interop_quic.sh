#!/usr/bin/env bash
# The examples in C, Go and Rust against HTTP/3 peers over QUIC that Debian has: gtlsclient and gtlsserver (ngtcp2), quic-go, Caddy and
# Chromium. Only loopback addresses, each command within a time, each server ended at the end. Prints 'ok NAME' or 'failed NAME' for
# each check; where packages are missing it names them all, and fails. It makes the library (`make lib`), or takes it from the folder LIB.
set -uo pipefail
cd "$(dirname "$0")/../.."
top=$PWD
lib=${LIB:-$top/build/c}
. scripts/interop/checks.sh

# ---- packages ----

if ! bash scripts/dev/packages.sh examples interop; then
  bad "packages"
  exit 1
fi

# ---- programs ----

export PKG_CONFIG_PATH=$lib GO111MODULE=off GOPATH=/usr/share/gocode GOCACHE=${GOCACHE:-$work/go}
SANITIZERS="-O1 -g -fsanitize=address,undefined -fno-sanitize-recover=undefined"
[ -n "${LIB:-}" ] || build make -s lib
build make -s -C examples/c LIB="$lib" OUT="$work/checked" CFLAGS="$SANITIZERS"
build make -s -C examples/c LIB="$lib" OUT="$work/plain"
build gcc -O1 -g -c -o "$work/refuse.o" scripts/interop/refuse.c
build make -s -C examples/c LIB="$lib" OUT="$work/refusing" CFLAGS="$SANITIZERS" \
  LDFLAGS="$work/refuse.o -Wl,--wrap=malloc,--wrap=calloc,--wrap=realloc"
build make -s -C examples/go LIB="$lib" OUT="$work"
build make -s -C examples/rust LIB="$lib" OUT="$work"
# the Rust example once more, with each allocation to be refused
build make -s -C examples/rust LIB="$lib" OUT="$work/refusing" \
  RUSTFLAGS="-C link-arg=$work/refuse.o -C link-arg=-Wl,--wrap=malloc,--wrap=calloc,--wrap=realloc"
build go build -o "$work/peer" scripts/interop/peer.go
build go build -o "$work/violate" scripts/interop/violate.go
build go build -o "$work/flood" scripts/interop/flood.go
serve=$work/checked/serve
peer=$work/peer

# ---- what is served ----

make_served
ours=("$work/checked/fetch" --address 127.0.0.1 --trust "$cert")
go_ours=("$work/h3go" fetch)
under_valgrind=(valgrind -q --leak-check=full --error-exitcode=9)
cat "$big" "$big" > "$work/twice"
head -n 50 "$work/thousand" > "$work/fifty"
echo early > "$work/early"
echo secret > "$work/secret.txt"
ln -s ../secret.txt "$folder/link.txt"

# ---- servers ----

mapfile -t ports < <(python3 scripts/interop/ports.py 22)

# ---- our server ----

gtls() { # PORT, options and URLs: what gtlsclient downloads stands in $work/down
  local port=$1
  shift
  rm -rf "$work/down"
  mkdir "$work/down"
  within 60 gtlsclient -q --exit-on-all-streams-close --download="$work/down" "${options[@]}" 127.0.0.1 "$port" "$@" > /dev/null
}
gtls_file() {
  options=()
  gtls "$1" "$(url "$1" /big.bin)" && cmp -s "$work/down/big.bin" "$big"
}
gtls_post() {
  options=(-m POST -d "$big")
  gtls "$1" "$(url "$1" /answer)" && cmp -s "$work/down/answer" "$work/posted"
}
gtls_many() {
  local urls=()
  for i in $(seq 0 99); do urls+=("$(url "$1" "/small/$i.txt")"); done
  options=()
  gtls "$1" "${urls[@]}" && diff -rq "$work/down" "$folder/small" >> "$work/log"
}
browse() { # PORT
  chromium_sees "$1" / && grep -q "image 64 x 48" "$work/seen" && grep -q "^post 1000000 $(hash_of "$folder/letters.txt")$" "$work/seen" &&
    grep -q "^small 100$" "$work/seen" && grep -q "^protocols h3 of " "$work/seen"
}
session() { chromium_sees "$1" "$(session_page "$2" "$cert")" && saw_session; } # PORT of a server that has the page, PORT of one of sessions
websocket_seen() { # PORT of a server that has the page, PORT of one of WebSockets
  local line
  chromium_sees "$1" "/websocket.html?port=$2" "$2" && grep -q '"seen">open$' "$work/seen" || return 1
  for line in "text "{5,0,9,100000}" true" "bytes "{0,125,126,65535,65536,1000000}" true" "closed 3001 true"; do
    grep -qx "$line" "$work/seen" || return 1
  done
}
own_websocket() { # PORT: messages of 0, 6 and 10,000,000 bytes
  gives "$work/messages" "$work/checked/websocket_client" "$cert" 127.0.0.1 "$1" localhost / "$work/empty" "$folder/hello.txt" "$big"
}
# The server is told to end while a client has read a part of a body: the rest comes, and no further request is taken.
going_away() { # PORT, PROCESS of the server
  mkfifo "$work/pipe$1"
  timeout -k 5 60 "$work/checked/fetch" --address 127.0.0.1 --trust "$cert" --count 2 "$(url "$1" /big.bin)" > "$work/pipe$1" 2>> "$work/log" &
  local client=$!
  exec 3< "$work/pipe$1"
  head -c 1000 <&3 > "$work/got"
  kill -TERM "$2"
  sleep 3 # the last GOAWAY comes behind a second or two
  cat <&3 >> "$work/got"
  exec 3<&-
  wait "$client"
  [ $? -eq 1 ] || return 1
  wait "$2" || return 1
  cmp -s "$work/got" "$big" && grep -q "takes no more requests" "$work/log"
}
# The server is told to end while a client reads 2 MB a second: all of its 10 MB come, and then the server ends by itself.
slow_reader() { # PORT, PROCESS of the server
  within 60 "$peer" slow "$cert" 2000000 "$(url "$1" /big.bin)" > "$work/got" &
  local client=$!
  sleep 1
  kill -TERM "$2"
  wait "$client" || return 1
  wait "$2" || return 1
  cmp -s "$work/got" "$big"
}
# The second signal cuts off what was begun: the client fails, and the server ends within a second.
second_signal() { # PORT, PROCESS of the server
  within 60 "$peer" slow "$cert" 100000 "$(url "$1" /big.bin)" > "$work/got" &
  local client=$! begun
  sleep 1
  kill -TERM "$2"
  sleep 1
  kill -TERM "$2"
  begun=$(date +%s%N)
  wait "$2"
  [ $(($(date +%s%N) - begun)) -le 1000000000 ] || return 1
  ! wait "$client"
}
# the most memory that a server had, in KiB
peak() { # its PROCESS, and not that of `timeout`, whose child it is
  sed -n 's/^VmHWM:[^0-9]*\([0-9]*\) kB/\1/p' "/proc/$1/status"
}
# 40,000 requests that are reset behind their heads: a bound for the processor time of the server, in hundredths of a second, and for the memory that it
# grows by, in MiB. Nothing is kept of them: what a server grows by has to be the same for any number. Go's heap grows to twice what is in use, in which
# 100 requests at once have up to 9 MB, and a third bound is for what its collections leave, in MB: GODEBUG=gctrace=1 says it in LOG.
resets() { # PORT, PROCESS of the server, which is a child of `timeout`, MIB, and for Go LOG
  local server before after live=0
  read -r server < "/proc/$2/task/$2/children"
  used() { echo $(($(cut -d' ' -f14,15 "/proc/$server/stat" | tr ' ' '+'))); }
  works "$peer" resets "$cert" 1 "localhost:$1" || return 1
  before=($(used) $(peak "$server"))
  works "$peer" resets "$cert" 40000 "localhost:$1" && grep -q "^40000 reset, then [1-9]" "$work/got" || return 1
  after=($(used) $(peak "$server"))
  if [ -n "${4:-}" ]; then # the least of the last five: the others came while requests were under way
    live=$(grep -aoE '[0-9]+->[0-9]+->[0-9]+ MB' "$work/$4" | tail -n 5 | sed -E 's/.*>([0-9]+) MB/\1/' | sort -n | head -n 1)
  fi
  echo "$((after[0] - before[0])) hundredths of a second, $((after[1] - before[1])) KiB${4:+, ${live:-no} MB in use}" | tee "$work/log"
  [ $((after[0] - before[0])) -le 800 ] && [ $((after[1] - before[1])) -le $((1024 * $3)) ] && [ "${live:-99}" -le 8 ]
}
# Frames and instructions that never end, each on a connection of its own: the server grows by 16 MiB at most. Of none more than 1 MiB goes out, since there
# is no credit for what is held, but of frames of an unknown type, which are thrown away as they come.
floods() { # PORT, PROCESS of the server, which is a child of `timeout`
  local server before after
  read -r server < "/proc/$2/task/$2/children"
  works "$peer" resets "$cert" 1 "localhost:$1" || return 1
  before=$(peak "$server")
  works "$work/flood" "$cert" "localhost:$1" 40000000 || return 1
  after=$(peak "$server")
  cp "$work/got" "$work/log"
  echo "$((after - before)) KiB" >> "$work/log"
  [ "$(wc -l < "$work/got")" -eq 7 ] && [ $((after - before)) -le 16384 ] && awk '!/unknown frame/ && $1 > 1048576 { exit 1 }' "$work/got"
}
# A request whose head has a field of so many bytes is answered with this status.
head_gives() { # STATUS, BYTES, PORT
  works "$peer" head "$cert" "$2" "$(url "$3" /hello.txt)" && [ "$(cat "$work/got")" = "$1" ]
}
stops_a_put() { # PORT
  works "$peer" put "$cert" "$big" "$(url "$1" /answer)" && grep -q "^405, a text of 29 bytes, all of the file: false$" "$work/got"
}
# A client that wants 160 answers is told to go while it may have 100 more: what it asked for it gets, and it asks no more than it may.
limit_reached() { # TEXT, COMMAND..
  local text=$1 count
  shift
  refuses "$text" "$@" || return 1
  count=$(wc -l < "$work/got")
  [ "$count" -ge 50 ] && [ "$count" -lt 150 ] && head -n "$count" "$work/thousand" | cmp -s - "$work/got" && ! grep -q "reset" "$work/log"
}
is_silent() { ! grep -qE "Sanitizer|runtime error|panic|DATA RACE" "$work/$1"; }

# A client that breaks rules: a line of ours for each of its cases.
violations() { # what the server is called, PORT
  : > "$work/log"
  within 120 "$work/violate" client "$cert" "127.0.0.1:$2" > "$work/cases"
  while read -r word case; do
    if [ "$word" = ok ]; then good "$1, a client that breaks a rule: $case"; else bad "$1, a client that breaks a rule: $case"; fi
  done < "$work/cases"
  [ -s "$work/cases" ] || bad "$1, a client that breaks a rule"
}
# A server that breaks rules: what the client says of the code with which it closes the connection, or of a message that is none.
broken_server() { # what the client is called, PORT, how it says a code (as printf), what it says of a message, the client
  local name=$1 port=$2 says=$3 message=$4
  shift 4
  start "$port" violate.log "$work/violate" serve "127.0.0.1:$port" "$cert" "$key"
  while read -r code case; do
    local text=$message
    # shellcheck disable=SC2059
    [ "$code" -eq 0 ] || printf -v text "$says" "$code"
    check "$name, a server that breaks a rule: $case" refuses "$text" "$@" "$(url "$port" /)"
  done < <("$work/violate" cases)
}

our_server() { # what it is called, PORT, PORT of a relay to it
  check "$1, gtlsclient: 10 MB" gtls_file "$2"
  check "$1, gtlsclient: POST of 10 MB" gtls_post "$2"
  check "$1, gtlsclient: 100 requests" gtls_many "$2"
  check "$1, quic-go: 10 MB" gives "$big" "$peer" fetch "$cert" "$(url "$2" /big.bin)"
  check "$1, quic-go: POST of 10 MB" gives "$work/posted" "$peer" post "$cert" "$big" "$(url "$2" /answer)"
  check "$1, quic-go: 1,000 requests on one connection" works "$peer" many "$cert" 1000 100 "$(url "$2" /hello.txt)"
  check "$1, quic-go: a client that gives 3 requests up" works "$peer" cancel "$cert" "$(url "$2" /big.bin)" 3
  check "$1, Chromium: a page with an image, a POST, 100 requests at once" browse "$2"
  check "$1, fetch: 1,000 requests on one connection" gives "$work/thousand" "${ours[@]}" --count 1000 --parallel 100 "$(url "$2" /hello.txt)"
  check "$1, fetch: a response that is given up" gives "$work/twice" "${ours[@]}" --count 3 --cancel 100000 "$(url "$2" /big.bin)"
  cat "$work/posted" "$work/posted" > "$work/posted_twice"
  check "$1, fetch: a request that is reset" gives "$work/posted_twice" "${ours[@]}" --count 3 --cancel 100000 --post "$big" "$(url "$2" /answer)"
  check "$1, gtlsclient, packets lost: 10 MB" gtls_file "$3"
  check "$1, Chromium, packets lost: a page with an image, a POST, 100 requests at once" browse "$3"
  check "$1, fetch, packets lost: 1,000 requests on one connection" gives "$work/thousand" "${ours[@]}" --count 1000 --parallel 100 \
    "$(url "$3" /hello.txt)"
  check "$1, fetch, packets lost: POST of 10 MB" gives "$work/posted" "${ours[@]}" --post "$big" "$(url "$3" /answer)"
  check "$1, quic-go: a head of 60,000 bytes" head_gives 200 60000 "$2"
  check "$1, quic-go: a head of 70,000 bytes gives 431" head_gives 431 70000 "$2"
  check "$1, quic-go: a PUT of 10 MB gives 405, and is stopped" stops_a_put "$2"
  check "$1, fetch: no such file" refuses "status 404" "${ours[@]}" "$(url "$2" /none)"
  for path in /../secret.txt /%2e%2e/secret.txt /small/../../secret.txt //../secret.txt; do
    check "$1, fetch: $path climbs out" refuses "status 40" "${ours[@]}" "$(url "$2" "$path")"
  done
}

limits() { # what it is called, PORT of a server that takes 150 requests on a connection, its PROCESS
  check "$1 --requests 150, fetch: 160 requests" limit_reached "takes no more requests; not asked" "${ours[@]}" --count 160 \
    "$(url "$2" /hello.txt)"
  check "$1 --requests 150, Go client: 160 requests" limit_reached "(H3_GOING_AWAY), 600" "${go_ours[@]}" -count 160 "$cert" \
    "$(url "$2" /hello.txt)"
  check "$1 --requests 150, quic-go, which heeds no GOAWAY: the 151st is refused" refuses "stream 600 canceled with error code 267" \
    "$peer" many "$cert" 200 1 "$(url "$2" /hello.txt)"
  check "$1: a reader of 2 MB a second at the server's end" slow_reader "$2" "$3"
}

start "${ports[0]}" serve.log "$serve" 127.0.0.1 "${ports[0]}" "$cert" "$key" "$folder"
c_server=$last
relay "${ports[6]}" "${ports[0]}"
our_server serve "${ports[0]}" "${ports[6]}"
violations serve "${ports[0]}"
check "serve, fetch: a link climbs out" refuses "status 404" "${ours[@]}" "$(url "${ports[0]}" /link.txt)"
start "${ports[17]}" webtransport.log "$work/checked/webtransport" 127.0.0.1 "${ports[17]}" "$cert" "$key"
sessions=$last
relay "${ports[18]}" "${ports[17]}"
check "webtransport, Chromium: sessions, streams of each kind from both sides, datagrams" session "${ports[0]}" "${ports[17]}"
check "webtransport, Chromium: the numbers of streams that are reset" says_numbers webtransport.log
check "webtransport, Chromium, packets lost: sessions, streams of each kind from both sides, datagrams" session "${ports[0]}" "${ports[18]}"
check "webtransport, webtransport_client: streams of each kind from both sides, datagrams" own_session "${ports[17]}"
check "webtransport, webtransport_client, packets lost: streams of each kind from both sides, datagrams" own_session "${ports[18]}"
check "webtransport_client: nobody listens" refuses "nobody listens" "$work/checked/webtransport_client" "$cert" 127.0.0.1 "${ports[21]}" localhost / "$work/none"
check "webtransport: it ends" stop "$sessions"
check "webtransport: no leak and no error of memory" is_silent webtransport.log
start "${ports[19]}" websocket.log "$work/checked/websocket" 127.0.0.1 "${ports[19]}" "$cert" "$key"
websockets=$last
relay "${ports[20]}" "${ports[19]}"
: > "$work/empty"
cat "$folder/hello.txt" "$big" > "$work/messages"
check "websocket, Chromium: text and bytes come back, and the close" websocket_seen "${ports[0]}" "${ports[19]}"
check "websocket, Chromium, packets lost: text and bytes come back, and the close" websocket_seen "${ports[0]}" "${ports[20]}"
check "websocket, websocket_client: messages of 0, 6 and 10,000,000 bytes" own_websocket "${ports[19]}"
check "websocket, websocket_client, packets lost: messages of 0, 6 and 10,000,000 bytes" own_websocket "${ports[20]}"
check "websocket_client, serve: no extended CONNECT" refuses "takes no extended CONNECT" "$work/checked/websocket_client" "$cert" 127.0.0.1 \
  "${ports[0]}" localhost / "$folder/hello.txt"
check "websocket_client: nobody listens" refuses "nobody listens" "$work/checked/websocket_client" "$cert" 127.0.0.1 "${ports[21]}" localhost / \
  "$folder/hello.txt"
check "websocket: it ends" stop "$websockets"
check "websocket: no leak and no error of memory" is_silent websocket.log
check "serve: GOAWAY at its end" going_away "${ports[0]}" "$c_server"
check "serve: no leak and no error of memory" is_silent serve.log
start "${ports[0]}" serve2.log "$serve" --requests 150 127.0.0.1 "${ports[0]}" "$cert" "$key" "$folder"
limits serve "${ports[0]}" "$last"
check "serve: no leak and no error of memory behind its limits" is_silent serve2.log
start "${ports[13]}" serve3.log "$work/plain/serve" 127.0.0.1 "${ports[13]}" "$cert" "$key" "$folder"
check "serve: 40,000 resets within 8 s of processor and 4 MiB" resets "${ports[13]}" "$last" 4
check "serve: frames and instructions that never end, within 16 MiB" floods "${ports[13]}" "$last"
check "serve: the second signal ends it at once" second_signal "${ports[13]}" "$last"

start "${ports[1]}" h3go.log "$work/h3go" serve "127.0.0.1:${ports[1]}" "$cert" "$key" "$folder"
go_server=$last
relay "${ports[7]}" "${ports[1]}"
our_server "Go server" "${ports[1]}" "${ports[7]}"
violations "Go server" "${ports[1]}"
check "Go server, Go client: 10 MB" gives "$big" "${go_ours[@]}" "$cert" "$(url "${ports[1]}" /big.bin)"
check "Go server: GOAWAY at its end" going_away "${ports[1]}" "$go_server"
check "Go server: no panic" is_silent h3go.log
start "${ports[1]}" h3go2.log "$work/h3go" serve -requests 150 "127.0.0.1:${ports[1]}" "$cert" "$key" "$folder"
limits "Go server" "${ports[1]}" "$last"
check "Go server: no panic behind its limits" is_silent h3go2.log
start "${ports[14]}" h3go3.log env GODEBUG=gctrace=1 "$work/h3go" serve "127.0.0.1:${ports[14]}" "$cert" "$key" "$folder"
check "Go server: 40,000 resets within 8 s of processor and 32 MiB, of which 8 MB are in use behind them" resets "${ports[14]}" "$last" 32 h3go3.log
check "Go server: frames and instructions that never end, within 16 MiB" floods "${ports[14]}" "$last"
check "Go server: the second signal ends it at once" second_signal "${ports[14]}" "$last"

# ---- our clients ----

cat > "$work/Caddyfile" <<CADDY
{
	admin off
	auto_https off
	default_bind 127.0.0.1
}
https://localhost:${ports[4]} {
	tls $cert $key
	root * $folder
	respond /early "early
" 200
	file_server
}
CADDY
start "${ports[2]}" gtlsserver.log gtlsserver -q -d "$folder" 127.0.0.1 "${ports[2]}" "$key" "$cert"
start "${ports[3]}" quic-go.log "$peer" serve "127.0.0.1:${ports[3]}" "$cert" "$key" "$folder"
start "${ports[4]}" caddy.log env HOME="$work" caddy run --config "$work/Caddyfile" --adapter caddyfile
# With a decoder that has a table and leaves increments out, the last of many heads still names entries for all of its five fields: a frame's head of two
# bytes, the prefix of two, a byte a line, and one or two more for indices above 15. Each field written out would take some 30 bytes.
table_in_use() { # PORT
  within 60 "${ours[@]}" --sizes --count 300 --parallel 10 "$(url "$1" /hello.txt)" > "$work/got" || return 1
  local last
  last=$(sed -n 's/^request of \([0-9]*\) bytes$/\1/p' "$work/log" | tail -n 1)
  [ "${last:-0}" -gt 0 ] && [ "$last" -le 12 ]
}
our_clients() { # the server's name, PORT
  check "fetch, $1: 10 MB" gives "$big" "${ours[@]}" "$(url "$2" /big.bin)"
  check "fetch, $1: 1,000 requests on one connection" gives "$work/thousand" "${ours[@]}" --count 1000 --parallel 100 "$(url "$2" /hello.txt)"
  check "fetch, $1: a response that is given up" gives "$work/twice" "${ours[@]}" --count 3 --cancel 100000 "$(url "$2" /big.bin)"
  check "fetch, $1: no such file" refuses "status 404" "${ours[@]}" "$(url "$2" /none)"
  check "Go client, $1: 10 MB" gives "$big" "${go_ours[@]}" "$cert" "$(url "$2" /big.bin)"
  check "Go client, $1: 1,000 requests on one connection" gives "$work/thousand" "${go_ours[@]}" -count 1000 -parallel 100 "$cert" \
    "$(url "$2" /hello.txt)"
}
relay "${ports[8]}" "${ports[2]}"
relay "${ports[9]}" "${ports[3]}"
our_clients gtlsserver "${ports[2]}"
check "fetch, gtlsserver: the encoder's table is in use for 300 requests" table_in_use "${ports[2]}"
our_clients "gtlsserver, packets lost" "${ports[8]}"
our_clients quic-go "${ports[3]}"
our_clients "quic-go, packets lost" "${ports[9]}"
our_clients Caddy "${ports[4]}"
check "fetch, quic-go: POST of 10 MB" gives "$work/posted" "${ours[@]}" --post "$big" "$(url "${ports[3]}" /answer)"
check "Go client, quic-go: POST of 10 MB" gives "$work/posted" "${go_ours[@]}" -post "$big" "$cert" "$(url "${ports[3]}" /answer)"
for server in quic-go:${ports[3]} Caddy:${ports[4]}; do
  check "fetch, ${server%:*}: an answer that stops a POST of 10 MB" gives "$work/early" "${ours[@]}" --post "$big" "$(url "${server#*:}" /early)"
  check "Go client, ${server%:*}: an answer that stops a POST of 10 MB" gives "$work/early" "${go_ours[@]}" -post "$big" "$cert" \
    "$(url "${server#*:}" /early)"
done
check "fetch: its first packet goes out at once" works python3 scripts/interop/first.py 0.05 "$work/plain/fetch" --address 127.0.0.1 \
  --trust "$cert" "https://localhost:{port}/"
check "fetch: a server whose certificate is not trusted" refuses "closed with QUIC code" "$work/checked/fetch" --address 127.0.0.1 \
  "$(url "${ports[3]}" /hello.txt)"

broken_server fetch "${ports[10]}" "closed with HTTP/3 code %d" "the response is malformed" "${ours[@]}"
broken_server "Go client" "${ports[11]}" "the connection has a fault.*, 0x%x" "the message is malformed" "${go_ours[@]}" "$cert"

# ---- memory, and two endpoints ----

start "${ports[5]}" valgrind.log "${under_valgrind[@]}" "$work/plain/serve" 127.0.0.1 "${ports[5]}" "$cert" "$key" "$folder"
# on a busy machine valgrind's first handshake may take longer than the ten seconds that it may
for _ in 1 2 3; do if works "${ours[@]}" "$(url "${ports[5]}" /hello.txt)"; then break; fi; done
head -c 500000 "$big" > "$folder/half.bin"
check "valgrind, fetch and serve: 500 kB" gives "$folder/half.bin" "${under_valgrind[@]}" "$work/plain/fetch" --address 127.0.0.1 --trust "$cert" \
  "$(url "${ports[5]}" /half.bin)"
check "valgrind, fetch and serve: 50 requests" gives "$work/fifty" "${under_valgrind[@]}" "$work/plain/fetch" --address 127.0.0.1 --trust "$cert" \
  --count 50 --parallel 10 "$(url "${ports[5]}" /hello.txt)"
check "valgrind, fetch and serve: a request that is reset" works "${under_valgrind[@]}" "$work/plain/fetch" \
  --address 127.0.0.1 --trust "$cert" --count 1 --cancel 100000 --post "$folder/half.bin" "$(url "${ports[5]}" /answer)"
check "valgrind, serve: no leak and no error of memory" stop "$last"
start "${ports[21]}" valgrind_websocket.log "${under_valgrind[@]}" "$work/plain/websocket" 127.0.0.1 "${ports[21]}" "$cert" "$key"
own_half() { gives "$folder/half.bin" "$@" "$work/plain/websocket_client" "$cert" 127.0.0.1 "${ports[21]}" localhost / "$folder/half.bin"; }
for _ in 1 2 3; do if own_half; then break; fi; done
check "valgrind, websocket and websocket_client: 500 kB" own_half "${under_valgrind[@]}"
check "valgrind, websocket: no leak and no error of memory" stop "$last"
# ---- each allocation of the C programs refused in turn: they end with 0 or 1, no error of memory, and no leak ----

refused_client() {
  local count=0 status
  while [ "$count" -lt 300 ]; do
    : > "$work/log"
    REFUSE_AT=$count within 20 "$work/refusing/fetch" --address 127.0.0.1 --trust "$cert" --count 2 --parallel 2 "$(url "$1" /hello.txt)" > "$work/got"
    status=$?
    [ "$status" -le 1 ] && is_silent log || return 1
    if ! grep -q "allocation is refused" "$work/log"; then break; fi
    count=$((count + 1))
  done
  [ "$status" -eq 0 ] && [ "$count" -gt 20 ]
}
refused_server() { # PORT, COMMAND of a client; the server and its words after the key stand in `refusing`
  local port=$1 count=0 status
  shift
  while [ "$count" -lt 300 ]; do
    REFUSE_AT=$count limited "$work/refusing/${refusing[0]}" 127.0.0.1 "$port" "$cert" "$key" "${refusing[@]:1}" > "$work/refused.log" 2>&1 &
    local server=$!
    pids+=("$server")
    for _ in $(seq 100); do
      if listens "$port" || ! kill -0 "$server" 2>/dev/null; then break; fi
      sleep 0.05
    done
    if listens "$port"; then
      within 3 "$@" > "$work/got"
      # the server goes on: where this allocation was refused before, all is as ever
      if grep -q "allocation is refused" "$work/refused.log" && ! works "$@"; then return 1; fi
      kill -TERM "$server"
    fi
    wait "$server"
    status=$?
    cp "$work/refused.log" "$work/log"
    [ "$status" -le 1 ] && is_silent log || return 1
    if ! grep -q "allocation is refused" "$work/log"; then break; fi
    count=$((count + 1))
  done
  [ "$status" -eq 0 ] && [ "$count" -gt 20 ]
}
check "fetch: each allocation refused in turn" refused_client "${ports[3]}"
refusing=(serve "$folder")
check "serve: each allocation refused in turn" refused_server "${ports[12]}" "${ours[@]}" --count 2 --parallel 2 "$(url "${ports[12]}" /hello.txt)"
refusing=(websocket)
check "websocket: each allocation refused in turn" refused_server "${ports[19]}" "$work/checked/websocket_client" "$cert" 127.0.0.1 "${ports[19]}" \
  localhost / "$folder/hello.txt"
refusing=(webtransport)
check "webtransport: each allocation refused in turn" refused_server "${ports[17]}" "$work/checked/webtransport_client" "$cert" 127.0.0.1 "${ports[17]}" \
  localhost / "$work/none" "$folder/hello.txt"

# Each third allocation of the Rust program refused in turn: Rust ends it where its own is; where one of the library is, bytes are never delivered twice.
refused_endpoints() {
  local count=0 status
  while [ "$count" -lt 600 ]; do
    : > "$work/log"
    REFUSE_AT=$count within 20 "$work/refusing/two_endpoints" 1000 > "$work/got"
    status=$?
    if [ "$status" -eq 134 ]; then grep -q "memory allocation of" "$work/log" || return 1; fi
    if [ "$status" -eq 1 ]; then grep -q "out of memory" "$work/log" || return 1; fi
    if ! grep -q "allocation is refused" "$work/log"; then break; fi
    count=$((count + 3))
  done
  [ "$status" -eq 0 ] && [ "$count" -gt 20 ]
} 2> /dev/null # where the shell says that a program was aborted
check "Rust: two endpoints" works "$work/two_endpoints"
check "Rust: two endpoints, each third allocation refused in turn" refused_endpoints
check "Rust: two endpoints, under valgrind" works "${under_valgrind[@]}" "$work/two_endpoints"
[ "$failed" -eq 0 ]
