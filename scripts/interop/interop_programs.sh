#!/usr/bin/env bash
# The examples in C as an operator runs them: beside clients that cost more than others, at their end, and given what they do not take. Only loopback
# addresses. Prints 'ok NAME' or 'failed NAME' for each check. It makes the library (`make lib`), or takes it from the folder LIB.
set -uo pipefail
cd "$(dirname "$0")/../.."
lib=${LIB:-$PWD/build/c}
. scripts/interop/checks.sh
. scripts/interop/programs.sh

make_programs proxy
make_checked
for name in settings_first parts leave urgent tunnel; do make_client "$name"; done
head -c 50000 "$big" > "$folder/part.bin"
head -c 200000 "$big" > "$folder/many.bin"
serve=$work/checked/serve
hostile=("$work/hostile" "$cert")
mapfile -t ports < <(python3 scripts/interop/ports.py 20)

used() { echo $(($(cut -d' ' -f14,15 "/proc/$1/stat" | tr ' ' '+'))); }

# ---- what is given by hand ----

misused() { # STATUS, TEXT, COMMAND..
  local status=$1 text=$2
  shift 2
  within 10 "$@" > "$work/got"
  [ $? -eq "$status" ] && grep -q -- "$text" "$work/log"
}
check "buffers, timers and priorities" works "$work/parts"
check "serve: port 99999" misused 1 "not a port" "$serve" 127.0.0.1 99999 "$cert" "$key" "$folder"
check "serve: --requests -5" misused 2 "not a number: -5" "$serve" --requests -5 127.0.0.1 "${ports[0]}" "$cert" "$key" "$folder"
check "serve: a certificate that is not there" misused 1 "$work/none.pem" "$serve" 127.0.0.1 "${ports[0]}" "$work/none.pem" "$key" "$folder"
any_port() {
  "$serve" "$1" 0 "$cert" "$key" "$folder" > "$work/any.log" 2>&1 &
  local server=$! port
  for _ in $(seq 50); do
    port=$(sed -n 's/.*port \([0-9]*\)$/\1/p' "$work/any.log")
    if [ -n "$port" ]; then break; fi
    sleep 0.1
  done
  gives "$folder/hello.txt" "$work/checked/fetch" --trust "$cert" "https://$2:$port/hello.txt"
  local status=$?
  kill -TERM "$server" && wait "$server" && [ "$port" != 0 ] && [ $status -eq 0 ]
}
check "serve: port 0 is said as the port that it is" any_port 127.0.0.1 127.0.0.1
if [ -e /proc/net/if_inet6 ] && grep -q "^0*1 " /proc/net/if_inet6; then check "serve and fetch: IPv6" any_port ::1 "[::1]"; else echo "skipped IPv6"; fi
check "fetch: nobody listens" timeout 3 bash -c "! '$work/checked/fetch' --address 127.0.0.1 --trust '$cert' https://localhost:${ports[0]}/ 2>&1 | grep -v 'nobody listens'"

# ---- answers ----

serving "${ports[1]}" serve.log "$serve"
server=$last
answer_has() { # STATUS, FIELD (a pattern), COMMAND..
  local status=$1 field=$2
  shift 2
  within 20 "$@" > "$work/got"
  grep -q "^:status: $status" "$work/log" && grep -qE "$field" "$work/log"
}
DATE="^date: [A-Z][a-z]{2}, [0-9]{2} [A-Z][a-z]{2} [0-9]{4} [0-9:]{8} GMT$"
check "serve: a file has a date" answer_has 200 "$DATE" "${ours[@]}" --fields "$(url "${ports[1]}" /hello.txt)"
check "serve: 404 has a date" answer_has 404 "$DATE" "${ours[@]}" --fields "$(url "${ports[1]}" /none)"
check "serve: 405 says what is allowed" answer_has 405 "^allow: GET, HEAD, POST$" "${ours[@]}" --fields --method PUT "$(url "${ports[1]}" /hello.txt)"
check "serve: a path of 5,000 bytes gives 414" refuses "status 414" "${ours[@]}" "$(url "${ports[1]}" "/$(printf 'a%.0s' $(seq 5000))")"
with_field() { # FIELD of the request, STATUS, FIELD of the answer, PORT, PATH
  answer_has "$2" "$3" "${ours[@]}" --fields --field "$1" "$(url "$4" "$5")"
}
check "serve: a range" with_field "range:bytes=0-3" 206 "^content-range: bytes 0-3/6$" "${ports[1]}" /hello.txt
check "serve: the last bytes" with_field "range:bytes=-2" 206 "^content-range: bytes 4-5/6$" "${ports[1]}" /hello.txt
check "serve: a range past the end gives 416" with_field "range:bytes=6-" 416 "^content-range: bytes \*/6$" "${ports[1]}" /hello.txt
check "serve: two ranges give the file" with_field "range:bytes=0-0,2-3" 200 "^content-length: 6$" "${ports[1]}" /hello.txt
tail -c +101 "$big" | head -c 100000 > "$work/part"
check "serve: the bytes of a range" gives "$work/part" "${ours[@]}" --field "range:bytes=100-100099" "$(url "${ports[1]}" /big.bin)"
not_changed() { # PORT: by tag and by date
  local tag date
  answer_has 200 "^etag: " "${ours[@]}" --fields "$(url "$1" /hello.txt)" || return 1
  tag=$(sed -n 's/^etag: //p' "$work/log")
  date=$(sed -n 's/^last-modified: //p' "$work/log")
  : > "$work/log"
  with_field "if-none-match:$tag" 304 "^etag: $tag$" "$1" /hello.txt || return 1
  : > "$work/log"
  with_field "if-modified-since:$date" 304 "^etag: $tag$" "$1" /hello.txt || return 1
  : > "$work/log"
  with_field "if-modified-since:Sat, 01 Jan 2000 00:00:00 GMT" 200 "^etag: $tag$" "$1" /hello.txt
}
check "serve: 304 by tag and by date" not_changed "${ports[1]}"
check "serve: 200 unidirectional streams that end" says 200 "${hostile[@]}" "127.0.0.1:${ports[1]}" streams 200
tiny() { works "${hostile[@]}" "127.0.0.1:$1" tiny "$2" && [ "$(cat "$work/got")" -ge 10000000 ]; }
check "serve: 10 MB in a window of 20,000 bytes" tiny "${ports[1]}" 20000
start "${ports[2]}" other.log "$work/peer" serve "127.0.0.1:${ports[2]}" "$cert" "$key" "$folder"
taken_with_token() { works "${hostile[@]}" "127.0.0.1:$1" token "127.0.0.1:$2" && grep -q "^taken$" "$work/got" && ! grep -q "tokens: 0" "$work/got"; }
check "serve: a client with another server's token" taken_with_token "${ports[1]}" "${ports[2]}"

# ---- what an operator asks for ----

check "serve --version" bash -c "'$serve' --version | grep -q '^serve of Beanwhile [0-9]'"
check "serve --help" bash -c "'$serve' --help | grep -q -- '--drain=SECONDS'"
described() { # PROGRAM, OPTION..: a manual page without a warning, that has each option
  local page=examples/c/$1.1 option
  shift
  ! LC_ALL=C.UTF-8 man --warnings -E UTF-8 -Tutf8 -Z -l "$page" 2>&1 > /dev/null | tee -a "$work/log" | grep -q . || return 1
  for option; do
    if ! sed 's/\\-/-/g' "$page" | grep -qF -- "$option"; then
      echo "$option" >> "$work/log"
      return 1
    fi
  done
}
options_of() { "$@" 2>&1 | grep -oE -- '--[a-z-]+' | sort -u; } # COMMAND..: those that it tells
# shellcheck disable=SC2046
check "serve: a manual page with all its options" described serve $(options_of "$serve" --help)
# shellcheck disable=SC2046
check "proxy: a manual page with all its options" described proxy $(options_of "$work/checked/proxy" --help)
is_ready() { # PORT: the service manager is told
  python3 - "$work/notify" "$serve" 127.0.0.1 "$1" "$cert" "$key" "$folder" > "$work/got" 2>> "$work/log" <<'PYTHON'
import os, socket, subprocess, sys
manager = socket.socket(socket.AF_UNIX, socket.SOCK_DGRAM)
manager.bind(sys.argv[1])
manager.settimeout(10)
server = subprocess.Popen(sys.argv[2:], env={**os.environ, "NOTIFY_SOCKET": sys.argv[1]}, stdout=subprocess.DEVNULL)
said = [manager.recv(100)]
server.terminate()
said.append(manager.recv(100))
assert said == [b"READY=1", b"STOPPING=1"] and server.wait(10) == 0, said
PYTHON
}
check "serve: READY and STOPPING" is_ready "${ports[8]}"
certificate() { # NAME, FILE, FILE of the key
  openssl req -x509 -newkey ec -pkeyopt ec_paramgen_curve:P-256 -nodes -keyout "$3" -out "$2" -days 13 -subj "/CN=$1" \
    -addext "subjectAltName=DNS:$1" 2>> "$work/log"
}
build certificate other.example "$work/other.pem" "$work/other_key.pem"
mkdir "$work/qlog"
SSLKEYLOGFILE=$work/keys serving "${ports[9]}" operated.log "$serve" --log "$work/access.log" --qlog "$work/qlog" --idle 2 \
  --certificate "$work/other.pem,$work/other_key.pem"
operated=$last
shows() { gives "$folder/hello.txt" "$work/checked/fetch" --address 127.0.0.1 --trust "$2" "https://$3:$1/hello.txt"; }
check "serve: a second certificate, by its name" shows "${ports[9]}" "$work/other.pem" other.example
reloaded() { # PORT, PROCESS: a download goes on, and new clients see the new certificate
  within 60 "$work/peer" slow "$cert" 5000000 "$(url "$1" /big.bin)" > "$work/slow" &
  local client=$!
  sleep 0.5
  certificate new.example "$work/other.pem" "$work/other_key.pem"
  mv "$work/access.log" "$work/access.1"
  kill -HUP "$2"
  sleep 1
  shows "$1" "$work/other.pem" new.example && shows "$1" "$cert" localhost || return 1
  wait "$client" && cmp -s "$work/slow" "$big"
}
check "serve: SIGHUP shows new certificates, and a download goes on" reloaded "${ports[9]}" "$operated"
LINE='^[0-9TZ:-]{20} 127\.0\.0\.1:[0-9]+ "GET /hello\.txt" 200 6 [0-9]+ ms -$'
check "serve: a line for each request" grep -qE "$LINE" "$work/access.log"
check "serve: the log before SIGHUP stays" grep -qE "$LINE" "$work/access.1"
logs_path() { # PORT
  within 60 "${ours[@]}" "$(url "$1" '/x%0a"y')" # 404
  soon grep -q '"GET /x%0a%22y" 404' "$work/access.log"
}
check "serve: a path is no line of its own" logs_path "${ports[9]}"
counts() { # PROCESS
  kill -USR1 "$1"
  sleep 0.5
  grep -E "^connections [0-9]+ open, [0-9]+ taken, 0 refused" "$work/operated.log" | tee -a "$work/log" | grep -q "4xx 1"
}
events() { # FOLDER: the first connection asked for a file of 6 bytes
  sleep 1
  python3 - "$1"/*-0.sqlog >> "$work/log" 2>&1 <<'PYTHON'
import json, sys
head, *events = [json.loads(record) for record in open(sys.argv[1], encoding="utf-8").read().split("\x1e")[1:]]
assert head["file_schema"] == "urn:ietf:params:qlog:file:sequential" and head["trace"]["vantage_point"] == {"type": "server"}, head
said = [(event["name"], event["data"]) for event in events]
settings = {data["initiator"]: data for name, data in said if name == "http3:parameters_set"}
assert all(settings[of]["max_field_section_size"] == 65536 and settings[of]["max_table_capacity"] == 4096 for of in ("local", "remote")), settings
frames = [(name, data["frame"]) for name, data in said if name.startswith("http3:frame")]
assert [name for name, _ in frames] == ["http3:frame_parsed"] + 2 * ["http3:frame_created"], frames
asked, answered, body = [frame for _, frame in frames]
assert {"name": ":path", "value": "/hello.txt"} in asked["headers"] and {"name": ":status", "value": "200"} in answered["headers"], frames
assert body == {"frame_type": "data", "raw": {"payload_length": 6}} and said[-1][0] == "quic:connection_closed", said
assert [event["time"] for event in events] == sorted(event["time"] for event in events)
PYTHON
}
check "serve --qlog: the events of a request" events "$work/qlog"
check "serve: counts at SIGUSR1" counts "$operated"
check "serve, SSLKEYLOGFILE: a connection's keys, for Wireshark" grep -qE "^CLIENT_TRAFFIC_SECRET_0 [0-9a-f]{64} [0-9a-f]+$" "$work/keys"
one_is_left() { # PROCESS
  kill -USR1 "$1"
  sleep 0.2
  grep "^connections" "$work/operated.log" | tail -n 1 | tee -a "$work/log" | grep -q "^connections 1 open"
}
silent() { # PORT, PROCESS
  "${hostile[@]}" "127.0.0.1:$1" pings 12 > "$work/silent" &
  local client=$! status
  await "$work/silent" there || return 1
  timeout -s KILL 0.5 "$work/peer" slow "$cert" 1000 "$(url "$1" /big.bin)" > /dev/null & # in the background bash says nothing of its end
  wait $!
  ! one_is_left "$2" && sleep 2 && soon one_is_left "$2" && sleep 4 && one_is_left "$2"
  status=$?
  wait "$client"
  return $status
}
check "serve --idle 2: a client that vanished is forgotten, and not one that pings" silent "${ports[9]}" "$operated"
kill -TERM "$operated"
check "serve: it ends, with a log" ended "$operated" 40

# ---- limits ----

few_lines() { # PORT, LOG: 20 a second at most, one that counts the others, and one at its end
  local began=$SECONDS before
  before=$(wc -l < "$work/$2")
  works "$work/peer" resets "$cert" 10000 "localhost:$1" && soon grep -q "more lines" "$work/$2" &&
    [ $(($(wc -l < "$work/$2") - before)) -le $((22 * (SECONDS - began + 1))) ]
}
check "serve: few lines for 10,000 resets" few_lines "${ports[1]}" serve.log
has_closed() { ! ls -l "/proc/$1/fd" | grep -q big.bin; } # PROCESS
closes_files() { # PORT, PROCESS
  works "${ours[@]}" "$(url "$1" /big.bin)" && soon has_closed "$2"
}
check "serve: no file stays open" closes_files "${ports[1]}" "$server"
serving "${ports[3]}" limited.log "$serve" --connections 2 --handshakes 0
check "serve --handshakes 0: Retry, and then 10 MB" gives "$big" "${ours[@]}" "$(url "${ports[3]}" /big.bin)"
refused_third() { # PORT
  "${hostile[@]}" "127.0.0.1:$1" pings 5 > "$work/one" &
  "${hostile[@]}" "127.0.0.1:$1" pings 5 > "$work/two" &
  sleep 2
  says "refused: CONNECTION_REFUSED" "${hostile[@]}" "127.0.0.1:$1" first
  local status=$?
  wait $(jobs -p | tail -n 2) 2> /dev/null
  return $status
}
check "serve --connections 2: the third is refused" refused_third "${ports[3]}"
serving "${ports[4]}" plain.log "$work/plain/serve"
plain=$last
no_credit() { # PORT, PROCESS
  works "$work/peer" fetch "$cert" "$(url "$1" /big.bin)" || return 1
  local before
  before=$(kib "$2" VmHWM)
  works "${hostile[@]}" "127.0.0.1:$1" window 4 || return 1
  echo "$(($(kib "$2" VmHWM) - before)) KiB" | tee "$work/log"
  [ $(($(kib "$2" VmHWM) - before)) -le 2048 ]
}
check "serve: 100 requests of a reader that grants no credit, within 2 MiB" no_credit "${ports[4]}" "$plain"
beside_idle() { # PORT, PROCESS
  mkfifo "$work/idle"
  "${hostile[@]}" "127.0.0.1:$1" idle 1000 < "$work/idle" > "$work/there" &
  local client=$! before status
  exec 4> "$work/idle"
  await "$work/there" there
  before=$(used "$2")
  works "${ours[@]}" --count 500 "$(url "$1" /hello.txt)"
  status=$?
  echo "$(($(used "$2") - before)) hundredths of a second" | tee "$work/log"
  [ $(($(used "$2") - before)) -le 30 ] || status=1
  exec 4>&-
  wait "$client"
  return $status
}
check "serve: 500 requests beside 1,000 idle connections, within 0.3 s of processor" beside_idle "${ports[4]}" "$plain"
settings_come_first() { # PORT, PORT of a narrow way to it
  for _ in 1 2 3 4 5; do
    works "$work/settings_first" "$2" "$cert" || return 1
    cat "$work/got" >> "$work/log"
    [ "$(cat "$work/got")" -le 1500 ] || return 1
  done
}
start "${ports[5]}" narrow.log python3 scripts/interop/narrow.py "${ports[5]}" "${ports[4]}" 300000
check "serve: SETTINGS come before the bodies, over 300 KB a second" settings_come_first "${ports[4]}" "${ports[5]}"

# ---- what is urgent ----

URGENT_LIMIT=200000 # twice what the narrow way holds: a response that takes turns with the 20 has a million bytes of theirs before it
urgent() { # NAME, PORT of a narrow way, ARGUMENTS..: the bytes of others that come before it, the median of five; the milliseconds are said, and judged by none
  local name=$1 port=$2 _ bytes=() times=() of ms
  shift 2
  for _ in 1 2 3 4 5; do
    works "$work/urgent" "$port" "$cert" "$@" || return 1
    read -r of ms < "$work/got"
    bytes+=("$of")
    times+=("$ms")
  done
  of=$(printf '%s\n' "${bytes[@]}" | sort -n | sed -n 3p)
  ms=$(printf '%s\n' "${times[@]}" | sort -n | sed -n 3p)
  echo "$name: an urgent response of 50 KB behind $of bytes of the others, after $ms ms" | tee -a "$work/log"
  [ "$of" -le $URGENT_LIMIT ]
}
not_urgent() { # PORT of a narrow way: the same response, as the others, comes behind most of them
  works "$work/urgent" "$1" "$cert" usual && cp "$work/got" "$work/log" && [ "$(cut -d' ' -f1 "$work/got")" -gt $((5 * URGENT_LIMIT)) ]
}
start "${ports[16]}" gtls.log gtlsserver -q -d "$folder" 127.0.0.1 "${ports[16]}" "$key" "$cert"
start "${ports[17]}" slow_ours.log python3 scripts/interop/narrow.py "${ports[17]}" "${ports[4]}" 500000
start "${ports[18]}" slow_gtls.log python3 scripts/interop/narrow.py "${ports[18]}" "${ports[16]}" 500000
beside="beside 20 downloads over 500 KB a second: at most 200,000 bytes of them come before it is whole"
check "gtlsserver: an urgent response, by its field, $beside" urgent "gtlsserver, by its field" "${ports[18]}"
check "serve: an urgent response, by its field, $beside" urgent "serve, by its field" "${ports[17]}"
check "serve: an urgent response, by PRIORITY_UPDATE, $beside" urgent "serve, by PRIORITY_UPDATE" "${ports[17]}" updated
check "serve: the same response, as urgent as they are: a million bytes of them come before it is whole" not_urgent "${ports[17]}"

# ---- WebSockets ----

websockets() { # PORT: RFC 9220, section 3
  running "$1" websocket.log "$work/checked/websocket" 127.0.0.1 "$1" "$cert" "$key"
  local websocket=$last protocol
  for protocol in chat connect-udp webtransport; do
    check "websocket: :protocol $protocol gives 501" says "501 0 ended" "$work/tunnel" "$cert" "$1" "$protocol" /echo none 0
  done
  check "websocket: another version of WebSockets, or none, gives 400" says "400 0 ended" "$work/tunnel" "$cert" "$1" websocket /echo none 0
  check "websocket: GET gives 404" refuses "status 404" "${ours[@]}" "$(url "$1" /)"
  check "websocket: a message of 50,000 bytes" gives "$folder/part.bin" "$work/checked/websocket_client" "$cert" 127.0.0.1 "$1" localhost / \
    "$folder/part.bin"
  kill -TERM "$websocket"
  check "websocket: it ends" ended "$websocket" 40
  check "websocket: no leak and no error of memory" is_silent websocket.log
}
if [ -x "$work/checked/websocket" ]; then websockets "${ports[19]}"; else echo "skipped websocket: there is no libwslay-dev"; fi

# ---- the end ----

ends_beside_pings() { # PORT, PROCESS, what a new client is told
  "${hostile[@]}" "127.0.0.1:$1" pings 30 > "$work/pings" &
  local client=$!
  await "$work/pings" there || return 1
  kill -TERM "$2"
  sleep 0.5
  says "$3" "${hostile[@]}" "127.0.0.1:$1" first || return 1
  wait "$client"
  cp "$work/pings" "$work/log"
  grep -q "Application error 0x100" "$work/pings" && ended "$2" 12
}
serving "${ports[6]}" pings.log "$serve"
check "serve: SIGTERM beside a client that pings: the end within 12 s, new clients are refused" ends_beside_pings "${ports[6]}" "$last" \
  "refused: CONNECTION_REFUSED"
go_serving() { running "$1" "$2" "$work/h3go" serve "127.0.0.1:$1" "$cert" "$key" "$folder"; } # PORT, LOG
build make -s -C examples/go LIB="$lib" OUT="$work"
go_serving "${ports[12]}" go_pings.log
check "h3go: SIGTERM beside a client that pings: the end within 12 s" ends_beside_pings "${ports[12]}" "$last" taken
rejects_late() { # PROCESS, PORT: a client that goes on whatever GOAWAY says
  within 30 "${hostile[@]}" "127.0.0.1:$2" late 5 > "$work/late" &
  local client=$!
  await "$work/late" there || return 1
  kill -TERM "$1"
  wait "$client"
  local status=$?
  tail -n 1 "$work/late" | tee -a "$work/log"
  return $status
}
# leaves NAME, PROCESS, PORT, another port where there is such a server, too
leaves() {
  check "$1: SIGTERM under 1,000 requests of four clients: none is lost" loses_none "$2" "$3" "$4"
  check "$1: it ends then" ended "$2" 20
}
serving "${ports[10]}" leaves.log "$serve"
process=$last
serving "${ports[11]}" late.log "$serve"
late=$last
leaves serve "$process" "${ports[10]}" "${ports[11]}"
check "serve: what is below the last GOAWAY is answered, all else rejected" rejects_late "$late" "${ports[11]}"
go_serving "${ports[13]}" go_leaves.log
process=$last
go_serving "${ports[14]}" go_late.log
late=$last
leaves h3go "$process" "${ports[13]}" "${ports[14]}"
check "h3go: what is below the last GOAWAY is answered, all else rejected" rejects_late "$late" "${ports[14]}"
ends_in_time() { # PORT, PROCESS
  within 30 "$work/peer" slow "$cert" 100000 "$(url "$1" /big.bin)" > "$work/got" &
  local client=$!
  sleep 1
  kill -TERM "$2"
  ended "$2" 4
  local status=$?
  wait "$client"
  return $status
}
serving "${ports[7]}" drain.log "$serve" --drain 2
check "serve --drain 2: the end within 4 s beside a slow reader" ends_in_time "${ports[7]}" "$last"
kill -TERM "$server" 
check "serve: it ends" ended "$server" 40
for log in serve.log operated.log limited.log pings.log drain.log leaves.log late.log; do check "serve: no leak and no error of memory, $log" is_silent "$log"; done
[ "$failed" -eq 0 ]
