# checks.sh, for interop_*.sh of this folder to read in at the top of the repository: what a check is, servers that are ended at the end, a folder
# that is served and a certificate. Each check prints 'ok NAME' or 'failed NAME'. Sets `work`, a folder that is removed at the end.
work=$(mktemp -d)
failed=0
pids=()

end_servers() {
  local pid
  for pid in "${pids[@]}"; do kill "$pid" 2> /dev/null && wait "$pid" 2> /dev/null; done
  pids=()
}
leave() {
  end_servers
  rm -rf "$work"
}
trap leave EXIT

good() { echo "ok $1"; }
bad() {
  echo "failed $1"
  failed=$((failed + 1))
  [ ! -s "$work/log" ] || tail -n 5 "$work/log" | sed 's/^/  /' >&2
}
# check NAME COMMAND..
check() {
  local name=$1
  shift
  : > "$work/log"
  if "$@"; then good "$name"; else bad "$name"; fi
}
within() { timeout -k 5 "$@" 2>> "$work/log"; }
hash_of() { sha256sum "$1" | cut -d' ' -f1; }
# gives FILE COMMAND..: the command ends well within a minute and prints the bytes of the file
gives() {
  local file=$1
  shift
  within 60 "$@" > "$work/got" && [ "$(hash_of "$work/got")" = "$(hash_of "$file")" ]
}
# works COMMAND..: the command ends well within a minute
works() { within 60 "$@" > "$work/got"; }
# refuses TEXT COMMAND..: the command ends with 1, and says this
refuses() {
  local text=$1
  shift
  within 60 "$@" > "$work/got"
  [ $? -eq 1 ] && grep -q -- "$text" "$work/log"
}
# own_session PORT: webtransport_client at a server of sessions, with 103 files. Each is answered on its stream both ways, and, by the path, on one of the
# server's both ways or one way; its name comes back as a datagram
own_session() {
  local way path files
  : > "$work/none"
  files=("$work/none" "$folder/hello.txt" "$big" "$folder"/small/*.txt)
  paste -d' ' <(stat -c %s "${files[@]}") <(sha256sum "${files[@]}" | cut -d' ' -f1) > "$work/answers"
  for way in one back; do
    if [ "$way" = back ]; then path=/both; else path=/; fi
    timeout -k 5 60 "$work/checked/webtransport_client" "$cert" 127.0.0.1 "$1" localhost "$path" "${files[@]}" > "$work/told" 2>> "$work/log" || return 1
    { sed 's/^/both /' "$work/answers"; sed "s/^/$way /" "$work/answers"; printf 'datagram %s\n' "${files[@]}"; } | sort > "$work/wanted"
    sort "$work/told" | diff - "$work/wanted" >> "$work/log" || return 1
  done
}
# build COMMAND..: what the checks stand on
build() {
  : > "$work/log"
  if "$@" >> "$work/log" 2>&1; then return; fi
  bad "build: $*"
  exit 1
}

# make_examples: those in C, with sanitizers, and in Go, over the library in the folder `lib`
make_examples() {
  if ! bash scripts/dev/packages.sh examples-c examples-go || ! bash scripts/dev/need.sh library "$lib"; then
    bad "what the examples stand on"
    exit 1
  fi
  export PKG_CONFIG_PATH=$lib GO111MODULE=off GOPATH=/usr/share/gocode GOCACHE=${GOCACHE:-$work/go}
  build make -s -C examples/c LIB="$lib" OUT="$work/checked" CFLAGS="-O1 -g -fsanitize=address,undefined -fno-sanitize-recover=undefined"
  build make -s -C examples/go LIB="$lib" OUT="$work"
}

# make_served: the folder that is served, a certificate with its key, and what some answers are
make_served() {
  folder=$work/folder
  cert=$work/cert.pem
  key=$work/key.pem
  build openssl req -x509 -newkey ec -pkeyopt ec_paramgen_curve:P-256 -nodes -keyout "$key" -out "$cert" -days 13 -subj /CN=localhost \
    -addext 'subjectAltName=DNS:localhost,IP:127.0.0.1,IP:::1'
  build python3 scripts/interop/folder.py "$folder"
  big=$folder/big.bin
  echo "10000000 $(hash_of "$big")" > "$work/posted"
  for _ in $(seq 1000); do cat "$folder/hello.txt"; done > "$work/thousand"
}

listens() { grep -qi ":$(printf %04X "$1") " /proc/net/udp /proc/net/udp6 2>/dev/null; }
# A server for ten minutes at most, and 45 seconds after the signal that ends it: it stays while a connection does, and one whose close is lost
# lasts until its idle timeout, 30 seconds. In the foreground, since `timeout` would else signal its
# whole group, twice, and LeakSanitizer, which looks for leaks at a program's end from a process of its own, may then never end.
limited() { exec timeout --foreground -k 45 600 "$@"; }
# start PORT LOG COMMAND..: a server in the background, until it listens; `last` is its process
start() {
  local port=$1 log=$2
  shift 2
  limited "$@" > "$work/$log" 2>&1 &
  last=$!
  pids+=("$last")
  for _ in $(seq 600); do # under valgrind, on a busy machine
    if listens "$port"; then return; fi # the kernel's list may lack a port when it is read while it changes: once is enough
    kill -0 "$last" 2> /dev/null || break
    sleep 0.1
  done
  cp "$work/$log" "$work/log"
  bad "a server that listens: $*"
}
# stop PROCESS: ends a server, and answers as it ended
stop() {
  kill -TERM "$1" && wait "$1"
}
# relay PORT TO: a way to a server on which packets are lost, and come in another order
relay() { start "$1" "relay$1.log" python3 scripts/interop/relay.py "$1" "$2"; }
url() { echo "https://localhost:$1$2"; }
chromium_sees() { # PORT, PATH of a page, and perhaps a PORT of WebSockets: what it says in the end stands in $work/seen
  local spki
  spki=$(openssl x509 -in "$cert" -pubkey -noout | openssl pkey -pubin -outform der | openssl dgst -sha256 -binary | base64)
  within 60 env HOME="$work" chromium --headless=new --no-sandbox --user-data-dir="$work/profile$1" \
    --origin-to-force-quic-on="localhost:$1${3:+,localhost:$3}" --enable-features=EnableWebsocketsOverHttp3 \
    --ignore-certificate-errors-spki-list="$spki" --host-resolver-rules="MAP * 127.0.0.1" --disable-background-networking \
    --disable-gpu --virtual-time-budget=20000 --dump-dom "$(url "$1" "$2")" > "$work/page" || return 1
  sed -n '/id="seen"/,/<\/pre>/p' "$work/page" > "$work/seen"
  cat "$work/seen" > "$work/log"
}
# make_authority: a certificate `leaf.pem` that an authority vouches for, since Firefox takes none that vouches for itself
make_authority() {
  local request=(openssl req -newkey ec -pkeyopt ec_paramgen_curve:P-256 -nodes)
  build "${request[@]}" -x509 -keyout "$work/authority_key.pem" -out "$work/authority.pem" -days 13 -subj /CN=interop
  build "${request[@]}" -keyout "$work/leaf_key.pem" -out "$work/leaf.csr" -subj /CN=localhost
  printf 'subjectAltName=DNS:localhost,IP:127.0.0.1\nbasicConstraints=CA:FALSE\n' > "$work/leaf.ext"
  build openssl x509 -req -in "$work/leaf.csr" -CA "$work/authority.pem" -CAkey "$work/authority_key.pem" -CAcreateserial -days 13 \
    -extfile "$work/leaf.ext" -out "$work/leaf.pem"
}
firefox_sees() { # PORT of a server with that certificate, PATH of a page..: the same by Firefox
  local status
  rm -rf "$work/firefox"
  within 300 python3 scripts/interop/firefox.py "$1" "$work/authority.pem" "$work/firefox" "${@:2}" > "$work/seen"
  status=$?
  cat "$work/seen" >> "$work/log"
  return "$status"
}
# saw LINE..: each (a pattern) is one of those that a browser saw last
saw() {
  local line
  for line; do
    if ! sed 's/<[^>]*>//g' "$work/seen" | grep -qxE -- "$line"; then
      cp "$work/seen" "$work/log"
      return 1
    fi
  done
}
# session_page PORT FILE: the path of the page that opens sessions of WebTransport at this port, where a server shows the certificate FILE
session_page() {
  echo "/session.html?port=$1&hash=$(openssl x509 -in "$2" -outform der | openssl dgst -sha256 -binary | base64 | sed 's/+/%2B/g; s,/,%2F,g; s/=/%3D/g')"
}
# what that page says if all is well
saw_session() { saw ready "both ways true" "one way true" "datagram true" closed "back true"; }
# says_numbers LOG: the server of sessions has the numbers of an application with which that page resets its streams
says_numbers() {
  local number
  for number in 0 29 30 255; do
    if ! grep -q "number $number of the application$" "$work/$1"; then
      cp "$work/$1" "$work/log"
      return 1
    fi
  done
}
