#!/usr/bin/env bash
# The example servers under load, over loopback: GETs of 6 bytes, by nghttp3 over examples/c/quic.c (scripts/bench/load.c). The C server beside
# gtlsserver (ngtcp2 and nghttp3), the Go server beside Caddy (quic-go), and, if `make upstream-root` made a root of Debian 13, the proxy in C
# beside haproxy, each before a server of that file: `serve`, and nginx by HTTP/1.1; and haproxy alone, which answers from its memory. Prints a
# table: the median of ROUNDS (5), in each of which every server has its turn; REQUESTS (30000) a turn, each at most a minute. The time of the
# servers behind the proxies is not counted. The library is taken from the folder LIB (build/c, as `make lib` leaves it).
set -euo pipefail
cd "$(dirname "$0")/../.."
lib=$(realpath -m "${LIB:-build/c}")
rounds=${ROUNDS:-5}
requests=${REQUESTS:-30000}
bash scripts/dev/packages.sh examples load
[ -e "$lib/libbeanwhile_h3.a" ] || { echo "there is no $lib/libbeanwhile_h3.a: make lib" >&2; exit 1; }

work=$(mktemp -d)
pids=()
leave() {
  for pid in "${pids[@]}"; do kill "$pid" 2>/dev/null || true; done
  wait
  rm -rf "$work" "${there:+$root$there}"
}
trap leave EXIT
root=build/trixie
there=

# ---- programs, and what is served ----

export PKG_CONFIG_PATH=$lib GOCACHE=${GOCACHE:-$work/go}
make -s -C examples/c LIB="$lib" OUT="$work"
make -s -C examples/go LIB="$lib" OUT="$work"
gcc -O2 -std=c11 -D_GNU_SOURCE -Wall -Wextra -Iexamples/c -o "$work/load" scripts/bench/load.c examples/c/quic*.c \
  examples/c/timers.c examples/c/tls.c examples/c/buffer.c \
  -l:libnghttp3.a $(pkg-config --cflags --libs libngtcp2 libngtcp2_crypto_gnutls gnutls)
cert=$work/cert.pem
key=$work/key.pem
openssl req -x509 -newkey ec -pkeyopt ec_paramgen_curve:P-256 -nodes -keyout "$key" -out "$cert" -days 13 -subj /CN=localhost \
  -addext 'subjectAltName=DNS:localhost,IP:127.0.0.1' 2> /dev/null
folder=$work/folder
mkdir "$folder"
echo hello > "$folder/hello.txt"

# ---- servers ----

mapfile -t ports < <(python3 scripts/interop/ports.py 8)
listens() { grep -qi ":$(printf %04X "$1") " /proc/net/udp /proc/net/udp6 2>/dev/null; }
start() { # PORT, COMMAND..
  local port=$1
  shift
  "$@" > "$work/log$port" 2>&1 &
  pids+=("$!")
  for _ in $(seq 100); do
    if listens "$port"; then return; fi
    sleep 0.1
  done
  cat "$work/log$port" >&2
  exit 1
}
cat > "$work/Caddyfile" <<CADDY
{
	admin off
	auto_https off
	default_bind 127.0.0.1
}
https://localhost:${ports[3]} {
	tls $cert $key
	root * $folder
	file_server
}
CADDY
start "${ports[0]}" "$work/serve" --requests 0 127.0.0.1 "${ports[0]}" "$cert" "$key" "$folder"
start "${ports[1]}" gtlsserver -q -d "$folder" 127.0.0.1 "${ports[1]}" "$key" "$cert"
start "${ports[2]}" "$work/h3go" serve -requests 0 "127.0.0.1:${ports[2]}" "$cert" "$key" "$folder"
start "${ports[3]}" env HOME="$work" caddy run --config "$work/Caddyfile" --adapter caddyfile
names=("serve (C)" "gtlsserver" "h3go serve" "Caddy")
at=("${ports[@]:0:4}")
servers=("${pids[@]}")

measured() { # NAME, PORT: the server that was started last is measured
  names+=("$1")
  at+=("$2")
  servers+=("${pids[-1]}")
}
# haproxy and nginx of Debian 13, each in the foreground and, as the others in C, on one processor
debian13() {
  there=/root/load
  mkdir -p "$root$there"
  cp -r "$folder" "$root$there"
  cat "$cert" "$key" > "$root$there/both.pem"
  cat > "$root$there/nginx.conf" <<NGINX
daemon off;
user root;
worker_processes 1;
pid $there/nginx.pid;
error_log $there/error.log;
events { worker_connections 1000; }
http {
  access_log off;
  open_file_cache max=10;
  keepalive_requests 1000000000;
  server { listen 127.0.0.1:$((ports[7])); root $there/folder; }
}
NGINX
  for name in front alone; do
    cat > "$root$there/$name.cfg" <<HAPROXY
global
  limited-quic
  nbthread 1
  maxconn 1000
defaults
  mode http
  timeout connect 10s
  timeout client 60s
  timeout server 60s
frontend h3
  bind quic4@127.0.0.1:$(if [ $name = front ]; then echo "${ports[5]}"; else echo "${ports[6]}"; fi) ssl crt $there/both.pem alpn h3
HAPROXY
  done
  echo "  http-request return status 200 content-type text/plain file $there/folder/hello.txt" >> "$root$there/alone.cfg"
  printf '  default_backend files\nbackend files\n  http-reuse always\n  server nginx 127.0.0.1:%s\n' "${ports[7]}" >> "$root$there/front.cfg"
  start "${ports[4]}" "$work/proxy" --trust "$cert" 127.0.0.1 "${ports[4]}" "$cert" "$key" 127.0.0.1 "${ports[0]}" localhost
  measured "proxy (C), before serve" "${ports[4]}"
  chroot "$root" nginx -c "$there/nginx.conf" 2> "$work/nginx" &
  pids+=("$!")
  start "${ports[5]}" chroot "$root" haproxy -db -f "$there/front.cfg"
  measured "haproxy, before nginx" "${ports[5]}"
  start "${ports[6]}" chroot "$root" haproxy -db -f "$there/alone.cfg"
  measured "haproxy alone" "${ports[6]}"
}
if [ -x "$root/usr/sbin/haproxy" ] && [ -x "$root/usr/sbin/nginx" ]; then debian13; fi

# ---- the measurement ----

echo "load of the machine at the start: $(cut -d' ' -f1 /proc/loadavg)" >&2
for round in $(seq "$rounds"); do
  for i in "${!names[@]}"; do
    for shape in "1 100" "50 10"; do
      said=$("$work/load" 127.0.0.1 "${at[i]}" "$cert" /hello.txt $shape "$requests" 60 "${servers[i]}") || { echo "${names[i]}, $shape: $said" >&2; exit 1; }
      echo "$said" >> "$work/rows-$i-${shape% *}"
    done
  done
  echo "round $round of $rounds" >&2
done
median() { sort -n | sed -n "$(((rounds + 1) / 2))p"; }
echo "| Server | one connection, 100 at once: requests a second | us of processor a request | 50 connections, 10 at once each: requests a second | us of processor a request |"
echo "|---|---|---|---|---|"
for i in "${!names[@]}"; do
  row="| ${names[i]} |"
  for shape in 1 50; do
    row="$row $(cut -d' ' -f1 "$work/rows-$i-$shape" | median) | $(cut -d' ' -f2 "$work/rows-$i-$shape" | median) |"
  done
  echo "$row"
done
