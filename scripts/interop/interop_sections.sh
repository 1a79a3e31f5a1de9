#!/usr/bin/env bash
# Header sections up to the limits of the example servers in C and Go, and above them, beside a download of 10 MB on the same connection.
# A section within the limits is answered, a longer one gets 431, and the download stays whole. The clients are quic-go's, gtlsclient, Chromium,
# and curl of the root that `make upstream-root` leaves (build/trixie). fetch and the Go client send sections within the limits. curl also asks
# a server whose decoder has a table of another size than 4,096 bytes. Only loopback addresses are used. Each command has a time limit, and
# each server is ended. Prints 'ok NAME', 'failed NAME' or 'skipped NAME' for each check or group of checks. The library is that of the
# folder LIB (build/c, as `make lib` leaves it).
set -uo pipefail
cd "$(dirname "$0")/../.."
top=$PWD
lib=${LIB:-$top/build/c}
. scripts/interop/checks.sh

# ---- programs, and what is served ----

make_examples
build go build -o "$work/peer" scripts/interop/peer.go
build gcc -O1 -g -c -o "$work/table.o" scripts/interop/table.c
build make -s -C examples/c LIB="$lib" OUT="$work/tables" LDFLAGS="$work/table.o -Wl,--wrap=h3_raw_config_default"
make_served
mapfile -t ports < <(python3 scripts/interop/ports.py 5)
start "${ports[0]}" serve.log "$work/checked/serve" 127.0.0.1 "${ports[0]}" "$cert" "$key" "$folder"
start "${ports[1]}" h3go.log "$work/h3go" serve "127.0.0.1:${ports[1]}" "$cert" "$key" "$folder"

copies() { printf "$1%.0s" $(seq "$2"); } # TEXT COUNT

# ---- quic-go ----

quic_go() { # what the server is called, PORT
  : > "$work/log"
  within 60 "$work/peer" beside "$cert" "$big" "$(url "$2" /big.bin)" "$(url "$2" /hello.txt)" > "$work/cases"
  while read -r word case; do
    if [ "$word" = ok ]; then good "$1, quic-go beside 10 MB: $case"; else bad "$1, quic-go beside 10 MB: $case"; fi
  done < "$work/cases"
  [ -s "$work/cases" ] || bad "$1, quic-go beside 10 MB"
}

# ---- gtlsclient ----
# Its path is the one value that it is given. It reads at most 65,535 bytes of it before a '?', and as many after it.

gtls() { # PORT
  rm -rf "$work/down"
  mkdir "$work/down"
  within 60 gtlsclient --no-quic-dump --no-http-dump --exit-on-all-streams-close --download="$work/down" 127.0.0.1 "$1" \
    "$(url "$1" /big.bin)" "$(url "$1" "/$(copies a 50000)?$(copies a 50000)")" > /dev/null
  grep -q "^http: stream 0x4 \[:status: 431\]" "$work/log" && cmp -s "$work/down/big.bin" "$big"
}

# ---- curl, which writes a string in the Huffman code only where that is shorter ----

root=$top/build/trixie
there=/tmp/sections # of the root: what curl reads and writes
has_curl() { [ -x "$root/usr/bin/curl" ] && chroot "$root" curl --version | grep -q HTTP3; }
make_fields() {
  mkdir -p "$root$there"
  cp "$cert" "$root$there"
  echo "x-long: $(copies a 100000)" > "$root$there/100000"
  echo "x-long: $(copies 漢 20000)" > "$root$there/60000"
  for i in 1 2 3 4 5 6; do echo "x-long-$i: $(copies a 90000)"; done > "$root$there/540000"
}
curl_beside() { # STATUS, which fields, PORT. The download is slowed to two seconds, and the request is answered before it is whole.
  local options=(--silent --http3-only --curves X25519 --cacert $there/cert.pem -w '%{http_version} %{response_code} %{num_connects}\n')
  within 60 chroot "$root" curl -Z "${options[@]}" --limit-rate 5M -o $there/down "$(url "$3" /big.bin)" \
    --next "${options[@]}" -H "@$there/$2" -o $there/other "$(url "$3" /hello.txt)" > "$work/got"
  cp "$work/got" "$work/log"
  [ "$(tr '\n' ' ' < "$work/got")" = "3 $1 0 3 200 1 " ] && cmp -s "$root$there/down" "$big"
}

# ---- Chromium ----

browser() { # PORT, its status for a field of 60,000 bytes
  chromium_sees "$1" /sections.html && grep -q "60000 bytes: $2, beside the download$" "$work/seen" &&
    grep -q "^100000 bytes: 431, beside the download$" "$work/seen" && grep -q "^540000 bytes: 431, beside the download$" "$work/seen" &&
    grep -q "^download $(cat "$work/posted")$" "$work/seen" && grep -q "^afterwards: 200$" "$work/seen" && grep -q "^protocols h3<" "$work/seen"
}

# ---- fetch and the Go client, which write a string as it stands if its Huffman code is longer: that of this path takes 2.7 bytes for each ----

path="/hello.txt?$(copies 漢 20000)"
is_answered() { # TEXT, PORT: fetch says of what came, and that the request took so many bytes
  within 60 "$work/checked/fetch" --address 127.0.0.1 --trust "$cert" --verbose --sizes "$(url "$2" "$path")" > "$work/got"
  grep -q "^request of 60[0-9]\{3\} bytes$" "$work/log" && grep -q "^$1$" "$work/log"
}
go_says() { # TEXT, PORT
  within 60 "$work/h3go" fetch --verbose "$cert" "$(url "$2" "$path")" > "$work/got"
  grep -q "^status $1$" "$work/log"
}
# A list of fields above what the server announced is not sent (RFC 9114, section 4.2.2).
is_refused() { # PORT
  refuses "the request was refused" "$work/checked/fetch" --address 127.0.0.1 --trust "$cert" "$(url "$1" "/hello.txt?$(copies 漢 22000)")"
}

# ---- nghttp3's encoder, which errs where the table is of another size (compat/nghttp3/README.md) ----

make_requests() { # 300 with ever new fields, in turn: for each the options of curl, and PORT where its server's is to stand
  local i
  for ((i = 0; i < 300; i++)); do
    [ "$i" -eq 0 ] || echo next
    printf '%s\n' silent http3-only 'curves = "X25519"' "cacert = \"$there/cert.pem\"" 'output = "/dev/null"' "header = \"user-agent: agent number $i\"" \
      "header = \"x-a: value $((i / 2))\"" 'write-out = "%{http_version} %{response_code} %{num_connects}\n"' 'url = "https://localhost:PORT/hello.txt"'
  done > "$work/requests"
}
curl_asks() { # TABLE, PORT: how many connections the requests took, and how often the server found a fault of QPACK
  TABLE=$1 start "$2" "table$1.log" "$work/tables/serve" 127.0.0.1 "$2" "$cert" "$key" "$folder"
  sed "s/PORT/$2/" "$work/requests" > "$root$there/asked"
  within 60 chroot "$root" curl -K "$there/asked" > "$work/got"
  cp "$work/got" "$work/log"
  [ "$(grep -c "^3 200 [01]$" "$work/got")" -eq 300 ] || return 1
  connections=$(grep -c "^3 200 1$" "$work/got")
  faults=$(grep -c "^connection closed by the server: QPACK_DECOMPRESSION_FAILED$" "$work/table$1.log" || true)
}
is_whole() { curl_asks "$@" && [ "$connections" -eq 1 ] && [ "$faults" -eq 0 ]; }
# curl asks again on another connection. If this check fails, the fault is mended, and the pages that tell of it are to be changed.
is_lost() { curl_asks "$@" && [ "$connections" -gt 1 ] && [ "$faults" -eq $((connections - 1)) ]; }
tables() { # PORT, PORT, PORT
  make_requests
  check "serve with a table of 4,096 bytes, curl: 300 requests with new fields, on one connection" is_whole 4096 "$1"
  check "serve with no table, curl: 300 requests with new fields, on one connection" is_whole 0 "$2"
  check "serve with a table of 1,024 bytes, curl: nghttp3's encoder errs, and each connection ends with 0x200" is_lost 1024 "$3"
}

clients() { # what the server is called, PORT, its status for a path of 60 KB
  quic_go "$1" "$2"
  if command -v gtlsclient > /dev/null; then check "$1, gtlsclient beside 10 MB: a path of 100,000 bytes gives 431" gtls "$2"; fi
  if command -v chromium > /dev/null; then
    check "$1, Chromium beside 10 MB: fields of 100,000 and of 540,000 bytes give 431" browser "$2" 200
  fi
  check "$1, fetch: a path of 60,000 bytes, written as it stands" is_answered "status $3" "$2"
  check "$1, fetch: a path of 66,000 bytes is not sent" is_refused "$2"
  check "$1, Go client: a path of 60,000 bytes" go_says "$3" "$2"
  has_curl || return
  check "$1, curl beside 10 MB: a field of 100,000 bytes gives 431, on one connection" curl_beside 431 100000 "$2"
  check "$1, curl beside 10 MB: a field of 60,000 bytes, on one connection" curl_beside 200 60000 "$2"
  check "$1, curl beside 10 MB: fields of 540,000 bytes give 431, on one connection" curl_beside 431 540000 "$2"
}

if has_curl; then make_fields; else echo "skipped curl: there is none with HTTP/3 in build/trixie (make upstream-root)"; fi
command -v chromium > /dev/null || echo "skipped Chromium: $(bash scripts/dev/packages.sh interop 2>&1)"
command -v gtlsclient > /dev/null || echo "skipped gtlsclient: $(bash scripts/dev/packages.sh interop 2>&1)"
clients serve "${ports[0]}" 414 # a path of more than 4,096 bytes (RFC 9110, section 15.5.15)
clients "Go server" "${ports[1]}" 200
if has_curl; then tables "${ports[@]:2}"; fi
if has_curl; then rm -rf "${root:?}$there"; fi

# the servers end, and LeakSanitizer looks
ends_silently() {
  end_servers
  ! grep -qE "Sanitizer|runtime error|panic|DATA RACE" "$work/serve.log" "$work/h3go.log"
}
check "our servers: no leak, no panic and no error of memory" ends_silently
[ "$failed" -eq 0 ]
