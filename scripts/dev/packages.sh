#!/usr/bin/env bash
# packages.sh SET..: are the Debian packages there that a command wants? Names all that are missing at once, with the line that installs them.
# The sets: c (what `make test-c` is built with), peer (what bench/ is built with), examples-c, examples-go and examples-rust (what the programs of
# examples/ are), examples (all of these), compat (what the drop-in for nghttp3 is built with), interop (what `make interop` runs them against),
# firefox (what it runs where that is there), proxy (what the proxy is checked with), load (`make load`), upstream (`make upstream-root`), count (`make bench-instructions`).
set -uo pipefail

missing=()
need() { # PACKAGE, and a command or file of it
  if [ "${2#/}" = "$2" ] && command -v "$2" >/dev/null; then return; fi
  [ -e "$2" ] || missing+=("$1")
}
GO_SOURCE=/usr/share/gocode/src/github.com/lucas-clemente/quic-go
sets=" $* "
for set in ${sets// examples / examples-c examples-go examples-rust }; do
  case $set in
    peer)
      for name in nghttp3 nghttp2; do
        need "lib$name-dev" "/usr/include/$name/$name.h"
        need "lib$name-dev" "$(gcc -print-file-name="lib$name.a" 2>/dev/null)"
      done
      ;;
    count)
      need valgrind valgrind
      ;;
    compat)
      need libnghttp3-dev /usr/include/nghttp3/nghttp3.h
      ;;
    c)
      need gcc "${CC:-cc}"
      need g++ "${CXX:-c++}"
      need python3 python3
      ;;
    examples-*)
      need gcc gcc
      need make make
      need pkg-config pkg-config
      ;;&
    examples-rust)
      need rustc rustc
      ;;
    examples-c)
      need openssl openssl
      need libgnutls28-dev /usr/include/gnutls/gnutls.h
      need libngtcp2-dev /usr/include/ngtcp2/ngtcp2.h
      need libngtcp2-crypto-gnutls-dev /usr/include/ngtcp2/ngtcp2_crypto_gnutls.h
      ;;
    examples-go)
      need golang-go go
      need golang-github-lucas-clemente-quic-go-dev $GO_SOURCE
      ;;
    proxy)
      need python3 python3
      need ngtcp2-server gtlsserver
      need ngtcp2-client gtlsclient
      ;;
    interop)
      need python3 python3
      need valgrind valgrind
      need ngtcp2-server gtlsserver
      need ngtcp2-client gtlsclient
      need caddy caddy
      need chromium chromium
      need libwslay-dev /usr/include/wslay/wslay.h
      ;;
    firefox)
      need firefox-esr firefox-esr
      need libnss3-tools certutil
      ;;
    upstream)
      need debootstrap /usr/sbin/debootstrap
      ;;
    load)
      need python3 python3
      need libnghttp3-dev /usr/include/nghttp3/nghttp3.h
      need ngtcp2-server gtlsserver
      need caddy caddy
      ;;
  esac
done
[ ${#missing[@]} -eq 0 ] && exit 0
mapfile -t missing < <(printf '%s\n' "${missing[@]}" | sort -u)
echo "missing: ${missing[*]} (Debian: apt-get install ${missing[*]})" >&2
exit 1
