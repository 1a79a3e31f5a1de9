#!/usr/bin/env bash
# roots.sh: makes in build/roots, as root, clean roots of Debian 12 (bookworm) and Debian 13 (trixie) for scripts/dist/test-dist.sh: the
# least that Debian has, with the compilers of C, C++, Rust and Go, Python, and a QUIC library and clients of HTTP/3. They have no kit and
# nothing of this repository. What a root that is there lacks is added. The two take some 4 GB. roots.sh there NAME: is the root there?
set -euo pipefail
cd "$(dirname "$0")/../.."
roots=build/roots
languages=(gcc g++ make cmake pkg-config cargo rustc golang-go python3 python3-venv python3-pip)
declare -A others=(
  [bookworm]="openssl libngtcp2-dev libngtcp2-crypto-gnutls-dev libgnutls28-dev ngtcp2-client golang-github-lucas-clemente-quic-go-dev"
  [trixie]="openssl libngtcp2-dev libngtcp2-crypto-gnutls-dev libgnutls28-dev curl golang-github-lucas-clemente-quic-go-dev
    librust-quinn-dev librust-rustls-dev librust-rustls-pemfile-dev librust-tokio-dev librust-ring-dev librust-http-dev"
)

make_root() { # NAME
  local root=$roots/$1
  if [ ! -d "$root" ]; then
    rm -rf "$root.part"
    debootstrap --variant=minbase "$1" "$root.part" http://deb.debian.org/debian
    printf '#!/bin/sh\nexit 101\n' > "$root.part/usr/sbin/policy-rc.d" # no package starts a service
    chmod +x "$root.part/usr/sbin/policy-rc.d"
    mv "$root.part" "$root"
  fi
  # shellcheck disable=SC2086
  chroot "$root" env DEBIAN_FRONTEND=noninteractive LC_ALL=C apt-get install -y --no-install-recommends "${languages[@]}" ${others[$1]}
  chroot "$root" apt-get clean
  touch "$root/.whole"
}

if [ "${1:-}" = there ]; then
  [ -e "$roots/$2/.whole" ]
  exit
fi
command -v debootstrap > /dev/null || { echo "missing: debootstrap (Debian: apt-get install debootstrap)" >&2; exit 1; }
[ "$(id -u)" -eq 0 ] || { echo "a root of Debian is made by root alone" >&2; exit 1; }
mkdir -p "$roots"
for name in bookworm trixie; do make_root "$name"; done
