#!/usr/bin/env bash
# upstream.sh root: makes in build/trixie, once, a root of Debian 13 (as root; some 5 minutes, 2 GB) with its cargo, rustc and Rust crates h3 0.0.6 and quinn,
#   and with the peers of scripts/interop/interop_peers.sh: curl, aioquic, nginx, haproxy, and the programs of ngtcp2. What a root that is there lacks is added.
# upstream.sh there: is the root there, with the Rust crate?
# upstream.sh peers: is it there, with the peers?
# upstream.sh curl: is it there, with what runs over the drop-in for nghttp3?
# upstream.sh example FOLDER: compiles examples/rust/quinn there, over the library of FOLDER: /root/example/target/release/h3_over_quinn of the root
# upstream.sh quinn: compiles scripts/interop/quinn there, h3 over quinn (a minute or four, once): /root/quinn/target/release/quinn_peer of the root
# upstream.sh: compares what h3 answers with what we do, over the same bytes (scripts/interop/upstream.py): lines 'ok NAME' and 'failed NAME'.
set -euo pipefail
cd "$(dirname "$0")/../.."
root=build/trixie

packages=(cargo rustc librust-h3-dev librust-h3-quinn-dev librust-rustls-pemfile-dev curl python3-aioquic python3-wsproto nginx haproxy
  ngtcp2-client ngtcp2-server libnghttp3-dev)

has() { # FILE..: of the root
  local file
  for file; do [ -e "$root/$file" ] || return 1; done
}
has_crate() { has usr/bin/cargo usr/share/cargo/registry; }
has_quinn() { has usr/share/cargo/registry/h3-quinn-0.0.7 usr/share/cargo/registry/rustls-pemfile-2.2.0; }
has_curl() { has usr/bin/curl usr/bin/gtlsclient usr/sbin/gtlsserver usr/sbin/nginx usr/include/nghttp3/nghttp3.h; }
has_peers() {
  has_quinn && has usr/bin/curl usr/lib/python3/dist-packages/aioquic usr/lib/python3/dist-packages/wsproto usr/sbin/nginx usr/sbin/haproxy \
    usr/bin/gtlsclient usr/sbin/gtlsserver
}

make_root() {
  if has_crate && has_peers && has_curl; then return; fi
  bash scripts/dev/packages.sh upstream
  [ "$(id -u)" -eq 0 ] || { echo "a root of Debian is made by root alone" >&2; return 1; }
  if [ ! -d "$root" ]; then
    rm -rf "$root.part"
    mkdir -p build
    debootstrap --variant=minbase trixie "$root.part" http://deb.debian.org/debian
    printf '#!/bin/sh\nexit 101\n' > "$root.part/usr/sbin/policy-rc.d" # no package starts a service
    chmod +x "$root.part/usr/sbin/policy-rc.d"
    mv "$root.part" "$root"
  fi
  chroot "$root" env DEBIAN_FRONTEND=noninteractive apt-get install -y --no-install-recommends "${packages[@]}"
}

# compile NAME: the program of scripts/interop/NAME, compiled inside of that root from Debian's packages alone
compile() {
  mkdir -p "$root/root/$1/.cargo"
  cp -r "scripts/interop/$1/." "$root/root/$1"
  cat > "$root/root/$1/.cargo/config.toml" <<'CONFIG'
[source.crates-io]
replace-with = "debian"
[source.debian]
directory = "/usr/share/cargo/registry"
CONFIG
  chroot "$root" sh -c "cd /root/$1 && cargo build --quiet --release --offline --jobs 2" >&2
}

# compile_example FOLDER: the same of examples/rust/quinn, with the crate beanwhile-h3 and the archives of FOLDER inside of it, as a release has them
compile_example() {
  local at=$root/root/example
  local native=$at/bindings/rust/native/x86_64-unknown-linux-gnu
  rm -rf "$at/bindings" "$at/examples/rust/quinn/src"
  mkdir -p "$at/examples/rust" "$native"
  cp -r bindings/rust "$at/bindings"
  cp -r examples/rust/quinn "$at/examples/rust"
  cp "$1"/libbeanwhile_h3.a "$1"/libbeanwhile_h3_shim.a "$native"
  chroot "$root" sh -c "cd /root/example/examples/rust/quinn && cargo build --quiet --release --offline --jobs 2 --target-dir /root/example/target \
    --config 'source.crates-io.replace-with=\"debian\"' --config 'source.debian.directory=\"/usr/share/cargo/registry\"'" >&2
}

case ${1:-} in
  root) make_root ;;
  there) has_crate ;;
  peers) has_peers ;;
  curl) has_curl ;;
  quinn) compile quinn ;;
  example) compile_example "$2" ;;
  *)
    compile upstream
    ours=${OURS:-$(python3 scripts/dev/talk.py --program h3_cases)} # the proved program, or one that is compiled without its proofs
    echo "ours: $ours"
    python3 scripts/interop/upstream.py "chroot $root /root/upstream/target/release/upstream" "$ours"
    ;;
esac
