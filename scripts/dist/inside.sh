#!/usr/bin/env bash
# inside.sh: runs in a clean root of Debian, as root and with no network, in the folder that scripts/dist/test-dist.sh filled: artefacts in
# dist/, examples/start in start/, docs/INSTALL.md. Each language's commands of that page are run as they stand there, and have to print what
# start/printed has. Then what else the artefacts hold. Prints 'ok NAME', 'failed NAME: ..' or 'skipped NAME: ..'.
set -uo pipefail
cd "$(dirname "$0")"
top=$PWD
. /etc/os-release
release="Debian $VERSION_ID"
export LC_ALL=C.UTF-8 DEBIAN_FRONTEND=noninteractive HOME=$top CARGO_NET_OFFLINE=true
export CARGO_PROFILE_DEV_DEBUG=0 CARGO_PROFILE_TEST_DEBUG=0 # which compiles sooner
export GOFLAGS=-mod=mod GOPROXY=off GOTOOLCHAIN=local GOCACHE=$top/go-cache GOPATH=$top/go-path

check() { # NAME COMMAND..
  local name=$1
  shift
  if "$@" > "$top/log" 2>&1; then
    echo "ok $release: $name"
  else
    echo "failed $release: $name: $(tail -n 6 "$top/log" | tr '\n' ' ' | cut -c 1-600)"
  fi
}

# the block of commands of docs/INSTALL.md behind the line `<!-- start NAME -->`
commands_of() {
  awk -v mark="<!-- start $1 -->" '
    $0 == mark { found = 1; next }
    found && /^```/ { if (inside) exit; inside = 1; next }
    found && inside' "$top/INSTALL.md"
}

# start NAME FILE TO: the page's commands, in a folder with the program of that language as FILE and with the artefacts
start() {
  local name=$1 program=$2 to=$3 folder=$top/$1 lines
  mkdir -p "$folder/$(dirname "$to")"
  cp "$top/start/$program" "$folder/$to"
  cp "$top"/dist/* "$folder"
  cd "$folder" || return 1
  case $name in
    rust) printf '[package]\nname = "main"\nversion = "1.0.0"\nedition = "2021"\n' > Cargo.toml ;;
    go) printf 'module main\n\ngo 1.19\n' > go.mod ;;
  esac
  lines=$(commands_of "$name")
  if [ "$(grep -c . <<< "$lines")" -ne 3 ]; then
    echo "docs/INSTALL.md has not three commands for $name"
    return 1
  fi
  bash -euo pipefail -c "$lines" > "$folder/said" || return 1
  if ! tail -n "$(wc -l < "$top/start/printed")" "$folder/said" | cmp - "$top/start/printed"; then
    tail -n 6 "$folder/said"
    return 1
  fi
}

checksums() {
  cd "$top/dist" && sha256sum --quiet -c SHA256SUMS
}

# the tarball: its own checksums, and programs by pkg-config and CMake in the folder where it was unpacked
unpack() {
  mkdir -p "$top/tarball" && tar xzf "$top"/dist/beanwhile-h3-*-linux-*.tar.gz -C "$top/tarball" --strip-components=1 &&
    cd "$top/tarball" && sha256sum --quiet -c SHA256SUMS
}
by_pkg_config() { # PACKAGE
  local flags libdir
  export PKG_CONFIG_PATH=$top/tarball/lib/pkgconfig
  flags=$(pkg-config --cflags --libs "$1") && libdir=$(pkg-config --variable=libdir "$1") || return 1
  # shellcheck disable=SC2086
  cc -std=c11 -o "$top/program" "$top/start/main.c" $flags "-Wl,-rpath,$libdir" && "$top/program" | cmp - "$top/start/printed"
}
by_cmake() { # TARGET, and where CMake looks
  rm -rf "$top/cmake"
  mkdir -p "$top/cmake"
  cat > "$top/cmake/CMakeLists.txt" <<END
cmake_minimum_required(VERSION 3.10)
project(program C)
find_package(beanwhile-h3 1.0 CONFIG REQUIRED)
add_executable(program "$top/start/main.c")
target_link_libraries(program PRIVATE beanwhile::$1)
END
  cmake -S "$top/cmake" -B "$top/cmake/out" ${2:+"-DCMAKE_PREFIX_PATH=$2"} && cmake --build "$top/cmake/out" &&
    "$top/cmake/out/program" | cmp - "$top/start/printed"
}

# the Debian packages: a program over the shared library, which asks for the package that has it
shared_of_debian() {
  local flags
  flags=$(pkg-config --cflags --libs beanwhile-h3-shared) || return 1
  # shellcheck disable=SC2086
  cc -std=c11 -o "$top/program" "$top/start/main.c" $flags && "$top/program" | cmp - "$top/start/printed" &&
    [ "$(readelf -d "$top/program" | grep -c 'NEEDED.*libbeanwhile_h3.so')" -eq 1 ]
}
whole() {
  local said
  said=$(dpkg -V libbeanwhile-h3-1 libbeanwhile-h3-dev) && [ -z "$said" ] &&
    [ "$(dpkg-query -W -f '${db:Status-Status}' libbeanwhile-h3-dev)" = installed ]
}

cpp_tests() { # VERSION
  local flags
  flags=$(pkg-config --cflags --libs beanwhile-h3) || return 1
  # shellcheck disable=SC2086
  c++ "-std=c++$1" -Wall -Wextra -Wconversion -Werror -o "$top/program" "$top/endpoint.cpp" $flags && "$top/program"
}

# the tests of the packages themselves
rust_tests() {
  cd "$top"/rust/beanwhile-h3-*/ && cargo test --offline --quiet --target-dir "$top/rust/target"
}
# with the feature `http`, by a crate that asks for it, over Debian's crates
debian_crates=(--config 'source.crates-io.replace-with="debian"' --config 'source.debian.directory="/usr/share/cargo/registry"')
rust_http_tests() {
  mkdir -p "$top/http/src" && cd "$top/http" && echo 'fn main() {}' > src/main.rs && cp -r "$top"/rust/beanwhile-h3-*/ beanwhile-h3 &&
    printf '[package]\nname = "main"\nversion = "1.0.0"\nedition = "2021"\n' > Cargo.toml &&
    cargo add --offline --path beanwhile-h3 --features http "${debian_crates[@]}" &&
    cargo test --offline -p beanwhile-h3 "${debian_crates[@]}" > "$top/http/said" 2>&1 && grep -q '^test several_cookies_are_one ... ok' "$top/http/said"
}
python_tests() { # in the environment that the page's commands made
  "$top/python/env/bin/python" -B -W error -m unittest discover -s "$top/python-tests/tests"
}
go_tests() {
  cd "$top"/go/beanwhile-h3-go-*/ && go vet . && go test -count=1 .
}
go_vendored() {
  cd "$top/go" && go mod vendor && go run -mod=vendor . | cmp - "$top/start/printed"
}
relinked() { # a program is linked again when the archive inside of the crate changes
  local archive
  archive=$(echo "$top"/rust/beanwhile-h3-*/native/*/libbeanwhile_h3.a)
  cd "$top/rust" && cargo build --offline && touch "$archive" && cargo build --offline -v > "$top/relinked" 2>&1 &&
    grep -q 'Running.*--crate-name main' "$top/relinked"
}

# examples/rust/quinn of the tarball, over Debian's crates: bodies are posted, and come back
quinn_built() {
  cd "$top/tarball/examples/rust/quinn" || return 1
  PKG_CONFIG_PATH=$top/tarball/lib/pkgconfig cargo build --offline --quiet --jobs 2 --target-dir "$top/quinn" "${debian_crates[@]}"
}
quinn_posted() {
  local program=$top/quinn/debug/h3_over_quinn server status=1
  openssl req -x509 -newkey ec -pkeyopt ec_paramgen_curve:P-256 -nodes -keyout "$top/quinn.key" -out "$top/quinn.pem" -days 13 \
    -subj /CN=localhost -addext 'subjectAltName=DNS:localhost' -addext 'basicConstraints=critical,CA:FALSE' || return 1
  timeout 120 "$program" serve 127.0.0.1:44380 "$top/quinn.pem" "$top/quinn.key" &
  server=$!
  for _ in $(seq 50); do
    sleep 0.2
    if timeout 60 "$program" post 127.0.0.1:44380 "$top/quinn.pem" 3 1000000 > "$top/posted"; then
      status=0
      break
    fi
  done
  kill "$server"
  cat "$top/posted"
  [ "$status" -eq 0 ] && [ "$(grep -c '^stream [048]: 1000000 bytes$' "$top/posted")" -eq 3 ]
}

# examples/go of the tarball, over Debian's quic-go: an http.Client and an http.Handler talk with one another
quic_go_version() { dpkg-query -W -f '${Version}' golang-github-lucas-clemente-quic-go-dev; }
go_example() {
  unset GOFLAGS GOPATH
  PKG_CONFIG_PATH=$top/tarball/lib/pkgconfig make -C "$top/tarball/examples/go" test LIB="$top/tarball/lib" OUT="$top/go-example"
}

# a drop-in for nghttp3 is loaded by the programs that LD_LIBRARY_PATH leads to it, and by no other
drop_in() {
  local program folder=/usr/lib/x86_64-linux-gnu/beanwhile-h3/nghttp3
  program=$(command -v gtlsclient || command -v curl) &&
    apt-get install -y "$top"/dist/libbeanwhile-h3-nghttp3_*.deb && [ -z "$(dpkg -V libbeanwhile-h3-nghttp3)" ] &&
    LD_LIBRARY_PATH=$folder ldd "$program" | grep "$folder/libnghttp3" && ! ldd "$program" | grep "$folder"
}

c_examples() {
  cp -r /usr/share/doc/libbeanwhile-h3-dev/examples/c "$top/server" &&
    make -C "$top/server" LIB=/usr/lib/x86_64-linux-gnu OUT="$top/server"
}

# the versions that are here stand in the column of this release in the table of docs/INSTALL.md
says() { # ROW TEXT
  awk -F'|' -v row=" $1 " -v column=$((VERSION_ID - 9)) '$2 == row { print $column }' "$top/INSTALL.md" | grep -qF -- "$2" ||
    { echo "docs/INSTALL.md does not say '$2' in the row '$1'"; return 1; }
}
two() { grep -oE '[0-9]+\.[0-9]+' | head -n 1; }
versions() {
  says System "glibc $(ldd --version | two):" && says C "gcc $(gcc -dumpversion):" && says C++ "g++ $(g++ -dumpversion)," &&
    says CMake "$(cmake --version | two):" && says Rust "rustc $(rustc --version | two):" && says Go " $(go version | two)," &&
    says Python "$(python3 --version | two):" && says 'QUIC of `examples/c`' "ngtcp2 $(pkg-config --modversion libngtcp2 | two):" &&
    says 'QUIC of `examples/go`' "quic-go $(quic_go_version | two):" || return 1
  if command -v curl > /dev/null; then says 'Client of HTTP/3' "curl $(curl --version | two):"; fi
}

check "checksums of the artefacts" checksums
check "versions are those of docs/INSTALL.md" versions
check "C by docs/INSTALL.md" start c main.c main.c
check "C++ by docs/INSTALL.md" start cpp main.cpp main.cpp
check "Rust by docs/INSTALL.md" start rust main.rs src/main.rs
check "Go by docs/INSTALL.md" start go main.go main.go
if [ -e "$top/start/main.py" ] && ls "$top"/dist/*.whl > /dev/null 2>&1; then
  check "Python by docs/INSTALL.md" start python main.py main.py
  check "the Python package's own tests" python_tests
else
  echo "skipped $release: Python, of which there is no wheel, or no examples/start/main.py"
fi
check "the tarball and its checksums" unpack
check "the tarball by pkg-config" by_pkg_config beanwhile-h3
check "the tarball by pkg-config, shared" by_pkg_config beanwhile-h3-shared
check "the tarball by CMake" by_cmake h3 "$top/tarball"
check "the tarball by CMake, shared" by_cmake shared "$top/tarball"
unset PKG_CONFIG_PATH
check "Debian packages by CMake" by_cmake h3 ""
check "Debian packages, shared" shared_of_debian
check "Debian packages are as they were packed" whole
check "h3.hpp by C++17" cpp_tests 17
check "h3.hpp by C++20" cpp_tests 20
check "the Rust crate's own tests" rust_tests
if ls -d /usr/share/cargo/registry/http-1.* > /dev/null 2>&1; then
  check "the Rust crate's own tests, with the feature http" rust_http_tests
else
  echo "skipped $release: the feature http of the Rust crate, which stands on http 1"
fi
check "a Rust program is linked again when the archive changes" relinked
check "the Go module's own tests" go_tests
check "a Go program with the module vendored" go_vendored
check "examples/go is built over quic-go $(quic_go_version), and its tests" go_example
if ls -d /usr/share/cargo/registry/quinn-0.11.* > /dev/null 2>&1; then
  check "examples/rust/quinn is built" quinn_built
  [ ! -x "$top/quinn/debug/h3_over_quinn" ] || check "examples/rust/quinn: three bodies of 1 MB are posted and come back" quinn_posted
else
  echo "skipped $release: examples/rust/quinn, whose crates are not there"
fi
if ls "$top"/dist/libbeanwhile-h3-nghttp3_*.deb > /dev/null 2>&1; then
  check "the Debian package of the drop-in for nghttp3" drop_in
else
  echo "skipped $release: the drop-in for nghttp3, of which there is no package (make compat)"
fi
check "examples/c are built over ngtcp2 $(pkg-config --modversion libngtcp2 2>&1)" c_examples
