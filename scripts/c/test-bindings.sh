#!/usr/bin/env bash
# test-bindings.sh FOLDER: the packages for Go, Rust and Python (bindings) over the library in FOLDER, by the machine's go, cargo and
# python3, with no registry: their tests, and a program that stands outside and imports them. One line 'ok NAME' or 'failed NAME' each; a
# language that the machine lacks is left out, with a line that says so.
set -uo pipefail
cd "$(dirname "$0")/../.."
folder=$(realpath "$1")
work=$(mktemp -d)
trap 'chmod -R u+w "$work" && rm -rf "$work"' EXIT
bad=0
export PKG_CONFIG_PATH=$folder

check() { # NAME COMMAND..
  local name=$1
  shift
  if "$@" > "$work/log" 2>&1; then
    echo "ok $name"
  else
    echo "failed $name: $(tail -n 5 "$work/log" | tr '\n' ' ')"
    bad=1
  fi
}

go_package() {
  export GOPROXY=off GOFLAGS=-mod=mod GOCACHE=${GOCACHE:-$work/go}
  (cd bindings/go && test -z "$(gofmt -l .)" && go vet . && go test -count=1 .)
}

# a module of its own, which takes the package from its folder
go_caller() {
  mkdir -p "$work/caller"
  cat > "$work/caller/go.mod" <<END
module caller

go 1.19

require beanwhile/h3 v1.0.0

replace beanwhile/h3 => $PWD/bindings/go
END
  cat > "$work/caller/main.go" <<'END'
package main

import "beanwhile/h3"

func main() {
	endpoint, err := h3.New(h3.DefaultConfig(false))
	if err != nil {
		panic(err)
	}
	defer endpoint.Close()
	if id, err := endpoint.NextRequestID(); id != 0 || err != nil {
		panic(err)
	}
}
END
  (cd "$work/caller" && go run .)
}

rust_crate() {
  (cd bindings/rust && RUSTFLAGS="-D warnings" cargo test --offline --quiet --target-dir "$work/target")
}

# every public item has documentation, and every call that may fail says so under `# Errors`
rust_documents() {
  (cd bindings/rust && RUSTDOCFLAGS="-D warnings" cargo doc --offline --quiet --no-deps --target-dir "$work/target" &&
    cargo clippy --offline --quiet --target-dir "$work/target" -- -D missing_docs -D clippy::missing_errors_doc)
}

# a crate of its own, which takes ours from its folder
rust_caller() {
  mkdir -p "$work/crate/src"
  cat > "$work/crate/Cargo.toml" <<END
[package]
name = "caller"
version = "1.0.0"
edition = "2021"

[dependencies]
beanwhile-h3 = { path = "$PWD/bindings/rust" }
END
  cat > "$work/crate/src/main.rs" <<'END'
use beanwhile_h3::{Config, Endpoint, Error};

fn main() -> Result<(), Error> {
    let id = Endpoint::new(&Config::client())?.next_request_id()?;
    assert_eq!(id, 0);
    Ok(())
}
END
  (cd "$work/crate" && cargo run --offline --quiet --target-dir "$work/target")
}

python_package() {
  PYTHONPATH=bindings/python BEANWHILE_H3_LIBRARY=$folder/libbeanwhile_h3.so.1 PYTHONDONTWRITEBYTECODE=1 \
    python3 -W error -m unittest discover -s bindings/python/tests
}

# examples/start/main.py in a folder of its own, where a wheel would put the package, with the library inside
python_caller() {
  mkdir -p "$work/site"
  cp -r bindings/python/beanwhile_h3 examples/start/main.py "$work/site" && cp "$folder/libbeanwhile_h3.so.1" "$work/site/beanwhile_h3" &&
    (cd "$work/site" && env -u PYTHONPATH -u BEANWHILE_H3_LIBRARY python3 main.py) | cmp - examples/start/printed
}

python_types() {
  (cd bindings/python && python3 -m mypy --cache-dir "$work/mypy" beanwhile_h3 tests ../../examples/start/main.py)
}

if python3 -c 'import sys; sys.exit(sys.version_info < (3, 11))' 2> /dev/null; then
  check "bindings/python: its tests" python_package
  check "bindings/python: a program that imports it" python_caller
  if python3 -c 'import mypy' 2> /dev/null; then
    check "bindings/python: its types" python_types
  else
    echo "left out: the types of bindings/python, which want mypy (Debian: apt-get install mypy)" >&2
  fi
else
  echo "left out: bindings/python, which wants Python 3.11 or later (Debian: apt-get install python3)" >&2
fi
command -v pkg-config > /dev/null || { echo "left out: bindings for Go and Rust, which want pkg-config" >&2; exit "$bad"; }
if command -v go > /dev/null; then
  check "bindings/go: its tests" go_package
  check "bindings/go: a module that imports it" go_caller
else
  echo "left out: bindings/go, which wants go (Debian: apt-get install golang-go)" >&2
fi
if command -v cargo > /dev/null; then
  check "bindings/rust: its tests" rust_crate
  check "bindings/rust: a crate that depends on it" rust_caller
  if cargo clippy --version > /dev/null 2>&1; then
    check "bindings/rust: its documentation, with what each call may fail by" rust_documents
  else
    echo "left out: the documentation of bindings/rust, which wants clippy (Debian: apt-get install rust-clippy)" >&2
  fi
else
  echo "left out: bindings/rust, which wants cargo (Debian: apt-get install cargo)" >&2
fi
exit "$bad"
