#!/usr/bin/env bash
# test-packed.sh LIBRARY: packs the library of that folder twice (scripts/dist/dist.py), compares the bytes, and builds the programs of
# examples/start over what was packed, by the compilers of this machine, with no network and with no other library to be found. One line
# 'ok NAME' or 'failed NAME: ..' each. What cannot be packed or tried here is left out, with a line that says so: a release is of a commit.
# test-dist.sh tries the artefacts in clean roots of Debian.
set -uo pipefail
cd "$(dirname "$0")/../.."
top=$PWD
lib=$1
work=$(mktemp -d)
trap 'chmod -R u+w "$work" && rm -rf "$work"' EXIT
bad=0

leave_out() {
  echo "left out: what make dist packs: $1" >&2
  exit 0
}
command -v rt > /dev/null || leave_out "the kit is not here"
command -v dpkg-deb > /dev/null || leave_out "it wants dpkg-deb"
python3 -c 'import tomllib' 2> /dev/null || leave_out "it wants Python 3.11 or later"
bash scripts/c/made_of.sh is "$lib" "$(bash scripts/c/sources.sh)" || leave_out "$lib is not of the sources that are here"
mark=""
if [ -e "$lib/UNPROVED" ]; then
  mark=1
elif [ -n "$(git status --porcelain 2>&1)" ]; then
  leave_out "files differ from those of the commit"
fi

check() { # NAME COMMAND..
  local name=$1
  shift
  if "$@" > "$work/log" 2>&1; then
    echo "ok $name"
  else
    echo "failed $name: $(tail -n 5 "$work/log" | tr '\n' ' ')"
    bad=1
  fi
}

# without the drop-in for nghttp3, which build/compat may have over another library
export DROP_IN=no
packed() {
  UNPROVED=$mark python3 scripts/dist/dist.py "$lib" "$work/dist" && UNPROVED=$mark python3 scripts/dist/dist.py "$lib" "$work/again" &&
    diff -r "$work/dist" "$work/again" && (cd "$work/dist" && sha256sum --quiet -c SHA256SUMS)
}
# what does not fit together is refused, and nothing is left
is_refused() { # WHY FOLDER UNPROVED
  local said
  if said=$(UNPROVED=$3 python3 scripts/dist/dist.py "$2" "$work/none" 2>&1); then
    echo "packed: $1"
    return 1
  fi
  [ ! -e "$work/none" ] && grep -q "$1" <<< "$said" || { echo "$said"; return 1; }
}
refusals() {
  cp -a "$lib" "$work/other" || return 1
  if [ -n "$mark" ]; then
    is_refused "was built without its proofs" "$work/other" "" || return 1
    rm "$work/other/UNPROVED"
  else
    touch "$work/other/UNPROVED"
  fi
  is_refused "says of its proofs something else" "$work/other" 1 || return 1
  rm -r "$work/other" && cp -a "$lib" "$work/other" && echo >> "$work/other/beanwhile/h3.h" || return 1
  is_refused "is not include/h3.h" "$work/other" "$mark" || return 1
  echo "other sources" > "$work/other/SOURCES"
  is_refused "is not of the sources that are here" "$work/other" "$mark"
}

of_tarball() {
  mkdir -p "$work/tarball" && tar xzf "$work"/dist/beanwhile-h3-*-linux-*.tar.gz -C "$work/tarball" --strip-components=1 &&
    (cd "$work/tarball" && sha256sum --quiet -c SHA256SUMS) &&
    cc -std=c11 -o "$work/program" examples/start/main.c "-I$work/tarball/include/beanwhile" "-L$work/tarball/lib" -lbeanwhile_h3 -lbeanwhile_h3_shim &&
    "$work/program" | cmp - examples/start/printed
}
of_crate() {
  mkdir -p "$work/rust/src" && tar xzf "$work"/dist/beanwhile-h3-*.crate -C "$work/rust" && cp examples/start/main.rs "$work/rust/src" &&
    mv "$work"/rust/beanwhile-h3-* "$work/rust/beanwhile-h3" &&
    printf '[package]\nname = "main"\nversion = "1.0.0"\nedition = "2021"\n[dependencies]\nbeanwhile-h3 = { path = "beanwhile-h3" }\n' > "$work/rust/Cargo.toml" &&
    (cd "$work/rust" && cargo run --offline --quiet | cmp - "$top/examples/start/printed" && cd beanwhile-h3 && cargo build --offline --quiet)
}
of_module() {
  mkdir -p "$work/go" && tar xzf "$work"/dist/beanwhile-h3-go-*.tar.gz -C "$work/go" && cp examples/start/main.go "$work/go" &&
    mv "$work"/go/beanwhile-h3-go-* "$work/go/h3" &&
    printf 'module main\n\ngo 1.19\n\nrequire beanwhile/h3 v1.0.0\n\nreplace beanwhile/h3 => ./h3\n' > "$work/go/go.mod" &&
    (cd "$work/go" && GOPROXY=off GOFLAGS=-mod=mod GOCACHE=${GOCACHE:-$work/cache} go run . | cmp - "$top/examples/start/printed")
}
of_wheel() {
  mkdir -p "$work/site" && python3 -m zipfile -e "$work"/dist/*.whl "$work/site" && cp examples/start/main.py "$work/site" &&
    (cd "$work/site" && env -u PYTHONPATH -u BEANWHILE_H3_LIBRARY python3 main.py) | cmp - examples/start/printed
}

# what is passed on says on which terms
noticed() {
  local at text='^ *The kit states no licence for'
  for at in "$work"/dist/*.tar.gz "$work"/dist/*.crate; do tar xzOf "$at" --wildcards '*/THIRD-PARTY' | grep "$text" > /dev/null || return 1; done
  for at in "$work"/dist/*.deb; do
    dpkg-deb --fsys-tarfile "$at" | tar xO --wildcards '*/copyright' '*/THIRD-PARTY' | grep "$text" > /dev/null || return 1
  done
  python3 -c 'import sys, zipfile
with zipfile.ZipFile(sys.argv[1]) as it: print(it.read(next(name for name in it.namelist() if name.endswith("/THIRD-PARTY"))).decode())' \
    "$work"/dist/*.whl | grep "$text" > /dev/null
}

# docs/INSTALL.md names each part of the kit that THIRD-PARTY names
page_names() {
  local part section
  section=$(sed -n '/^## Licence/,/^## What works/p' docs/INSTALL.md)
  for part in $(tar xzOf "$work"/dist/*.crate --wildcards '*/THIRD-PARTY' | sed -nE 's/^The kit (gives a licence for its crates|states no licence for) (.*)\.?$/\2/p' |
    sed 's/, and the C shims.*//; s/\.$//' | tr -d ,); do
    grep -q "\`$part\`" <<< "$section" || { echo "docs/INSTALL.md does not name $part"; return 1; }
  done
  [ -n "${part:-}" ]
}

check "make dist: the same bytes twice" packed
[ "$bad" -eq 0 ] || exit 1
check "make dist: what does not fit together is refused" refusals
check "make dist: each artefact has the licences of the kit's parts" noticed
check "make dist: docs/INSTALL.md names each of the kit's parts" page_names
export PKG_CONFIG_PATH="" PKG_CONFIG_LIBDIR=/nonexistent
check "make dist: a C program over the tarball" of_tarball
check "make dist: a Python program over the wheel" of_wheel
if command -v cargo > /dev/null; then check "make dist: a Rust program over the crate" of_crate; fi
if command -v go > /dev/null; then check "make dist: a Go program over the module" of_module; fi
exit "$bad"
