#!/usr/bin/env bash
# debian13.sh [SUITE]: fetches libnghttp3-dev and libnghttp3-9 of Debian 13 into build/nghttp3, where the system is another Debian, or
# those of another suite, as sid: libnghttp3.so.9 is built and tested over them. apt does it, with lists and settings of its own below
# that folder: nothing is installed, and the system's lists stay as they are.
set -euo pipefail
cd "$(dirname "$0")/../.."
suite=${1:-trixie}
if [ $# -eq 0 ] && grep -q '^libnghttp3.so.9 ' <<< "$(bash scripts/compat/versions.sh)"; then exit 0; fi

room=$(mktemp -d)
trap 'rm -rf "$room"' EXIT
mkdir -p "$room"/{lists/partial,cache/archives/partial,packages,root}
echo "deb [signed-by=/usr/share/keyrings/debian-archive-keyring.gpg] http://deb.debian.org/debian $suite main" > "$room/sources.list"
apt=(apt-get -q -o Dir::Etc::sourcelist="$room/sources.list" -o Dir::Etc::sourceparts=/dev/null -o Dir::State::lists="$room/lists"
  -o Dir::Cache="$room/cache" -o Dir::State::status=/dev/null -o Acquire::Languages=none -o Acquire::Retries=1
  -o Acquire::http::Timeout=20 -o APT::Sandbox::User=root -o APT::Update::Error-Mode=any)
"${apt[@]}" update
(cd "$room/packages" && "${apt[@]}" download libnghttp3-dev libnghttp3-9)
for package in "$room"/packages/*.deb; do dpkg -x "$package" "$room/root"; done
mkdir -p build
rm -rf build/nghttp3
mv "$room/root" build/nghttp3
echo "build/nghttp3: nghttp3 $(sed -nE 's/^#define NGHTTP3_VERSION "(.*)"/\1/p' build/nghttp3/usr/include/nghttp3/version.h)"
