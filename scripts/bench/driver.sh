#!/usr/bin/env bash
# driver.sh NAME: builds bench/out/NAME: asks for the peers' packages, proves and builds the static library h3_bench, compiles the driver, and says how
# each side was compiled. As scripts/c/lib.sh does, it proves sources once: where the archive in crates/h3_bench/out is of the sources as they are
# (scripts/c/sources.sh), it stays. driver.sh there: is it there, of these sources?
set -euo pipefail
cd "$(dirname "$0")/../.."

out=crates/h3_bench/out
sources=$(bash scripts/c/sources.sh)
is_there() { bash scripts/c/made_of.sh is $out "$sources" libh3_bench.a; }
if [ "$1" = there ]; then
  is_there
  exit
fi

bash scripts/dev/packages.sh peer
log=$(mktemp)
trap 'rm -f "$log"' EXIT
if is_there; then
  echo "crates/h3_bench was proved of these very sources: nothing is proved again" >&2
else
  echo "proving and building crates/h3_bench and what it stands on: some minutes the first time" >&2
  if ! bash scripts/dev/watched.sh "$log" python3 scripts/c/archive.py h3_bench; then
    echo "h3_bench was not built" >&2
    exit 1
  fi
  target=$(grep -o 'target=[^ ]* cpu=[^ ]*' "$log" | tail -n 1) || true
  [ -z "$target" ] || echo "$target" > $out/target # nothing is said where rt lib has nothing to do
  if [ "$(bash scripts/c/sources.sh)" = "$sources" ]; then
    bash scripts/c/made_of.sh write $out "$sources" libh3_bench.a
  else
    echo "the sources changed while they were proved: the next run proves them again" >&2
  fi
fi
make --no-print-directory -s -C bench "out/$1"

kit=$(dirname "$(rt doc)")
echo "ours: $(rt version), $("$kit/toolchain/bin/clang" --version | sed -n 1p), $(cat $out/target 2> /dev/null || echo 'no target said'), one module of all crates"
release=$(sed -n 's/^PRETTY_NAME="\(.*\)"$/\1/p' /etc/os-release)
for name in nghttp3 nghttp2; do
  version=$(dpkg-query -W -f '${Version}' "lib$name-dev" 2>/dev/null || echo 'of no package')
  echo "$name: the archive of lib$name-dev $version, compiled as $release does (it does not name compiler and flags), separate objects"
done
