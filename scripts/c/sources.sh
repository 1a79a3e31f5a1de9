#!/usr/bin/env bash
# sources.sh: prints one checksum of all that the archive for C is made of: the paths and bytes of crates/ (but for what rt leaves in
# out/), crates.txt and the scripts that build it, and the version of the kit. It says whether a library was made of the sources as they
# are now (scripts/c/lib.sh, scripts/dist).
set -euo pipefail
export LC_ALL=C
cd "$(dirname "$0")/../.."
{
  rt version
  find crates crates.txt scripts/c/archive.py scripts/c/unproved.py scripts/gate/kit.py -name out -prune -o -type f ! -name out.log -print0 |
    sort -z | xargs -0 sha256sum
} | sha256sum | cut -d' ' -f1
