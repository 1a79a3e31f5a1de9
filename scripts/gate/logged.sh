#!/usr/bin/env bash
# logged.sh COMMAND..: runs the gate, and keeps what it said in build/gate.log, below a line that says of which sources
# (scripts/c/sources.sh) and which commit. A release carries this log where its library is of the same sources (scripts/dist). A gate that
# failed, or whose sources changed meanwhile, leaves none.
set -uo pipefail
cd "$(dirname "$0")/../.."

mkdir -p build
rm -f build/gate.log
sources=$(bash scripts/c/sources.sh)
commit=$(git describe --always --dirty --abbrev=40 2>/dev/null || echo unknown)
echo "sources $sources commit $commit kit $(rt version | cut -d' ' -f1)" > build/gate.log.part
"$@" 2>&1 | tee -a build/gate.log.part
status=${PIPESTATUS[0]}
if [ "$status" -eq 0 ] && [ "$(bash scripts/c/sources.sh)" = "$sources" ]; then
  mv build/gate.log.part build/gate.log
fi
exit "$status"
