#!/usr/bin/env bash
# Are pages and tables what their definitions say? Each CALLING.md quotes the contracts and callers as they stand (calling.py); docs/HEADLINE.md and
# docs/headline name what the contract of run reaches (headline.py); the Huffman code and the static table are their definitions' (tables.py).
set -uo pipefail
cd "$(dirname "$0")/../.."
bad=0
for check in calling headline tables; do
  python3 -B "scripts/gate/$check.py" || bad=1
done
exit "$bad"
