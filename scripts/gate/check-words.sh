#!/usr/bin/env bash
# Are the pages for users as a reader needs them? The words that CONTRIBUTING.md lists and sentences of at most 30 words, in pages and in the
# comments of include/h3.h (words.py); links, snippets, lengths and counts of all pages (pages.py); the refusals and defaults of docs/C_API.md
# (refusals.py); programs and commands that work, and each task in two clicks (user_pages.py). One line 'ok ..' or 'failed ..' for each.
set -uo pipefail
cd "$(dirname "$0")/../.."
bad=0
for check in words pages refusals user_pages; do
  python3 "scripts/gate/$check.py" || bad=1
done
exit "$bad"
