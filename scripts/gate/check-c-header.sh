#!/usr/bin/env bash
# Is the header for C that of the exports? One line 'ok NAME' or 'failed NAME' for each thing that is compared.
set -uo pipefail
cd "$(dirname "$0")/../.."
python3 scripts/gate/c_header.py
