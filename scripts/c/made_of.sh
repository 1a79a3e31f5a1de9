#!/usr/bin/env bash
# made_of.sh write FOLDER CHECKSUM [ARCHIVE]: writes into FOLDER/SOURCES of which sources (scripts/c/sources.sh) its archive (libbeanwhile_h3.a) was
# made, and the archive's own checksum. made_of.sh is FOLDER CHECKSUM [ARCHIVE]: does FOLDER/SOURCES say so, and is the archive the one that it speaks of?
set -euo pipefail
what=$1
folder=$2
checksum=$3
archive=$folder/${4:-libbeanwhile_h3.a}

described() {
  echo "sources $checksum"
  echo "archive $(sha256sum < "$archive" | cut -d' ' -f1)"
}

case $what in
  write) described > "$folder/SOURCES" ;;
  is) [ -e "$folder/SOURCES" ] && [ -e "$archive" ] && described | cmp -s - "$folder/SOURCES" ;;
  *) echo "made_of.sh knows no $what" >&2; exit 2 ;;
esac
