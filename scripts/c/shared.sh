#!/usr/bin/env bash
# shared.sh FOLDER: makes of the two archives in FOLDER the shared library libbeanwhile_h3.so.1 beside them, with the exports that h3.h calls and no other
# name. The link libbeanwhile_h3.so that a linker looks for lies in FOLDER/beanwhile-h3, so that -lbeanwhile_h3 in FOLDER means the archive.
set -euo pipefail
folder=$1
major=$(sed -n 's/^#define H3_VERSION_TEXT "\([0-9]*\)\..*"$/\1/p' "$(dirname "$0")/../../include/h3.h")
name=libbeanwhile_h3.so.$major

names=$(mktemp)
trap 'rm -f "$names"' EXIT
echo '{ global: h3_raw_*; local: *; };' > "$names"
"${CC:-cc}" -shared -o "$folder/$name" -Wl,-soname,"$name" -Wl,--version-script="$names" -Wl,--no-undefined -Wl,-z,relro,-z,now \
  -Wl,--whole-archive "$folder/libbeanwhile_h3.a" -Wl,--no-whole-archive "$folder/libbeanwhile_h3_shim.a"
mkdir -p "$folder/beanwhile-h3"
ln -sf "../$name" "$folder/beanwhile-h3/libbeanwhile_h3.so"
