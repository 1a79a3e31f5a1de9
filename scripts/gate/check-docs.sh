#!/usr/bin/env bash
# For each page that names definitions and functions of the crates: do they still stand there? One line 'ok PAGE' or
# 'failed PAGE' a page, and the names that are missing. And does each rule have its marks (rules.py), each script its drawing?
set -uo pipefail
export LC_ALL=C
cd "$(dirname "$0")/../.."

# every word of the sources, once
words=$(mktemp)
trap 'rm -f "$words"' EXIT
find crates -path '*/out' -prune -o \( -name '*.antt' -o -name '*.rt' \) -print0 | sort -z | xargs -0 grep -ohE "[A-Za-z_][A-Za-z0-9_]*" |
  sort -u > "$words"
{ ls crates; find crates -path '*/out' -prune -o -path '*/specs/*.antt' -print | sed -E 's#.*/(.*)\.antt#\1#'; grep -oE '^[a-z0-9_]+' crates.txt; } | sort -u |
  sort -u -o "$words" - "$words"

# the names between the backticks of a page: an identifier, or several that '::', '/', '.' or a space join
names() {
  grep -oE '`[A-Za-z_][A-Za-z0-9_]*((::|/| |\.)[A-Za-z_][A-Za-z0-9_]*)*`' "$1" | tr -d '`' | grep -vE '\.(md|sh|py|rt|txt|talk)$' |
    sed -E 's/\.antt$//' |
    grep -oE '[A-Za-z_][A-Za-z0-9_]*' | sort -u
}

bad=0
for page in docs/RFC.md docs/STATES.md docs/MODEL.md docs/model/*.md docs/ARCHITECTURE.md; do
  missing=$(comm -23 <(names "$page") "$words" | grep -vxE "specs|crates|h3_session" | tr '\n' ' ')
  if [ -z "$missing" ]; then
    echo "ok $page: each name of it stands in the crates"
  else
    echo "failed $page: $missing"
    bad=1
  fi
done

# the drawing of a script, and that each can be drawn as a picture
room=$(mktemp -d)
trap 'rm -rf "$words" "$room"' EXIT
missing=""
count=0
python3 scripts/dev/draw.py examples/blocked.talk examples/blocked.stdout | cmp -s - examples/blocked.mmd || missing=" examples/blocked.mmd is not what draw.py writes;"
python3 scripts/dev/draw.py examples/blocked.talk examples/blocked.stdout --brief --svg "$room/svg"
cmp -s "$room/svg" docs/blocked.svg || missing="$missing docs/blocked.svg is not what draw.py writes;"
for script in examples/*.talk tests/talk/*.talk; do
  answers=${script%.talk}.stdout
  if grep -q '^line ' "$answers"; then continue; fi
  count=$((count + 1))
  python3 scripts/dev/draw.py "$script" "$answers" --svg "$room/svg" 2> "$room/log" && python3 -c 'import sys, xml.dom.minidom as dom; dom.parse(sys.argv[1])' "$room/svg" ||
    missing="$missing $script;"
done
if [ -z "$missing" ]; then
  echo "ok scripts/dev/draw.py: $count scripts are drawn, and blocked as examples/blocked.mmd and docs/blocked.svg have it"
else
  echo "failed scripts/dev/draw.py:$missing"
  bad=1
fi

python3 scripts/gate/rules.py || bad=1
python3 scripts/gate/walks.py || bad=1
python3 scripts/dev/pictures.py || bad=1
python3 scripts/bench/bench_page.py --check || bad=1
exit "$bad"
