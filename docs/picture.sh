#!/bin/sh
# Makes docs/explanation.png: the page that explains an example, as Chromium shows it. usage: docs/picture.sh [PROGRAM]
set -eu
program=$(realpath "${1:-build/ctxbound}")
cd "$(dirname "$0")/.."
folder=$(mktemp -d)
trap 'rm -rf "$folder"' EXIT
"$program" explain examples/check_then_act.guest --html > "$folder/page.html" || test $? -eq 1
chromium --headless --no-sandbox --disable-gpu --hide-scrollbars --window-size=1280,1000 --virtual-time-budget=4000 \
    --user-data-dir="$folder/profile" --screenshot=docs/explanation.png "file://$folder/page.html" > "$folder/log" 2>&1 ||
    { cat "$folder/log" >&2; exit 1; }
