#!/usr/bin/env bash
# Tests the page in headless Chromium over the program that DDSERVE names, or the built one of this repository. Ends with 77 where a tool
# is missing, and says which. PICTURES names a folder for pictures of the page. Words: which of `play`, `narrow`, `sizes`, `address`,
# `games`, `edits`, `unanswered` to run (all).
set -eu
here=$(cd -- "$(dirname -- "$0")" && pwd)
missing() {
    echo "web/test.sh: $1 is missing" >&2
    exit 77
}
program=${DDSERVE:-$here/../crates/ddserve/out/ddserve}
[ -x "$program" ] || missing "the program $program"
command -v python3 > /dev/null || missing 'the command python3'
command -v chromium > /dev/null || command -v chromium-browser > /dev/null || missing 'Chromium (package chromium)'
DDSERVE=$(readlink -f -- "$program") PYTHONDONTWRITEBYTECODE=1 python3 "$here/test.py" "$@"
