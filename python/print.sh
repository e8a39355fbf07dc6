#!/usr/bin/env bash
# Tests the page of hand records in headless Chromium: on screens and as a print, for the 36 boards of examples/record.pbn with the results
# of the program that DDSERVE names (or the built one of this repository). Ends with 77 where a tool is missing, and says which. PICTURES
# names a folder for pictures of the page and for the print.
set -eu
here=$(cd -- "$(dirname -- "$0")" && pwd)
missing() {
    echo "python/print.sh: $1 is missing" >&2
    exit 77
}
program=${DDSERVE:-$here/../crates/ddserve/out/ddserve}
[ -x "$program" ] || missing "the program $program"
command -v python3 > /dev/null || missing 'the command python3'
command -v chromium > /dev/null || command -v chromium-browser > /dev/null || missing 'Chromium (package chromium)'
work=$(mktemp -d)
trap 'rm -rf "$work"' EXIT
"$program" pbn < "$here/../examples/record.pbn" > "$work/filled.pbn"
"$program" pbn < "$here/tests/records/merged.pbn" > "$work/extreme.pbn" 2> /dev/null
PYTHONPATH=$here PYTHONDONTWRITEBYTECODE=1 python3 "$here/print.py" "$work/filled.pbn" "$work/extreme.pbn"
