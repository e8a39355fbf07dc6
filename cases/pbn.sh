#!/usr/bin/env bash
# Runs `ddserve pbn` over sample files of PBN, and compares what it writes and what it says of games byte for byte with what is
# recorded; a second run has to change nothing. Then several workers, what is said of drawn files, what a terminal shows, and bad
# input: a picture, NUL bytes, a line and a game that never end, in little memory. With the word `cuts` instead: each sample cut after
# each of its bytes, read whole and in pieces of one byte, beside a reader of its own (`tools/pbn_filled.py`), over one table of
# results for all deals. With the word `reader` instead: boards that Debian's `dealer` deals, read by its `pbn_to_ascii.pl` before and
# after.
set -eu
here=$(cd -- "$(dirname -- "$0")" && pwd)
data=$here/data/pbn
ddserve=${DDSERVE:-$here/../ddserve}
for tool in cmp python3; do
    command -v "$tool" > /dev/null || { echo "cases: the command $tool is missing" >&2; exit 1; }
done
work=$(mktemp -d)
trap 'rm -rf "$work"' EXIT
if [ "${1:-}" = cuts ]; then
    mkdir "$work/copy"
    bash "$here/pbn/build.sh" "$work/copy"
    for file in "$data"/*.pbn; do
        "$work/copy/cuts" < "$file" > "$work/told"
        python3 "$here/tools/pbn_filled.py" "$file" > "$work/wanted"
        cmp "$work/told" "$work/wanted"
    done
    echo "cuts: of $(ls "$data"/*.pbn | wc -l) files, cut after each of $(cat "$data"/*.pbn | wc -c) bytes, comes out what the other reader has"
    exit 0
fi
if [ "${1:-}" = reader ]; then
    command -v perl > /dev/null || { echo "cases: the command perl is missing" >&2; exit 1; }
    if ! (cd "$work" && apt-get download dealer && dpkg -x dealer_*.deb there) > "$work/log" 2>&1; then
        echo "reader: skipped, since Debian's package dealer can't be had here"
        exit 0
    fi
    printf 'produce 20\naction printpbn\n' > "$work/deals"
    "$work/there/usr/games/dealer" -v -s 1 "$work/deals" > "$work/plain"
    # It takes tags alone, and stops at the rows of a table.
    "$ddserve" pbn --tags DoubleDummyTricks,OptimumScore,ParContract < "$work/plain" > "$work/filled"
    for tag in DoubleDummyTricks OptimumScore ParContract; do
        [ "$(grep -c "^\[$tag \"" "$work/filled")" = 20 ]
    done
    for file in plain filled; do
        perl "$work/there/usr/share/doc/dealer/Post_Processors/pbn_to_ascii.pl" "$work/$file" > "$work/$file.read"
    done
    cmp "$work/plain.read" "$work/filled.read"
    echo "reader: pbn_to_ascii.pl reads 20 boards with three tags more as it reads them without"
    exit 0
fi
for file in "$data"/*.pbn; do
    stem=${file%.pbn}
    "$ddserve" pbn < "$file" > "$work/filled" 2> "$work/notes"
    cmp "$work/filled" "$stem.expected"
    cmp "$work/notes" "$stem.notes"
done
echo "samples: $(ls "$data"/*.pbn | wc -l) files come out as recorded"
for file in "$data"/*.expected; do
    "$ddserve" pbn < "$file" > "$work/filled" 2> /dev/null
    cmp "$work/filled" "$file"
done
echo "samples: a second run changes nothing"
"$ddserve" pbn --workers 4 < "$here/../examples/record.pbn" > "$work/four"
"$ddserve" pbn < "$here/../examples/record.pbn" > "$work/filled"
cmp "$work/four" "$work/filled"
echo "workers: 36 boards come out the same by one and by four"
python3 "$here/tools/pbn_notes.py" "$ddserve"
python3 "$here/tools/pbn_terminal.py" "$ddserve" "$work/filled"
python3 "$here/tools/pbn_bad.py" "$ddserve"
