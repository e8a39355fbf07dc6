#!/usr/bin/env bash
# Makes the files of a release in a folder: the packages with both programs, and SHA256SUMS over them. Prints their paths.
#
#   packaging/release.sh --v2 PROGRAM --v3 PROGRAM OUT
#
# The commit has the tag `v` and the version with which CHANGELOG.md begins, no file of it is changed, and both programs are of that
# version; else nothing is made, and the status is 1. CONTRIBUTING.md tells what comes before and what is signed afterwards.
set -eu
here=$(cd -- "$(dirname -- "$0")" && pwd)
top=$(dirname -- "$here")
fail() {
    echo "packaging/release.sh: $1" >&2
    exit 1
}
[ $# = 5 ] && [ "$1" = --v2 ] && [ "$3" = --v3 ] || { sed -n '4s/^# *//p' "$0" >&2; exit 2; }
v2=$2 v3=$4 out=$5
version=$(sed -n 's/^## //p' "$top/CHANGELOG.md" | head -n 1)
git -C "$top" tag --points-at HEAD | grep -q -x -F "v$version" || fail "the commit has no tag v$version, which CHANGELOG.md begins with"
[ -z "$(git -C "$top" status --porcelain --untracked-files=no)" ] || fail 'files of the commit are changed'
for program in "$v2" "$v3"; do
    told=$("$program" --version) || fail "$program doesn't start"
    [ "$told" = "ddserve $version" ] || fail "$program is '$told' and not ddserve $version"
done
made=$(unset SOURCE_DATE_EPOCH && "$here/build.sh" --v2 "$v2" --v3 "$v3" "$out")
(cd "$out" && while read -r path; do sha256sum "$(basename -- "$path")"; done <<< "$made" > SHA256SUMS)
echo "$made"
echo "$out/SHA256SUMS"
