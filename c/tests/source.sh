#!/usr/bin/env bash
# Fetches the source of DDS 2.9 from Debian's package `dds` into a folder, the word. It reads the package lists of this system for
# their sources alone.
set -eu
folder=$1
work=$(mktemp -d)
trap 'rm -rf "$work"' EXIT
mkdir "$work/parts" "$work/lists"
for list in /etc/apt/sources.list.d/*.sources; do
    [ -e "$list" ] && sed 's/^Types:.*/Types: deb-src/' "$list" > "$work/parts/$(basename "$list")"
done
[ -e /etc/apt/sources.list ] && sed -n 's/^deb /deb-src /p' /etc/apt/sources.list > "$work/parts/system.list"
asked=(-qq -o Dir::Etc::sourcelist=/dev/null -o "Dir::Etc::sourceparts=$work/parts" -o "Dir::State::lists=$work/lists" -o APT::Sandbox::User=root)
apt-get "${asked[@]}" update >&2
(cd "$work" && apt-get "${asked[@]}" source --download-only dds=2.9.0-9 > /dev/null 2>&1) || true
[ -e "$work/dds_2.9.0.orig.tar.gz" ] || { echo 'c/tests/source.sh: the source of DDS 2.9.0 cannot be had' >&2; exit 1; }
mkdir -p "$folder"
tar -xzf "$work/dds_2.9.0.orig.tar.gz" -C "$folder" --strip-components=1
