#!/usr/bin/env bash
# Builds DDS 2.9 from the source of Debian's package `dds`, at -O3 for x86-64-v3 with link-time optimisation, as a static library.
# Debian's own build is at -O2 for any x86-64, and takes some 15 to 20 % longer. Word: the folder, which then has `include/dds`
# and `libdds.a`. Where it has them already nothing is done. It reads the package lists of this system for their sources alone.
set -eu
folder=$1
[ -e "$folder/libdds.a" ] && exit 0

for tool in apt-get g++ gcc-ar tar; do
    command -v "$tool" > /dev/null || { echo "bench/dds: the command $tool is missing" >&2; exit 1; }
done
mkdir -p "$folder/include"
work=$(mktemp -d)
trap 'rm -rf "$work"' EXIT
mkdir "$work/parts" "$work/lists" "$work/objects"
# The system's own list of places, asked for sources.
for list in /etc/apt/sources.list.d/*.sources; do
    [ -e "$list" ] && sed 's/^Types:.*/Types: deb-src/' "$list" > "$work/parts/$(basename "$list")"
done
[ -e /etc/apt/sources.list ] && sed -n 's/^deb /deb-src /p' /etc/apt/sources.list > "$work/parts/system.list"
asked=(-qq -o Dir::Etc::sourcelist=/dev/null -o "Dir::Etc::sourceparts=$work/parts" -o "Dir::State::lists=$work/lists" -o APT::Sandbox::User=root)
apt-get "${asked[@]}" update >&2
# Debian's changes to the source may be missing from a mirror: they are of packaging, and the library is built without them.
(cd "$work" && apt-get "${asked[@]}" source --download-only dds=2.9.0-9 > /dev/null 2>&1) || true
[ -e "$work/dds_2.9.0.orig.tar.gz" ] || { echo 'bench/dds: the source of DDS 2.9.0 cannot be had' >&2; exit 1; }
tar -xzf "$work/dds_2.9.0.orig.tar.gz" -C "$work"
source=$work/dds-2.9.0
# Of what `free` prints it takes the third line, which today is that of the swap space: then it finds no memory.
sed -i "s/free -k | tail -n+3 | head -n1/free -k | grep ^Mem:/" "$source/src/System.cpp"
find "$source/src" -maxdepth 1 -name '*.cpp' -print0 |
    xargs -0 -P 2 -I{} sh -c 'g++ -std=c++14 -O3 -march=x86-64-v3 -flto=auto -fno-fat-lto-objects -DDDS_THREADS_STL -pthread -w -I"$1" -c "$2" -o "$3/$(basename "$2" .cpp).o"' - "$source/include" {} "$work/objects"
gcc-ar rcs "$work/libdds.a" "$work"/objects/*.o
mkdir -p "$folder/include/dds"
cp "$source"/include/*.h "$folder/include/dds/"
mv "$work/libdds.a" "$folder/libdds.a"
