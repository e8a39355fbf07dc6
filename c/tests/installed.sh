#!/usr/bin/env bash
# Programs that find the library by -L and -l where it was built, by pkg-config where `make install` put it, and the files that it puts
# into DESTDIR; and a program with functions of the same names as the library's own. Words: the folder of the built library, and the
# program ddserve. Needs gcc, g++, make and pkg-config.
set -eu
here=$(cd -- "$(dirname -- "$0")/.." && pwd)
built=$(readlink -f -- "$1") DDSERVE=$2
export DDSERVE
work=$(mktemp -d)
trap 'rm -rf "$work"' EXIT
fail() {
    echo "c/tests/installed.sh: $1" >&2
    exit 1
}
says() { # WANTED WHAT COMMAND..: what a command prints
    wanted=$1 what=$2
    shift 2
    got=$("$@" 2>&1) || true
    [ "$got" = "$wanted" ] || fail "$what prints: $got"
}
make_in() { # WORDS..
    make -s -C "$here" BUILD="$built" "$@"
}
answers='1 1'
# What starts.c prints first: the codes of its calls.
printf '#!/bin/sh\n"$@" | head -n 1\n' > "$work/codes"
chmod 755 "$work/codes"

# The folder alone has no version: none is made up.
mkdir "$work/alone"
cp -r "$here/." "$work/alone/c"
if make -s -C "$work/alone/c" BUILD="$built" PREFIX="$work/alone/to" install 2> "$work/alone/said"; then fail 'what is installed has no version'; fi
grep -q 'no version for ddserve.pc' "$work/alone/said" || fail "without a version make says: $(cat "$work/alone/said")"
[ ! -e "$work/alone/to" ] || fail 'something is installed without a version'

gcc -I"$here" "$here/tests/starts.c" -L"$built" -ldds -o "$work/by_folder" || fail '-L and -ldds do not find the library'
says "$answers" 'a program that is linked by -L and -ldds' env LD_LIBRARY_PATH="$built" "$work/codes" "$work/by_folder"
g++ -x c++ -I"$here" "$here/tests/starts.c" -L"$built" -ldds -o "$work/by_folder"
says "$answers" 'one in C++' env LD_LIBRARY_PATH="$built" "$work/codes" "$work/by_folder"

gcc -I"$here" "$here/tests/names.c" "$built/libddserve.a" -pthread -o "$work/names" || fail "a program can't have functions of its own with the library's names"
says '0 1 2' 'a program with functions of its own' "$work/names"
gcc -I"$here" "$here/tests/names.c" -L"$built" -ldds -o "$work/names"
says '0 1 2' 'the same over libdds.so' env LD_LIBRARY_PATH="$built" "$work/names"

make_in install PREFIX="$work/a prefix"
[ -e "$work/a prefix/lib/pkgconfig/ddserve.pc" ] || fail 'a prefix with a space is not one'
make_in install PREFIX="$work/prefix"
export PKG_CONFIG_PATH=$work/prefix/lib/pkgconfig
# shellcheck disable=SC2046
gcc "$here/tests/starts.c" $(pkg-config --cflags --libs ddserve) -o "$work/by_package"
says "$answers" 'a program that is linked by pkg-config' "$work/codes" "$work/by_package"
says "$(sed -n 's/^## \([0-9.]*\)$/\1/p' "$here/../CHANGELOG.md" | head -n 1)" 'pkg-config --modversion' pkg-config --modversion ddserve
gcc -I"$work/prefix/include" "$here/tests/starts.c" -L"$work/prefix/lib" -Wl,-rpath,"$work/prefix/lib" -ldds -o "$work/by_prefix"
says "$answers" 'a program that is linked with the installed libdds.so' "$work/codes" "$work/by_prefix"

make_in install DESTDIR="$work/stage" PREFIX=/opt/bridge LIBDIR=/opt/bridge/lib64
cat > "$work/wanted" <<'END'
/opt/bridge/include/dds/dll.h
/opt/bridge/include/ddserve.h
/opt/bridge/lib64/libdds.so
/opt/bridge/lib64/libdds.so.0
/opt/bridge/lib64/libddserve.a
/opt/bridge/lib64/pkgconfig/ddserve.pc
END
(cd "$work/stage" && find . ! -type d | sed 's/^\.//' | sort) | diff "$work/wanted" - || fail 'other files were installed'
! grep -r "$work" "$work/stage/opt/bridge/lib64/pkgconfig" || fail 'the file for pkg-config names DESTDIR'
says /opt/bridge/lib64 'pkg-config --variable=libdir' env PKG_CONFIG_PATH="$work/stage/opt/bridge/lib64/pkgconfig" pkg-config --variable=libdir ddserve
make_in uninstall DESTDIR="$work/stage" PREFIX=/opt/bridge LIBDIR=/opt/bridge/lib64
[ -z "$(find "$work/stage" ! -type d)" ] || fail "make uninstall leaves $(find "$work/stage" ! -type d)"
echo 'installed: programs find the library by -L and -ldds, by pkg-config and under DESTDIR, and keep the names of their own functions'
