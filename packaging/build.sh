#!/usr/bin/env bash
# Makes a tarball and a .deb of built programs. Prints their paths.
#
#   packaging/build.sh [--v2 PROGRAM] [--v3 PROGRAM] OUT
#
# The programs are those compiled for x86-64-v2 and for x86-64-v3. Where both are given the right one is chosen at each start. Without
# either it is the built program of this repository. What a program was compiled for its own instructions tell: one that is given as
# the other form is refused. Two calls for one commit and the same programs make the same bytes: times are those of the commit, or
# SOURCE_DATE_EPOCH. DEB_REVISION is the package's revision (1).
set -eu
umask 022
export LC_ALL=C TZ=UTC
here=$(cd -- "$(dirname -- "$0")" && pwd)
top=$(dirname -- "$here")
v2='' v3='' out=''
fail() {
    echo "packaging/build.sh: $1" >&2
    exit "${2:-1}"
}
while [ $# -gt 0 ]; do
    case $1 in
    --v2) v2=${2:?} && shift ;;
    --v3) v3=${2:?} && shift ;;
    -*) fail "$1 is no option" 2 ;;
    *) out=$1 ;;
    esac
    shift
done
[ -n "$out" ] || fail 'say in which folder the packages are to stand' 2
for tool in dpkg-deb tar gzip xz strip objdump md5sum; do
    command -v "$tool" > /dev/null || fail "the command $tool is missing (packages dpkg, tar, gzip, xz-utils, binutils, coreutils)" 77
done
# The first instruction that x86-64-v3 adds to v2 (AVX, AVX2, FMA, F16C, BMI, MOVBE, LZCNT), or nothing. A compiler for v2 writes
# `tzcnt` too, which an older processor takes for another one with the same result. A program that is none ends this script.
newer_instruction() { # PROGRAM
    objdump -d --no-show-raw-insn "$1" 2> /dev/null | awk -F '\t' '
        /file format elf64-x86-64/ { is_one = 1 }
        /^ / { lines++ }
        $2 ~ /^(v[a-z0-9]+|andn|bextr|blsi|blsmsk|blsr|bzhi|lzcnt|movbe|mulx|pdep|pext|rorx|sarx|shlx|shrx)( |$)/ { print $2; exit }
        END { if (!is_one || !lines) exit 1 }' || fail "$1 is no program for x86-64"
}
if [ -z "$v2$v3" ]; then
    built=$top/crates/ddserve/out/ddserve
    [ -x "$built" ] || fail 'no program is built: start ./ddserve serve --help once, or name one by --v2 or --v3'
    newer=$(newer_instruction "$built")
    if [ -n "$newer" ]; then v3=$built; else v2=$built; fi
fi
if [ -n "$v2" ]; then
    newer=$(newer_instruction "$v2")
    [ -z "$newer" ] || fail "$v2 is not for x86-64-v2, which has no '${newer%% *}': name it by --v3"
fi
if [ -n "$v3" ]; then
    newer=$(newer_instruction "$v3")
    [ -n "$newer" ] || fail "$v3 is for x86-64-v2: name it by --v2"
fi
version=$(sed -n 's/^## \([0-9.]*\)$/\1/p' "$top/CHANGELOG.md" | head -1)
epoch=${SOURCE_DATE_EPOCH:-$(git -C "$top" log -1 --format=%ct)}
export SOURCE_DATE_EPOCH=$epoch
work=$(mktemp -d)
trap 'rm -rf "$work"' EXIT

put() { # MODE FROM TO
    install -D -m "$1" "$2" "$3"
}
filled() { # FROM TO
    mkdir -p "$(dirname -- "$2")"
    sed "s/@VERSION@/$version/; s/@DATE@/$(date -d "@$epoch" +%Y-%m-%d)/" "$1" > "$2"
    chmod 644 "$2"
}
programs() { # BIN LIBEXEC: the programs and what chooses between them
    put 755 "$here/ddserve.sh" "$1/ddserve"
    [ -z "$v2" ] || put 755 "$v2" "$2/ddserve-v2"
    [ -z "$v3" ] || put 755 "$v3" "$2/ddserve-v3"
    strip --remove-section=.comment --remove-section=.note.gnu.build-id "$2"/ddserve-*
}
files() { # FOLDER: its files, but for those that test it, each with its path from the top
    listed=$(git -C "$top" ls-files -- "$1" 2> /dev/null) || listed=''
    # Sources that were unpacked are no repository.
    [ -n "$listed" ] || listed=$(cd "$top" && find "$1" -type f ! -name '*.pyc')
    grep -v -e '/tests/' -e '/test\.sh$' <<< "$listed" | sort
}
put_files() { # FOLDER TO: what is run stays so
    files "$1" | while read -r file; do
        if [ -x "$top/$file" ]; then put 755 "$top/$file" "$2/${file#"$1"/}"; else put 644 "$top/$file" "$2/${file#"$1"/}"; fi
    done
}
pages() { # TO: and the examples
    # Its links are those of its place in the sources, one folder below the top; in the package it stands at the top.
    mkdir -p "$1"
    sed 's,](\.\./,](,g' "$here/package.md" > "$1/README.md"
    chmod 644 "$1/README.md"
    for page in CHANGELOG.md docs/PROTOCOL.md docs/SERVER.md; do
        put 644 "$top/$page" "$1/$page"
    done
    put_files examples "$1/examples"
}
# Of a link to a page that is not in the package its text stays.
keep_links() { # FOLDER
    find "$1" -name '*.md' | while read -r page; do
        grep -o ']([^)#: ]*[)#]' "$page" | sed 's/^](//; s/[)#]$//' | sort -u | while read -r target; do
            [ -z "$target" ] || [ -e "$(dirname -- "$page")/$target" ] || sed -E -i "s|!?\[([^]]*)\]\(${target//./\\.}(#[^)]*)?\)|\1|g" "$page"
        done
    done
}
at_commit() { # ROOT: nothing tells when it was built
    find "$1" -exec touch -h -d "@$epoch" {} +
}

# The tarball: to be unpacked anywhere.
name=ddserve-$version-x86_64-linux
tree=$work/$name
programs "$tree/bin" "$tree/libexec/ddserve"
filled "$here/ddserve.1" "$tree/share/man/man1/ddserve.1"
put 644 "$here/ddserve.bash" "$tree/share/bash-completion/completions/ddserve"
put 644 "$here/_ddserve" "$tree/share/zsh/site-functions/_ddserve"
put 644 "$here/ddserve.fish" "$tree/share/fish/vendor_completions.d/ddserve.fish"
put 644 "$here/ddserve.service" "$tree/share/systemd/ddserve.service"
put 644 "$top/web/index.html" "$tree/share/ddserve/index.html"
put 644 "$top/LICENSE" "$tree/LICENSE"
pages "$tree"
put_files python "$tree/python"
keep_links "$tree"
at_commit "$tree"
mkdir -p "$out"
tar --sort=name --format=gnu --owner=0 --group=0 --numeric-owner --mtime="@$epoch" -C "$work" -cf - "$name" | gzip -9n > "$out/$name.tar.gz"

# The .deb.
whole=$version-${DEB_REVISION:-1}
root=$work/deb
doc=$root/usr/share/doc/ddserve
programs "$root/usr/bin" "$root/usr/libexec/ddserve"
filled "$here/ddserve.1" "$root/usr/share/man/man1/ddserve.1"
gzip -9n "$root/usr/share/man/man1/ddserve.1"
put 644 "$here/ddserve.bash" "$root/usr/share/bash-completion/completions/ddserve"
put 644 "$here/_ddserve" "$root/usr/share/zsh/vendor-completions/_ddserve"
put 644 "$here/ddserve.fish" "$root/usr/share/fish/vendor_completions.d/ddserve.fish"
put 644 "$here/ddserve.service" "$root/lib/systemd/system/ddserve.service"
put 644 "$here/ddserve.default" "$root/etc/default/ddserve"
put 644 "$top/web/index.html" "$root/usr/share/ddserve/index.html"
pages "$doc"
put_files python/ddserve "$root/usr/lib/python3/dist-packages/ddserve"
put 644 "$top/python/README.md" "$doc/python/README.md"
keep_links "$doc"
mv "$doc/CHANGELOG.md" "$doc/changelog"
gzip -9n "$doc/changelog"
# Who answers for the package: as Debian's tools have it, or the author of the commit.
maintainer=$(git -C "$top" log -1 --format='%an <%ae>' 2> /dev/null || true)
maintainer="${DEBFULLNAME:-The ddserve authors} <${DEBEMAIL:-$(sed -n 's/.*<\(.*\)>/\1/p' <<< "$maintainer")}>"
{
    echo 'Format: https://www.debian.org/doc/packaging-manuals/copyright-format/1.0/'
    echo
    echo 'Files: *'
    sed -n 's/^Copyright (c) /Copyright: /p' "$top/LICENSE"
    echo 'License: Expat'
    sed -e '1,/^Copyright/d' -e '/./,$!d' "$top/LICENSE" | sed -e 's/^$/./' -e 's/^/ /'
} > "$doc/copyright"
printf 'ddserve (%s) unstable; urgency=medium\n\n  * Version %s; changelog.gz has what is new.\n\n -- %s  %s\n' \
    "$whole" "$version" "$maintainer" "$(date -d "@$epoch" -R)" | gzip -9n > "$doc/changelog.Debian.gz"
mkdir -p "$root/DEBIAN"
libc=$(objdump -T "$root"/usr/libexec/ddserve/ddserve-* | grep -o 'GLIBC_[0-9.]*' | sort -Vu | tail -1)
{
    echo "Package: ddserve
Version: $whole
Section: science
Priority: optional
Architecture: amd64
Depends: libc6 (>= ${libc#GLIBC_})
Suggests: python3
Maintainer: $maintainer
Installed-Size: $(du -k --apparent-size -s "$root" | cut -f1)
Description: double-dummy bridge solver whose answers are proved
 Tells how many tricks each card of a position wins when all four hands are
 seen, the twenty results of a deal, par, and the tricks after each card of a
 play. It reads lines of JSON, or serves many clients over TCP or WebSocket.
 A package for Python asks it."
} > "$root/DEBIAN/control"
echo /etc/default/ddserve > "$root/DEBIAN/conffiles"
for script in postinst prerm postrm; do
    put 755 "$here/$script" "$root/DEBIAN/$script"
done
(cd "$root" && find . -path ./DEBIAN -prune -o -path ./etc -prune -o -type f -printf '%P\n' | sort | xargs md5sum) > "$root/DEBIAN/md5sums"
chmod 644 "$root/DEBIAN/md5sums" "$root/DEBIAN/control" "$root/DEBIAN/conffiles" "$doc/copyright" "$doc"/*.gz
at_commit "$root"
dpkg-deb --root-owner-group -Zxz --threads-max=1 --build "$root" "$out/ddserve_${whole}_amd64.deb" > /dev/null
echo "$out/$name.tar.gz"
echo "$out/ddserve_${whole}_amd64.deb"
