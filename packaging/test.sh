#!/usr/bin/env bash
# Tests the packages of the programs given (as for build.sh): each program is packed as what it was compiled for, whatever is said of it;
# what a release is made of; the same bytes of two builds, lintian without errors, each option of the program's help in the page of the
# manual and in the completions, what these complete; the links and the commands of the package's README. And in a bare Debian made by
# debootstrap: installed, it answers, the unit verifies, its command serves, also with the user, the limits and the filters of the unit
# (`confined.py`), and nothing stays when it is purged. No service manager is started. Ends with 77 where a tool is missing, and says
# which. It has to be root, for debootstrap. BARE names a folder in which a bare Debian is kept for the next time.
set -eu
here=$(cd -- "$(dirname -- "$0")" && pwd)
top=$(dirname -- "$here")
missing() {
    echo "packaging/test.sh: $1 is missing" >&2
    exit 77
}
fail() {
    echo "packaging/test.sh: $1" >&2
    exit 1
}
for tool in lintian debootstrap systemd-analyze zsh fish gcc git python3 man; do
    command -v "$tool" > /dev/null || missing "the command $tool"
done
/usr/bin/python3 -c 'import seccomp' 2> /dev/null || missing 'the package python3-seccomp'
[ "$(id -u)" = 0 ] || missing 'root'
work=$(mktemp -d)
server=''
trap 'for it in $server; do kill "$it" 2> /dev/null || true; done; rm -rf --one-file-system "$work"' EXIT

# A program is packed as what its instructions say, and not as what is said of it. These are small programs in place of the solver.
version=$(sed -n 's/^## \([0-9.]*\)$/\1/p' "$top/CHANGELOG.md" | head -n 1)
cat > "$work/stub.c" <<END
#include <stdio.h>
#include <string.h>
int main(int count, char **words) {
    if (count > 1 && !strcmp(words[1], "--version")) puts("ddserve $version");
    return count * 1.5 > 40 && (count & -count) > 2;
}
END
gcc -O2 -march=x86-64-v2 "$work/stub.c" -o "$work/stub-v2"
gcc -O2 -march=x86-64-v3 "$work/stub.c" -o "$work/stub-v3"
gcc -O2 -march=x86-64-v2 -mbmi "$work/stub.c" -o "$work/stub-bmi"
git clone -q "$top" "$work/clone"
cp -r "$here/." "$work/clone/packaging"
packed() { # WANTED WORDS..: the forms in the package that build.sh makes of these words, or what it says
    wanted=$1
    shift
    rm -rf "$work/packed"
    if said=$("$work/clone/packaging/build.sh" "$@" "$work/packed" 2>&1); then
        said=$(tar -tzf "$work"/packed/*.tar.gz | sed -n 's,.*/libexec/ddserve/ddserve-,,p' | xargs)
    fi
    [[ $said == *"$wanted" ]] || fail "build.sh $* makes '$said' and not '$wanted'"
}
built=$work/clone/crates/ddserve/out
mkdir -p "$built"
packed 'no program is built: start ./ddserve serve --help once, or name one by --v2 or --v3'
for noted in x86-64-v2 x86-64-v3 nothing; do
    if [ "$noted" = nothing ]; then rm "$built/processor"; else echo "$noted" > "$built/processor"; fi
    for form in v2 v3; do
        cp "$work/stub-$form" "$built/ddserve"
        packed "$form"
    done
done
packed 'v2 v3' --v2 "$work/stub-v2" --v3 "$work/stub-v3"
packed 'name it by --v3' --v2 "$work/stub-v3"
packed 'name it by --v3' --v2 "$work/stub-bmi"
packed 'name it by --v2' --v3 "$work/stub-v2"
packed 'is no program for x86-64' --v2 "$here/ddserve.sh"
at=1
for word in "$@"; do
    at=$((at + 1))
    [ "$word" != --v3 ] || packed 'name it by --v3' --v2 "${!at}"
done
echo 'packages: each program is packed as what it was compiled for'

# What a release is made of.
release() { # WANTED WORDS..: what release.sh ends with
    wanted=$1
    shift
    said=$("$work/clone/packaging/release.sh" "$@" "$work/release" 2>&1) || true
    [[ $said == *"$wanted" ]] || fail "release.sh $* says '$said' and not '$wanted'"
}
both=(--v2 "$work/stub-v2" --v3 "$work/stub-v3")
commit=(git -C "$work/clone" -c user.name=nobody -c user.email=nobody@example.org)
"${commit[@]}" add -A
"${commit[@]}" commit -q --allow-empty -m 'As it is now'
git -C "$work/clone" tag "v$version" HEAD~
release "the commit has no tag v$version, which CHANGELOG.md begins with" "${both[@]}"
git -C "$work/clone" tag -f "v$version" > /dev/null
echo >> "$work/clone/README.md"
release 'files of the commit are changed' "${both[@]}"
git -C "$work/clone" checkout -q README.md
sed "s/ddserve $version/ddserve 0.0.9/" "$work/stub.c" | gcc -O2 -x c - -o "$work/stub-old"
release "is 'ddserve 0.0.9' and not ddserve $version" --v2 "$work/stub-old" --v3 "$work/stub-v3"
[ ! -e "$work/release" ] || fail 'release.sh leaves something where it refuses'
release "$work/release/SHA256SUMS" "${both[@]}"
(cd "$work/release" && sha256sum --quiet -c SHA256SUMS && [ "$(wc -l < SHA256SUMS)" = 2 ] && [ "$(find . -type f | wc -l)" = 3 ]) || fail 'the sums of the release are not those of its files'
echo 'packages: a release is made of a commit with the tag of its version'

# Two builds, in other folders and with another mask and clock zone.
mapfile -t first < <("$here/build.sh" "$@" "$work/first")
mapfile -t second < <(umask 077 && TZ=Asia/Tokyo TMPDIR=$work "$here/build.sh" "$@" "$work/second")
[ ${#first[@]} = 2 ] || fail 'no packages were made'
for at in 0 1; do
    cmp "${first[at]}" "${second[at]}"
done
tarball=${first[0]} deb=${first[1]}
echo 'packages: two builds make the same bytes'

lintian --allow-root --fail-on error --display-level '>=warning' --suppress-tags bogus-mail-host "$deb"
echo 'packages: lintian has no errors'

# The tarball, where it was unpacked and through a link; and each option of the help.
tar -xzf "$tarball" -C "$work"
tree=$(find "$work" -maxdepth 1 -name 'ddserve-*' -type d)
ln -s "$tree/bin/ddserve" "$work/link"
line='{"do":"solve","deal":"N:A... K... Q... J...","trump":4,"first":0,"solutions":3}'
reply='{"cards":[{"equals":0,"rank":14,"score":1,"suit":0}]}'
for program in "$tree/bin/ddserve" "$work/link"; do
    [ "$(echo "$line" | "$program" solve)" = "$reply" ] || fail "$program doesn't answer"
done
[ "$("$tree/bin/ddserve" --version)" = "ddserve $(sed -n 's/^## \([0-9.]*\)$/\1/p' "$tree/CHANGELOG.md" | head -1)" ] || fail 'the version is not that of the changelog'
man -l "$tree/share/man/man1/ddserve.1" 2>&1 > "$work/page" | grep . && fail 'the page of the manual has mistakes'
bash -n "$tree/share/bash-completion/completions/ddserve"
zsh -n "$tree/share/zsh/site-functions/_ddserve"
fish=$tree/share/fish/vendor_completions.d/ddserve.fish
fish -n "$fish"
fish_completes() { # LINE: what fish completes its last word to
    fish --no-config -c 'source $argv[1]; complete -C "$argv[2]"' "$fish" "$1" | cut -f 1 | sed 's/=$//' | sort -u
}
commands=$("$tree/bin/ddserve" --help | sed -n '/^Commands:/,/^$/s/^  \([a-z][a-z]*\) .*/\1/p')
for command in $commands; do
    for page in "$tree/share/bash-completion/completions/ddserve" "$tree/share/zsh/site-functions/_ddserve" "$fish"; do
        grep -q -w -- "$command" "$page" || fail "$page doesn't have the command $command"
    done
    [ "$command" = help ] || for option in $("$tree/bin/ddserve" "$command" --help | grep -o '^ *\(-[a-z], \)*--[a-z-]*' | grep -o -- '--[a-z-]*'); do
        for page in "$work/page" "$tree/share/bash-completion/completions/ddserve" "$tree/share/zsh/site-functions/_ddserve"; do
            tr '\342\200\220' '-' < "$page" | grep -q -- "$option" || grep -q -- "$option" "$page" || fail "$page doesn't have the option $option of $command"
        done
        fish_completes "ddserve $command $option" | grep -q -x -e "$option" || fail "fish doesn't complete $option of $command"
    done
done
complete() { # WORDS.. : what bash completes the last one to
    bash -c '. "$1"; shift; COMP_WORDS=("$@"); COMP_CWORD=$(($# - 1)); _ddserve; echo "${COMPREPLY[*]}"' - "$tree/share/bash-completion/completions/ddserve" "$@"
}
completes() { # WANTED WORDS..: what both complete the last word to, in any order
    wanted=$1
    shift
    for told in "$(complete "$@")" "$(fish_completes "$*" | xargs)"; do
        [ "$(xargs -n 1 <<< "$told" | sort)" = "$(xargs -n 1 <<< "$wanted" | sort)" ] || fail "a shell completes '$*' to '$told'"
    done
}
completes solve ddserve so
completes --websocket ddserve serve --we
completes --tags ddserve pbn --t
completes 'DoubleDummyTricks OptimumScore ParContract OptimumResultTable' ddserve pbn --tags ''
completes 'OptimumScore OptimumResultTable' ddserve pbn --tags Opt
completes 'ParContract,OptimumScore ParContract,OptimumResultTable' ddserve pbn --tags ParContract,Opt
completes 'OptimumScore,OptimumResultTable' ddserve pbn --tags OptimumScore,Opt
[ "$(complete ddserve pbn --tags = Par)" = ParContract ] && [ "$(complete ddserve pbn --tags = | wc -w)" = 4 ] || fail 'bash does not complete the names behind --tags='
[ "$(fish_completes 'ddserve pbn --tags=OptimumScore,Opt')" = --tags=OptimumScore,OptimumResultTable ] || fail 'fish does not complete the names behind --tags='
echo 'packages: the tarball answers, and its pages have each option'

# The links of the pages as they stand in the sources, the package's README among them.
python3 "$here/links.py" --links "$here"/*.md "$top"/{python,web,examples}/README.md
# The README's links, and what it tells: by Debian's Python, which finds what the package has for it.
/usr/bin/python3 -c 'import sys; sys.exit("/usr/lib/python3/dist-packages" not in sys.path)' || fail "Debian's Python looks elsewhere"
mkdir "$work/scratch"
python3 "$here/links.py" "$tree" "$work/scratch" "PATH=$tree/bin:/usr/bin:$PATH" "PYTHONPATH=$tree/python"
dpkg-deb -x "$deb" "$work/unpacked"
python3 "$here/links.py" "$work/unpacked/usr/share/doc/ddserve" "$work/scratch" "PATH=$work/unpacked/usr/bin:/usr/bin:$PATH" "PYTHONPATH=$work/unpacked/usr/lib/python3/dist-packages"
echo 'packages: each link of its pages leads somewhere, in the sources too, and the commands of its README do what it says'

# A bare Debian.
bare=$work/bare
if [ -n "${BARE:-}" ] && [ -e "$BARE/base.tar" ]; then
    mkdir "$bare"
    tar -xf "$BARE/base.tar" -C "$bare"
else
    # shellcheck disable=SC1091
    debootstrap --variant=minbase "$(. /etc/os-release && echo "$VERSION_CODENAME")" "$bare" ${MIRROR:+"$MIRROR"} > "$work/log" 2>&1 || { tail -5 "$work/log" >&2; fail 'debootstrap failed'; }
    [ -z "${BARE:-}" ] || tar -cf "$BARE/base.tar" -C "$bare" .
fi
cp "$deb" "$bare/ddserve.deb"
start=$(date +%s%N)
chroot "$bare" dpkg -i /ddserve.deb > "$work/log" 2>&1 || { cat "$work/log" >&2; fail 'dpkg failed'; }
grep -q 'Package: ddserve' "$bare/var/lib/dpkg/status"
mkdir -p "$bare/proc"
cp /proc/cpuinfo "$bare/proc/cpuinfo"
[ "$(echo "$line" | chroot "$bare" ddserve solve)" = "$reply" ] || fail 'it does not answer in a bare Debian'
echo "packages: in a bare Debian the first answer came $((($(date +%s%N) - start) / 1000000)) ms after the start of the installation"
# The choice, with scripts in the place of the programs and processors that are written down.
mkdir -p "$bare/try/bin" "$bare/try/libexec/ddserve"
cp "$bare/usr/bin/ddserve" "$bare/try/bin/ddserve"
chooses() { # WANTED FLAGS PROGRAMS..
    wanted=$1
    printf 'processor\t: 0\nflags\t\t: %s\n' "$2" > "$bare/proc/cpuinfo"
    shift 2
    rm -f "$bare"/try/libexec/ddserve/*
    for form in "$@"; do
        printf '#!/bin/sh\necho %s "$@"\n' "$form" > "$bare/try/libexec/ddserve/ddserve-$form"
        chmod 755 "$bare/try/libexec/ddserve/ddserve-$form"
    done
    got=$(chroot "$bare" /try/bin/ddserve solve --workers 4 2> /dev/null) || got=none
    [ "$got" = "$wanted" ] || fail "of the programs $* it chooses '$got' for a processor with '$(sed -n 's/^flags//p' "$bare/proc/cpuinfo")'"
}
newer='fpu sse4_2 abm avx avx2 bmi1 bmi2 f16c fma movbe rdrand'
chooses 'v3 solve --workers 4' "$newer" v2 v3
chooses 'v2 solve --workers 4' "${newer/ avx2/}" v2 v3
chooses 'v2 solve --workers 4' "$newer" v2
chooses none "${newer/ movbe/}" v3
rm "$bare/proc/cpuinfo"
[ "$(chroot "$bare" ddserve --version)" = "ddserve $(sed -n 's/^## \([0-9.]*\)$/\1/p' "$tree/CHANGELOG.md" | head -1)" ] || [ ! -e "$bare/usr/libexec/ddserve/ddserve-v2" ] || fail 'without a word on the processor it does not start'
rm -r "$bare/try"
cp /proc/cpuinfo "$bare/proc/cpuinfo"
# The unit, among those of this machine.
root=$work/root
mkdir -p "$root/lib/systemd"
cp -r /lib/systemd/system "$root/lib/systemd/"
dpkg-deb -x "$deb" "$root"
systemd-analyze verify --root="$root" --man=no ddserve.service > "$work/said" 2>&1 || { cat "$work/said" >&2; fail 'the unit does not verify'; }
! grep ddserve "$work/said" >&2 || fail 'the unit has mistakes'
# What ExecStart says, with the settings of the package.
listen=127.0.0.1:0
chroot "$bare" ddserve serve --listen "$listen" > "$work/said" &
server=$!
for _ in $(seq 100); do
    grep -q listening "$work/said" && break
    sleep 0.1
done
port=$(sed -n 's/^listening on 127.0.0.1:\([0-9]*\)$/\1/p' "$work/said")
[ -n "$port" ] || fail 'it does not serve in a bare Debian'
asked() { # PORT: what the server replies, which may be about to start
    python3 -c '
import socket, sys, time
for attempt in range(600):
    try:
        with socket.create_connection(("127.0.0.1", int(sys.argv[1])), timeout=30) as stream, stream.makefile("rw") as lines:
            lines.write(sys.argv[2] + "\n")
            lines.flush()
            sys.exit(print(lines.readline().rstrip()))
    except ConnectionError:
        time.sleep(0.1)' "$1" "${line%\}},\"wait\":30000}"
}
served="${reply%\}},\"job\":1,\"state\":\"done\"}"
told=$(asked "$port")
[ "$told" = "$served" ] || fail "it serves '$told' in a bare Debian"
kill "$server"
wait "$server" 2> /dev/null || true
server=''

# As the unit has it run, by `confined.py`: with its user, its limits and what its filters leave. Its network is that of the machine.
port=$(python3 -c 'import socket; it = socket.create_server(("127.0.0.1", 0)); print(it.getsockname()[1])')
sed -i "s/^DDSERVE_LISTEN=.*/DDSERVE_LISTEN=127.0.0.1:$port/; s/^DDSERVE_OPTIONS=.*/DDSERVE_OPTIONS=\"--workers 1 --events 2048\"/" "$bare/etc/default/ddserve"
unit=$bare/lib/systemd/system/ddserve.service
command=$(sed -n 's/^ExecStart=//p' "$unit")
confined=("$here/confined.py" "$bare" "$unit")
# (The shell takes the options apart as systemd does.)
"${confined[@]}" sh -c ". /etc/default/ddserve; exec $command" > "$work/said" 2>&1 &
server=$!
[ "$(asked "$port")" = "$served" ] || { tail -5 "$work/said" >&2; fail "as the unit has it run it doesn't serve"; }
tr '\0' ' ' < "/proc/$server/cmdline" | grep -q -- '--workers 1 --events 2048' || fail 'it does not take its options from /etc/default/ddserve'
for line_of in 'Uid:.[1-9]' 'CapEff:.0000000000000000' 'CapBnd:.0000000000000000' 'NoNewPrivs:.1' 'Seccomp:.2' 'Umask:.0077'; do
    grep -q "^$line_of" "/proc/$server/status" || fail "the service runs without $line_of"
done
grep -q '^Max open files *8192 *8192 ' "/proc/$server/limits" || fail 'the service runs without its limit of open files'
kill "$server"
wait "$server" 2> /dev/null || true
server=''
# That the filters are there: another family of addresses is refused, and the one that serves isn't.
"${confined[@]}" perl -MSocket -e 'socket(my $it, PF_INET, SOCK_STREAM, 0) or exit 1; exit(socket(my $other, PF_UNIX, SOCK_STREAM, 0) ? 2 : 0)' \
    || fail 'the filters of the unit are not in force'
echo 'packages: it serves with the user, the limits and the filters of the unit'
# Root's Python leaves what it has compiled.
mkdir -p "$bare/usr/lib/python3/dist-packages/ddserve/__pycache__"
touch "$bare/usr/lib/python3/dist-packages/ddserve/__pycache__/pool.cpython-311.pyc"
chroot "$bare" dpkg --purge ddserve > "$work/log" 2>&1 || { cat "$work/log" >&2; fail 'dpkg --purge failed'; }
left=$(find "$bare" -xdev -path "$bare/proc" -prune -o -name '*ddserve*' -print | grep -v -e '/ddserve.deb$' -e '/var/log/' || true)
[ -z "$left" ] || fail "a purge leaves $left"
echo 'packages: the unit verifies, and a purge leaves nothing'
