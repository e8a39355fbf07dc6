#!/bin/sh
# Starts the program that is compiled for this processor: for x86-64-v3 where it has all of that, and else for v2.
set -eu
here=$0
[ ! -L "$here" ] || here=$(readlink -f -- "$here")
case $here in
*/*) here=${here%/*} ;;
*) here=. ;;
esac
programs=$here/../libexec/ddserve

has_v3() {
    while read -r name rest; do
        [ "$name" = flags ] || continue
        for flag in abm avx avx2 bmi1 bmi2 f16c fma movbe; do
            case " $rest " in
            *" $flag "*) ;;
            *) return 1 ;;
            esac
        done
        return 0
    done
    return 1
}

if { has_v3 < /proc/cpuinfo; } 2> /dev/null && [ -x "$programs/ddserve-v3" ]; then
    exec "$programs/ddserve-v3" "$@"
fi
if [ -x "$programs/ddserve-v2" ]; then
    exec "$programs/ddserve-v2" "$@"
fi
echo 'ddserve: this processor has not all of x86-64-v3, and a program for x86-64-v2 is not here' >&2
exit 1
