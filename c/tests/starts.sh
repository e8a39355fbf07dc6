#!/usr/bin/env bash
# What a program over the library says where ddserve doesn't start: its calls return -1, standard error has one line in all, and
# GetDDSInfo tells the same. Where it starts nothing is said. Words: the built starts.c, and the program ddserve.
set -eu
starts=$(readlink -f -- "$1") program=$2
work=$(mktemp -d)
trap 'rm -rf "$work"' EXIT
: > "$work/no_program"
says() { # CODES LINE ENVIRONMENT..
    codes=$1 line=$2
    shift 2
    env "$@" "$starts" > "$work/out" 2> "$work/err"
    [ "$(head -n 1 "$work/out")" = "$codes" ] || { echo "c/tests/starts.sh: with $* its calls return $(head -n 1 "$work/out")" >&2; exit 1; }
    [ "$(cat "$work/err")" = "${line:+ddserve: $line}" ] || { echo "c/tests/starts.sh: with $* it says: $(cat "$work/err")" >&2; exit 1; }
    told=$(sed -n 's/^No answers: //p' "$work/out")
    [ "$told" = "$line" ] || { echo "c/tests/starts.sh: with $* GetDDSInfo tells: $told" >&2; exit 1; }
}
missing="can't start the program (No such file or directory)"
says '-1 -1' "$missing: ddserve, from the PATH, since DDSERVE is not set" -u DDSERVE PATH="$work"
says '-1 -1' "$missing: ddserve, from the PATH, since DDSERVE is not set" DDSERVE= PATH="$work"
says '-1 -1' "$missing: /nowhere/ddserve, which DDSERVE names" DDSERVE=/nowhere/ddserve
says '-1 -1' "can't start the program (Permission denied): $work/no_program, which DDSERVE names" DDSERVE="$work/no_program"
says '-1 -1' 'the program ended before its first reply: /bin/true, which DDSERVE names' DDSERVE=/bin/true
says '1 1' '' DDSERVE="$program"
echo 'starts: where the program does not start one line says why, and so does GetDDSInfo'
