#!/usr/bin/env bash
# Long life: 64 clients of the built program until so many events are made in one process, by runs that follow one another; each
# answer and each run's number of events is accounted for, and memory, descriptors and threads are looked at. Without a word
# 100,000 events by runs of at most 4,096. With the word `whole` 5,000,000 events by runs of 1,048,576, and then as many by runs
# of 65,536.
set -eu
here=$(cd -- "$(dirname -- "$0")" && pwd)
. "$here/needs.sh"
case ${1:-short} in
    short) kinds=('4096 100000') ;;
    whole) kinds=('1048576 5000000' '65536 5000000') ;;
    *) echo "cases/server: $1 is neither short nor whole" >&2; exit 2 ;;
esac
need_program
need_python
command -v rustc > /dev/null || { echo 'cases/server: the command rustc is missing' >&2; exit 1; }
for kind in "${kinds[@]}"; do
    # shellcheck disable=SC2086
    "$python" "$here/clients/long.py" $kind
done
echo "cases/server: long lives"
