#!/bin/sh
# read_part.sh K N MAILBOX DIRECTORY: writes the lines of the K-th of N equal parts of a mailbox to a file in the
# directory, which gets its name when it is complete. A part that is there is not read again. The exit status is 0
# if the file is complete, and otherwise that of rocktray.
set -eu
if [ $# != 4 ]; then
    echo "usage: read_part.sh K N MAILBOX DIRECTORY" >&2
    exit 2
fi
top=$(dirname "$(readlink -f "$0")")/../..
whole=$4/$(printf %05d "$1").jsonl
mkdir -p "$4"
[ ! -e "$whole" ] || exit 0
part=$(mktemp "$4/.part-XXXXXX")
trap 'rm -f "$part"' EXIT
status=0
"$top/rocktray" json --part "$1/$2" "$3" > "$part" || status=$?
case $status in
    0 | 3) mv "$part" "$whole" ;;
    *) exit "$status" ;;
esac
