#!/bin/sh
# The command `recall`, installed: it runs the program beside it, in ../lib/recall.
own=$0
[ ! -L "$own" ] || own=$(readlink -f "$own")
library=${own%/*}/../lib/recall
# A write past a file's limit fails as any other does, in place of ending the program by a signal.
trap '' XFSZ
if [ "$*" = --version ]; then
    "$library/recall" --version || exit
    while read -r name value; do
        [ "$name" != sources ] || echo "sources $value"
    done <"$library/MANIFEST"
    exit 0
fi
if [ "${1-}" = diff ]; then
    shift
    RECALL_PROGRAM=$library/recall exec "$library/diff" "$@"
fi
exec "$library/recall" "$@"
