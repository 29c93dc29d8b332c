#!/bin/sh
# `recall diff`: steps the lines of a journal by this program and by another, and tells the first line that they write
# otherwise. The program starts no other one itself, so that is done here.
set -eu
recall=$RECALL_PROGRAM
journal='' with='' command=run programs=''

# What a terminal may be given of these bytes: no control character.
shown() {
    printf '%s' "$1" | LC_ALL=C tr '\000-\037\177' '?' | cut -c 1-1000
}

fail() {
    echo "recall: diff: $(shown "$1")" >&2
    exit 2
}

help() {
    cat <<'END'
Steps the whole lines of a journal by this program and by another, and tells the first line that they write otherwise

Usage: recall diff [OPTIONS] --journal <FILE> --with <PROGRAM>

Options:
      --journal <FILE>  The journal, which is only read
      --with <PROGRAM>  The other program
      --drive           Carries on behind each line, as `drive` does
      --programs        Has both host units that run programs
  -h, --help            Print help

Exit status:
  0  all lines are written the same
  1  one is written otherwise
  2  the words are bad, or a file or a program failed
END
}

while [ $# -gt 0 ]; do
    case $1 in
    --journal | --with)
        [ $# -ge 2 ] || fail "a value is required for $1"
        case $1 in
        --journal) journal=$2 ;;
        --with) with=$2 ;;
        esac
        shift
        ;;
    --journal=*) journal=${1#*=} ;;
    --with=*) with=${1#*=} ;;
    --drive) command=drive ;;
    --programs) programs=--programs ;;
    -h | --help)
        help
        exit 0
        ;;
    *) fail "there is no word $1: see recall diff --help" ;;
    esac
    shift
done
[ -n "$journal" ] && [ -n "$with" ] ||
    fail "name the journal by --journal FILE, and the other program by --with PROGRAM"
case $journal in
-*) journal=./$journal ;;
esac
told=$("$recall" journal --json "$journal") || exit 2
case $told in
*'"trimmed":0'*) ;;
*) fail "the first lines of the journal were trimmed away: no run from the first can be compared" ;;
esac
lines=${told##*\"lines\":}
lines=${lines%%[!0-9]*}
room=$(mktemp -d)
trap 'rm -rf "$room"' EXIT

# Steps the lines by a program, and keeps what it writes. A program that isn't there, or fails, says why itself.
answer() {
    head -n "$lines" "$journal" | "$1" $command -q $programs >"$room/$2" || fail "$1 failed on $journal"
}

answer "$recall" old
answer "$with" new
if cmp -s "$room/old" "$room/new"; then
    echo "all of $lines lines are answered the same"
    exit 0
fi

# How many lines are the same, and of which step the next one is: a line that isn't an output is a reply.
count() {
    wc -l <"$room/$1"
}

place=$(cmp "$room/old" "$room/new" 2>/dev/null || true)
if [ -n "$place" ]; then
    same=$((${place##*line } - 1))
elif [ "$(count old)" -lt "$(count new)" ]; then
    same=$(count old)
else
    same=$(count new)
fi
step=$(head -n "$same" "$room/old" | grep -cv '^{"output":' || true)
old=$(tail -n "+$((same + 1))" "$room/old" | head -n 1)
new=$(tail -n "+$((same + 1))" "$room/new" | head -n 1)
case $old in
'{"output":'*) ;;
*) case $new in
    '{"output":'*) ;;
    *) step=$((step + 1)) ;;
    esac ;;
esac
echo "line $step of $lines is answered otherwise: $(shown "$(sed -n "${step}p" "$journal")")"
echo "  $("$recall" --version | head -n 1): $(shown "${old:-nothing}")"
echo "  $(shown "$with"): $(shown "${new:-nothing}")"
exit 1
