#!/usr/bin/env bash
# The same with a C library (malloc, snprintf, string.h), by gcc and picolibc: build-libc.sh NAME.c [MORE.c ..] [-o OUT]
# [-OPTION ..]. It writes OUT.elf, and OUT.img, the image that a unit loads. Options go to gcc.
set -euo pipefail
here=$(cd "$(dirname "${BASH_SOURCE[0]}")" && pwd)

die() {
    echo "build-libc.sh: $*" >&2
    exit 1
}

out='' words=()
while [ $# -gt 0 ]; do
    case $1 in
    -o) out=${2:?'-o takes a name'} && shift ;;
    *.c)
        [ -n "$out" ] || out=$(basename "$1" .c)
        words+=("$1")
        ;;
    *) words+=("$1") ;;
    esac
    shift
done
[ -n "$out" ] || die "its words are NAME.c [MORE.c ..] [-o OUT] [-OPTION ..]"
gcc=riscv64-unknown-elf-gcc
type -P $gcc >/dev/null || die "$gcc is missing: it is in Debian's package gcc-riscv64-unknown-elf"
specs=${PICOLIBC_SPECS:-/usr/lib/picolibc/riscv64-unknown-elf/picolibc.specs}
[ -f "$specs" ] || die "$specs is missing: it is in Debian's package picolibc-riscv64-unknown-elf, and where it" \
    "lies elsewhere PICOLIBC_SPECS says so"

$gcc --specs="$specs" -march=rv32im -mabi=ilp32 -std=gnu11 -O2 -Wall -Wextra -Wno-unused-parameter -nostartfiles \
    -msmall-data-limit=0 -mno-relax -ffunction-sections -fdata-sections -Wl,--gc-sections -Wl,--no-relax \
    -Wl,--build-id=none \
    -Wl,--no-warn-rwx-segments -I "$here" -T "$here/recall.ld" -o "$out.elf" "$here/start.s" "${words[@]}"
riscv64-unknown-elf-objcopy -O binary "$out.elf" "$out.img"
echo "$out.img: $(stat -c %s "$out.img") bytes" >&2
