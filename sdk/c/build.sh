#!/usr/bin/env bash
# Builds a program of recall by clang alone: build.sh NAME.c [MORE.c ..] [-o OUT] [-OPTION ..]. It writes OUT.elf, and
# OUT.img, the image that a unit loads. OUT is NAME in the present folder where it isn't said. Options go to clang.
set -euo pipefail
here=$(cd "$(dirname "${BASH_SOURCE[0]}")" && pwd)

die() {
    echo "build.sh: $*" >&2
    exit 1
}

out='' words=()
while [ $# -gt 0 ]; do
    case $1 in
    -o) out=${2:?'-o takes a name'} && shift ;;
    *.c)
        [ -n "$out" ] || out=$(basename "$1" .c)
        words+=("$1")
        ;;
    *) words+=("$1") ;;
    esac
    shift
done
[ -n "$out" ] || die "its words are NAME.c [MORE.c ..] [-o OUT] [-OPTION ..]"
type -P clang >/dev/null || die "clang is missing: it is in Debian's package clang"
type -P ld.lld >/dev/null || die "ld.lld is missing: it is in Debian's package lld"
type -P llvm-objcopy >/dev/null || die "llvm-objcopy is missing: it is in Debian's package llvm"

# What isn't linked has no place, so that with -g a debugger finds none of it at address 0, where the image begins.
clang --target=riscv32 -march=rv32im -mabi=ilp32 -std=c11 -O2 -Wall -Wextra -Wno-unused-parameter \
    -ffreestanding -nostdlib -fno-pic \
    -msmall-data-limit=0 -mno-relax -ffunction-sections -fdata-sections -fuse-ld=lld -Wl,--gc-sections \
    -Wl,--build-id=none \
    '-Wl,-z,dead-reloc-in-nonalloc=.debug_*=0xffffffff' -Wl,-T,"$here/recall.ld" -I "$here" \
    -o "$out.elf" "$here/start.s" "$here/support.c" "${words[@]}"
llvm-objcopy -O binary "$out.elf" "$out.img"
echo "$out.img: $(stat -c %s "$out.img") bytes" >&2
