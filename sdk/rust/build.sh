#!/usr/bin/env bash
# Builds programs of recall in Rust: build.sh FOLDER [OUT]. FOLDER has a cargo package whose programs are in src/bin;
# for each of them, NAME.rs, it writes NAME.elf, and NAME.img, the image that a unit loads, to the folder OUT (the
# present one where it isn't said). Where the compiler has no `core` for the target, that is built too, of the sources
# that the compiler has.
set -euo pipefail
here=$(cd "$(dirname "${BASH_SOURCE[0]}")" && pwd)
target=riscv32im-unknown-none-elf

die() {
    echo "build.sh: $*" >&2
    exit 1
}

[ $# = 1 ] || [ $# = 2 ] || die "its words are FOLDER [OUT]"
[ -f "$1/Cargo.toml" ] || die "$1 has no Cargo.toml"
type -P cargo >/dev/null || die "cargo is missing: rustup installs it, or Debian's package cargo-web"
type -P llvm-objcopy >/dev/null || die "llvm-objcopy is missing: it is in Debian's package llvm"
from=$(cd "$1" && pwd)
out=$(cd "${2:-.}" && pwd)
sysroot=$("${RUSTC:-rustc}" --print sysroot)
library=$sysroot/lib/rustlib/src/rust/library

words=()
if [ ! -d "$sysroot/lib/rustlib/$target" ]; then
    [ -d "$library" ] ||
        die "the target $target is missing: rustup target add $target, or Debian's package rust-web-src beside" \
            "rustc-web"
    export RUSTC_BOOTSTRAP=1
    words=(-Z build-std=core)
    [ ! -d "$library/vendor" ] ||
        words+=(
            --config 'source.crates-io.replace-with="vendored"'
            --config "source.vendored.directory=\"$library/vendor\""
        )
fi

export CARGO_TARGET_DIR=${CARGO_TARGET_DIR:-$out/target}
flags="-C link-arg=-T$here/../c/recall.ld -C link-arg=--gc-sections -C relocation-model=static"
# No folder of this machine gets into the image.
flags+=" --remap-path-prefix=$here=recall --remap-path-prefix=$from=program --remap-path-prefix=$library=library"
type -P ld.lld >/dev/null && flags+=" -C linker=ld.lld" # (else the compiler's own)
RUSTFLAGS="$flags ${RUSTFLAGS:-}" cargo build --quiet --release --target $target --bins \
    --manifest-path "$from/Cargo.toml" "${words[@]}"

for source in "$from"/src/bin/*.rs; do
    name=$(basename "$source" .rs)
    cp "$CARGO_TARGET_DIR/$target/release/$name" "$out/$name.elf"
    llvm-objcopy -O binary "$out/$name.elf" "$out/$name.img"
    echo "$out/$name.img: $(stat -c %s "$out/$name.img") bytes" >&2
done
