# shellcheck shell=bash disable=SC2034
# Sourced by the scripts that link the Rust with the product's library, which is x86-64 only. It sets
#   cargo, RUSTC   a Rust that has the x86-64 standard library
#   cc, link       a C compiler for x86-64, and what it needs to link
#   emulator       what runs an x86-64 program here: nothing on x86-64, the kit's emulator elsewhere
#   make_archive   sets archive to the product's library, made again where a source is newer, or to the one that LIBRARY names
#   build_rust_program FOLDER WORDS    builds a Rust program of the package there that has C's main
# and says which packages are wanted where something is not there.

triple=x86_64-unknown-linux-gnu

wanting() {
    echo "$(basename "$0"): $1" >&2
    if [ "$(uname -m)" = x86_64 ]; then
        echo "Wanted: Rust 1.63 or newer (rustc and cargo) and a C compiler (cc)." >&2
    else
        echo "Wanted, by their Debian names, after 'dpkg --add-architecture amd64' and 'apt-get update':" >&2
        echo "  gcc-x86-64-linux-gnu libc6-dev-amd64-cross rustc cargo libstd-rust-dev:amd64" >&2
    fi
    exit 2
}

find_rust() {
    local found
    for found in $(type -ap rustc); do
        if ls "$("$found" --print target-libdir --target "$triple" 2>/dev/null)"/libstd-*.rlib >/dev/null 2>&1 &&
            [ -x "$(dirname "$found")/cargo" ]; then
            export RUSTC=$found
            cargo=$(dirname "$found")/cargo
            return
        fi
    done
    wanting "no Rust here compiles for $triple"
}

find_cc() {
    if [ "$(uname -m)" = x86_64 ]; then
        cc=cc link='-lpthread -ldl -lm'
        command -v "$cc" >/dev/null || wanting "no C compiler"
        return
    fi
    # Linked statically: a dynamically linked Rust program does not start under the emulator. The cross compiler's libm.a is a
    # script that names its parts by a path that is not there, so they are named here.
    cc=x86_64-linux-gnu-gcc
    export CARGO_TARGET_X86_64_UNKNOWN_LINUX_GNU_LINKER=$cc
    command -v "$cc" >/dev/null || wanting "no $cc"
    local parts
    parts=$(ls "$(dirname "$("$cc" -print-file-name=libm.a)")"/libm-*.a 2>/dev/null) || wanting "no C library for $cc"
    link="-static -lpthread -ldl $parts"
}

find_emulator() {
    emulator=
    [ "$(uname -m)" = x86_64 ] && return
    local rt
    rt=$(readlink -f "$(command -v rt)") || wanting "no rt: the Rattle kit has the emulator"
    emulator=$(dirname "$(dirname "$rt")")/on/$(uname -m)/toolchain/bin/qemu-x86_64
    [ -x "$emulator" ] || wanting "no emulator $emulator in the kit"
    # Without 'rep stosb' and 'rep movsb', which a processor does by the line and the emulator byte by byte: with them the C library
    # would take tens of times as long to fill or copy a list.
    emulator="$emulator -cpu max,erms=off"
}

make_archive() {
    archive=${LIBRARY:-target/staticlib/libbarleyhinge.a}
    [ -z "${LIBRARY:-}" ] || return 0
    if [ ! -e "$archive" ] || [ -n "$(find crates crates.txt -name out -prune -o -type f -newer "$archive" -print -quit)" ]; then
        tools/staticlib
    fi
}

# For release. Away from x86-64 it is linked statically too, over a libm.a that names the parts by the path that they have.
build_rust_program() {
    local folder=$1 flags=() parts
    shift
    if [ "$(uname -m)" != x86_64 ]; then
        mkdir -p target/link
        parts=$(dirname "$("$cc" -print-file-name=libm.a)")
        echo "GROUP ( $(ls "$parts"/libm-*.a) $parts/libmvec.a )" >target/link/libm.a
        flags=(-C target-feature=+crt-static -C relocation-model=static -L "native=$PWD/target/link")
    fi
    (cd "$folder" && RUSTFLAGS="${flags[*]}" "$cargo" build --quiet --release --target "$triple" "$@")
}

find_rust
find_cc
find_emulator
