#!/usr/bin/env bash
# SPDX-License-Identifier: MIT OR Apache-2.0
# Builds the crate for Rust over the library for C, with every warning an error, and tests it:
#
# - its format and clippy; its tests, with the manual's examples and generated operations compared with the program
# - the examples of its pages, and those that the compiler must reject; the example `first`; a program without std
# - tests of lent pages, traces, certificates, lists and copies under valgrind. Miri, which checks unsafe blocks, is not in Debian's packages
#   and cannot call foreign functions
# - messages about a library that is missing or is for another processor
# - the tests for AArch64, if there are a compiler, a std and an emulator for it
#
# usage: rust/test.sh [--install | --install-only] [--bench]
#
#   --install       first install Debian's packages of Rust, C, valgrind and QEMU
#   --install-only  install these packages and do nothing else
#   --bench         also measure operations, from Rust and from C
#
# ARCHIVES=FOLDER has ready libraries, TARGET/libgorseplumb.a. FFAPLAY=FILE is the program to compare with. Without these variables the script
# proves and builds both. It uses the cargo on your path, and no network.
#
# Status: 0 if all tests that ran passed; the last line says whether all ran. 64 if the arguments are wrong; otherwise another number.
set -euo pipefail
here=$(cd "$(dirname "${BASH_SOURCE[0]}")" && pwd)
top=$(dirname "$here")
target=x86_64-unknown-linux-gnu
arm=aarch64-unknown-linux-gnu
packages="rustc cargo rust-clippy rustfmt gcc libc6-dev binutils valgrind gcc-aarch64-linux-gnu qemu-user-static"
arm_std="libstd-rust-dev:arm64"
bench=
for word in "$@"; do
    case $word in
    --install | --install-only)
        { dpkg --add-architecture arm64 && apt-get update && apt-get install -y $packages $arm_std; } >/dev/null ||
            echo "could not install all of: $packages $arm_std"
        if [[ $word == --install-only ]]; then exit 0; fi
        ;;
    --bench) bench=1 ;;
    *)
        echo "usage: rust/test.sh [--install | --install-only] [--bench]" >&2
        exit 64
        ;;
    esac
done
to=$(mktemp -d)
trap 'rm -rf "$to"' EXIT
missing=0
export CARGO_TARGET_DIR=$to/target CARGO_TERM_COLOR=never CARGO_NET_OFFLINE=true

has() {
    command -v "$1" >/dev/null || { echo "not run: there is no $1 (Debian has it in one of: $packages)"; missing=1; return 1; }
}

# What a log of cargo says of tests, if it ran some.
summary() {
    awk '/^test result/ { tests += $4; left += $8 + $12 }
        END { print (tests ? tests " tests passed" : "done") (left ? "; " left " did not run" : "") }' "$1"
}

# Runs a command, and shows its output only if it fails: quiet NAME COMMAND..
quiet() {
    "${@:2}" >"$to/log" 2>&1 || { cat "$to/log" >&2; echo "$1: failed" >&2; exit 1; }
    echo "$1: $(summary "$to/log")"
}

# If the library cannot be linked, a check goes on and a build fails. Both must say why: refused NAME FOLDER PATTERN
refused() {
    local said
    said=$(GORSEPLUMB_LIB_DIR=$2 cargo check --all-targets 2>&1) || { echo "$1: cargo check must succeed, but says: $said" >&2; exit 1; }
    grep -q "gorseplumb: .*$3" <<<"$said" || { echo "$1: cargo check must say '$3', but says: $said" >&2; exit 1; }
    if said=$(GORSEPLUMB_LIB_DIR=$2 cargo build --example first 2>&1); then echo "$1: cargo build succeeded, and must fail" >&2; exit 1; fi
    grep -q "gorseplumb: .*$3" <<<"$said" || { echo "$1: cargo build must say '$3', but says: $said" >&2; exit 1; }
    grep -q "error: could not find native static library .gorseplumb (run c/archive --unproved" <<<"$said" ||
        { echo "$1: the compiler must name c/archive --unproved, but says: $said" >&2; exit 1; }
    echo "$1: rejected: $(sed -n "s|$to|..|g; s/.*gorseplumb: //p" <<<"$said" | head -1)"
}

# Puts the archive for a target into a folder: archive TARGET FOLDER
archive() {
    local ready=${ARCHIVES:-}/$1/libgorseplumb.a
    if [[ -z ${ARCHIVES:-} ]]; then
        "$top/c/archive" --target "$1" "$2/libgorseplumb.a"
    elif [[ -e $ready ]]; then
        cp "$ready" "$2/"
    else
        echo "not run: there is no $ready"
        missing=1
        return 1
    fi
}

# Whether there is what the tests for AArch64 need.
has_arm() {
    has aarch64-linux-gnu-gcc && has qemu-aarch64-static || return
    compgen -G "$(rustc --print target-libdir --target $arm)/libstd-*.rlib" >/dev/null && return
    echo "not run: this rustc has no std for AArch64 (Debian has it in $arm_std)"
    missing=1
    return 1
}

if ! has cargo || ! has gcc; then echo "no test ran"; exit 0; fi
mkdir "$to/lib" "$to/arm" "$to/other" "$to/none"
archive $target "$to/lib" || exit 1
if [[ -z ${FFAPLAY:-} ]]; then
    "$top/ffaplay" prove
    FFAPLAY=$top/crates/ffaplay/out/ffaplay
fi
"$FFAPLAY" check "$top/examples/machine.toml" >/dev/null
export GORSEPLUMB_LIB_DIR=$to/lib FFAPLAY
cd "$here"

rustc --version
if has cargo-fmt; then
    quiet "format of the crate" cargo fmt --check
    quiet "format of bare/" cargo fmt --check --manifest-path bare/Cargo.toml
fi
if has cargo-clippy; then
    quiet "clippy" cargo clippy --all-targets -- -D warnings
    quiet "clippy, without features" cargo clippy --no-default-features -- -D warnings
    quiet "clippy, bare/" cargo clippy --manifest-path bare/Cargo.toml -- -D warnings
fi
# (rustdoc compares the codes of the errors that it expects only where it may use what isn't stable)
quiet "examples of the pages, and those that must not compile" env RUSTC_BOOTSTRAP=1 cargo test --doc
quiet "pages" env RUSTDOCFLAGS="-D warnings" cargo doc --no-deps
quiet "tests" cargo test --lib --tests -- --include-ignored
quiet "tests, optimized" cargo test --release --lib --tests -- --include-ignored
quiet "the first example" cargo run --example first
for profile in "" --release; do
    quiet "a program without std${profile:+, optimized}" cargo run $profile --manifest-path bare/Cargo.toml
done
# The functions that the archive calls and hasn't are those that the crate's page names.
nm "$to/lib/libgorseplumb.a" 2>/dev/null | awk '$1 == "U" { asked[$2] } NF == 3 { had[$3] }
    END { for (name in asked) if (!(name in had)) print name }' | sort >"$to/asked"
named=$(sed -n '/^.*# What the program has to have/,/^.*# What the types ask/p' src/lib.rs |
    grep '^//! - ' | sed 's/:.*//' | grep -o '`[a-z_]*`' | tr -d '`' | sort)
diff <(echo "$named") "$to/asked" >&2 || { echo "the crate's page must name exactly the functions that the library needs (>)" >&2; exit 1; }
echo "the crate's page names the $(wc -l <"$to/asked") functions that the library needs"
toml() { nm "$1" 2>/dev/null | grep -ci toml || true; }
if (($(toml "$to/lib/libgorseplumb.a") == 0 || $(toml "$CARGO_TARGET_DIR/release/bare") > 0)); then
    echo "a program that boots from numbers links the TOML reader, and must not; or no function of the library has TOML in its name" >&2
    exit 1
fi
echo "a program that boots from numbers does not link the TOML reader"
if has valgrind; then
    # The archive isn't instrumented by a sanitizer. One test forgets machines, so that their memory is lost.
    definite="--leak-check=full --show-leak-kinds=definite --errors-for-leak-kinds=definite"
    export CARGO_TARGET_X86_64_UNKNOWN_LINUX_GNU_RUNNER="valgrind -q --error-exitcode=9 $definite"
    quiet "lent pages under valgrind" cargo test --test lent -- --skip forgotten --test-threads 1
    quiet "the manual's traces under valgrind" cargo test --test examples -- --test-threads 1
    quiet "certificates, lists and copies under valgrind" cargo test --test certificates --test lists --test copies -- --test-threads 1
    unset CARGO_TARGET_X86_64_UNKNOWN_LINUX_GNU_RUNNER
fi

echo 'int nothing;' >"$to/nothing.c"
gcc -c "$to/nothing.c" -o "$to/nothing.o"
printf '\xb7\x00' | dd of="$to/nothing.o" bs=1 seek=18 conv=notrunc status=none # e_machine of AArch64
ar rcS "$to/other/libgorseplumb.a" "$to/nothing.o"
refused "a library for AArch64" "$to/other" "is for aarch64, and x86_64 is built for"
refused "no library" "$to/none" "there is no .*libgorseplumb.a"
# In a fresh clone the first line says how an archive is made, the way of minutes first.
mkdir -p "$to/fresh/c" && touch "$to/fresh/c/archive" && cp -r "$here" "$to/fresh/rust"
said=$(cd "$to/fresh/rust" && env -u GORSEPLUMB_LIB_DIR cargo check --target-dir "$to/fresh/target" 2>&1) || { echo "a fresh clone: cargo check must succeed, but says: $said" >&2; exit 1; }
grep -q 'by `c/archive --unproved --target [^`]*` (about four minutes;.* by `c/archive --target' <<<"$(grep -m 1 'gorseplumb: ' <<<"$said")" ||
    { echo "a fresh clone: the first line must say how to make the library, but is: $said" >&2; exit 1; }
# Firmware that forgets to settle isn't linked.
sed -i '/^settle_by!/d; s/    settle_by, /    /' "$to/fresh/rust/bare/src/main.rs"
if said=$(cargo build --manifest-path "$to/fresh/rust/bare/Cargo.toml" --target-dir "$to/fresh/target" 2>&1); then echo "a program without settle_by links, and must not" >&2; exit 1; fi
grep -q 'undefined .*gorseplumb_settle' <<<"$said" || { echo "without settle_by a build must report that gorseplumb_settle is undefined, but says: $said" >&2; exit 1; }
echo "a program without settle_by does not link"
echo nothing >"$to/none/libgorseplumb.a"
refused "a file that is not a library" "$to/none" "is no archive of ELF files"
rm "$to/none/libgorseplumb.a"
quiet "pages without a library" env GORSEPLUMB_LIB_DIR="$to/none" RUSTDOCFLAGS="-D warnings" cargo doc --no-deps

if has_arm && archive $arm "$to/arm"; then
    export CARGO_TARGET_AARCH64_UNKNOWN_LINUX_GNU_LINKER=aarch64-linux-gnu-gcc
    export CARGO_TARGET_AARCH64_UNKNOWN_LINUX_GNU_RUNNER=qemu-aarch64-static
    export GORSEPLUMB_LIB_DIR=$to/arm
    quiet "AArch64: tests, optimized" cargo test --target $arm --release --lib --tests -- --include-ignored
    quiet "AArch64: a program without std" cargo run --target $arm --release --manifest-path bare/Cargo.toml
    GORSEPLUMB_LIB_DIR=$to/lib
fi

if [[ $bench ]]; then
    echo "from Rust:"
    cargo bench -q --bench operations
    echo "from C:"
    gcc -std=gnu11 -Wall -Wextra -Werror -O2 "-I$top/c" benches/operations.c "$top/c/heap.c" "$top/c/unsettled.c" \
        "$to/lib/libgorseplumb.a" -o "$to/operations"
    "$to/operations"
fi
if ((missing)); then echo "passed, except what did not run"; else echo "passed"; fi
