#!/usr/bin/env bash
# SPDX-License-Identifier: MIT OR Apache-2.0
# Builds U-Boot's sandbox from Debian's source, and runs U-Boot's own FF-A tests in it. The library answers their calls instead of U-Boot's emulator.
# --help says more.
set -euo pipefail
me=board/u-boot
. "$(dirname "${BASH_SOURCE[0]}")/../common.sh"
here=$board/u-boot
target=x86_64-unknown-linux-gnu compiler=gcc
packages=(gcc libc6-dev make bison flex libssl-dev bzip2 ca-certificates debian-archive-keyring)
release=2025.01 suite=trixie source=u-boot_2025.01.orig.tar.bz2
ffa=drivers/firmware/arm-ffa

usage() {
    cat <<'HELP'
usage: board/u-boot/run.sh [--install] [--build-only] [--work FOLDER] [--keep FOLDER] [--jobs N]

Runs the FF-A tests of U-Boot 2025.01 in U-Boot's sandbox on this x86-64 machine. The library answers each call, and the
script compares each answer with what the program prints.

  --install      first install Debian's packages for this
  --build-only   build U-Boot, and run nothing
  --work FOLDER  keep U-Boot's source and build in FOLDER, so that it is built once
                 [default: /tmp/gorseplumb-boards, which board/linux/run.sh and board/secure/run.sh use too]
  --keep FOLDER  keep the run's output: FOLDER/console of U-Boot, calls of the library, and trace, found and expected
  --jobs N       number of processors for the build [default: all]

Two environment variables name ready builds. With both, nothing is proved:

  ARCHIVES=FOLDER  use the library FOLDER/x86_64-unknown-linux-gnu/libgorseplumb.a
  FFAPLAY=FILE     compare with this program

Status: 0, and the last line is `passed`; 1 if a test fails, or if something differs or is missing; 64 if the arguments
are wrong; 130 after Ctrl-C.
HELP
}

install='' only='' work=$default_work keep='' jobs=$(nproc)
while (($#)); do
    take_option "$@"
    shift "$taken"
done
check_jobs "$jobs"
check_folder "$work"
[[ $(uname -m) == x86_64 ]] || fail "this machine is $(uname -m); the sandbox and the library must be for x86_64"
if [[ $install ]]; then install_packages "${packages[@]}"; fi
needs "${packages[*]}" $compiler make bison flex bzip2 apt-get
check_given
mkdir -p "$work/u-boot" ${keep:+"$keep"}
work=$(cd "$work/u-boot" && pwd)
check_folder "$work"
make_room 128

# The source with the changes of this script, and the build. A checkout whose script differs has another tree.
tree=$work/$(name_of board/u-boot/run.sh)

try() { quietly "$1" "$work/log" "${@:2}"; }

# The archive of U-Boot's authors, without Debian's changes. Apt checks it by the signed list of a mirror that this machine uses.
fetch_source() {
    if [[ -e $work/$source ]]; then return; fi
    list_sources "$work/apt" $suite
    cd "$work/apt"
    try "the list of Debian's sources, of $mirror," apt_in "$work/apt" apt-get -o APT::Update::Error-Mode=any update
    try "the download of U-Boot's source" apt_in "$work/apt" apt-get source --download-only --tar-only u-boot
    cd "$top"
    [[ -e $work/apt/$source ]] || fail "$mirror has no U-Boot $release in $suite"
    mv "$work/apt/$source" "$work/$source"
}

# Changes a line of a file, which must have one such line: change FILE PATTERN REPLACEMENT
change() {
    local file=$work/unpacked/$1
    (($(grep -cE "$2" "$file") == 1)) || fail "$1 has no one line like $2"
    sed -i -E "s|$2|$3|" "$file"
}

change_source() {
    # dispatch.c replaces these two functions.
    change $ffa/ffa-emul-uclass.c '^void invoke_ffa_fn\(' '__weak &'
    change $ffa/ffa-emul-uclass.c '^int sandbox_query_ffa_emul_state\(' '__weak &'
    change $ffa/Makefile '^obj-y \+= ffa-emul-uclass.o sandbox_ffa.o$' '& dispatch.o'
    change arch/sandbox/config.mk '^PLATFORM_LIBS \+= -lrt$' '& library/*.[ao]'
    # A test sends a request to this partition. The library's partitions have identifiers from 8001 on.
    change arch/sandbox/include/asm/sandbox_arm_ffa.h '^(#define SANDBOX_SP1_ID) 0x1245$' '\1 0x8001'
}

u_boot_make() { nice make -s -C "$1" "-j$jobs" NO_SDL=1 NO_PYTHON=1 NO_LTO=1 "${@:2}"; }

# The sandbox's own configuration, without EFI capsules that are signed. These need tools of more packages.
configure() {
    u_boot_make "$1" sandbox_defconfig &&
        (cd "$1" && scripts/config -d EFI_CAPSULE_AUTHENTICATE -d TOOLS_MKEFICAPSULE) &&
        u_boot_make "$1" olddefconfig
}

unpack() {
    if [[ -d $tree ]]; then return; fi
    needs_room "$work" 1000
    fetch_source
    rm -rf "$work/unpacked"
    mkdir "$work/unpacked"
    try "unpacking U-Boot" tar -xf "$work/$source" -C "$work/unpacked" --strip-components=1
    change_source
    try "the configuration of U-Boot" configure "$work/unpacked"
    mv "$work/unpacked" "$tree"
}

# Builds U-Boot, and copies it and its device tree for tests to the folder $to.
build() {
    take_lock "$work/lock" # one at a time
    unpack
    rm -rf "$tree"/{library,u-boot}
    mkdir "$tree/library"
    cp "$archive" "$tree/library"
    for name in array unsettled; do $compiler -std=c11 -O2 -fPIC -ffreestanding -c "$top/c/$name.c" -o "$tree/library/$name.o"; done
    cp "$here/dispatch.c" "$top"/c/{gorseplumb,lending}.h "$tree/$ffa"
    try "the build of U-Boot" u_boot_make "$tree" u-boot dtbs
    cp "$tree/u-boot" "$tree/arch/sandbox/dts/test.dtb" "$to"
    mapfile -t tests < <(cd "$tree" && sed -nE 's/^DM_TEST\(dm_test_(\w+),.*/\1/p' test/dm/ffa.c test/cmd/armffa.c)
    exec {held}>&-
    ((${#tests[@]})) || fail "U-Boot's source has no test of FF-A"
}

# Runs U-Boot with commands, until it ends: run COMMANDS
run() {
    local status=0
    cp "$here/u-boot.toml" "$to/manifest"
    : >"$to/calls"
    (cd "$to" && timeout --foreground 300 ./u-boot -d test.dtb -c "$1" </dev/null >console 2>&1) || status=$?
    tr -d '\r' <"$to/console" >"$to/uart"
    part "$to/calls"
    if [[ $keep ]]; then cp "$to"/{console,calls,trace,found} "$keep"; fi
    ((status != 124)) || fail "U-Boot did not end within 300 seconds"
    if ((status)) || ! has_end; then
        tail -n 20 "$to/uart" >&2
        fail "U-Boot ended with $status"
    fi
}

# Prints whether a test passed. U-Boot runs it with each form of its device tree: judge TEST
judge() {
    local said
    said=$(sed -n "/^Test: dm_test_$1:/,/^Failures: /p" "$to/uart")
    if (($(grep -c '^Test: ' <<<"$said") == 2)) && [[ ${said##*$'\n'} == "Failures: 0" ]]; then
        echo "dm_test_$1: passed, with the live and with the flat device tree"
    else
        printf '%s\n' "$said" >&2
        failed+=("$1")
    fi
}

make_archive "$top"
build
if [[ $only ]]; then
    echo "$me: U-Boot is linked"
    exit
fi
[[ -n ${FFAPLAY:-} ]] || "$top/ffaplay" prove
# (1245 is an identifier of U-Boot's emulator that no endpoint of the library has)
run "$(printf 'ut dm %s; ' "${tests[@]}")armffa ping 0x1245; echo = end"
failed=()
for test in "${tests[@]}"; do judge "$test"; done
((${#failed[@]} == 0)) || fail "U-Boot's tests ${failed[*]} fail"
grep -q 'Sending direct request error (-22)' "$to/uart" || fail "the library does not refuse a request to 1245"
"$player" run --ffa 1.2 "$to/manifest" "$to/trace" >"$to/expected" || fail "the program does not play what U-Boot did"
if [[ $keep ]]; then cp "$to/expected" "$keep"; fi
if ! cmp -s "$to/expected" "$to/found"; then
    { diff "$to/expected" "$to/found" || true; } | sed -n 1,10p >&2
    fail "the library's answers differ from the program's (< the program, > the library)"
fi
echo "U-Boot $release: ${#tests[@]} tests; $(grep -c '^call' "$to/trace") calls, answered as the program prints them"
echo passed
