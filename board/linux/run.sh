#!/usr/bin/env bash
# SPDX-License-Identifier: MIT OR Apache-2.0
# Builds Linux, partitions and the firmware that runs them over the library, and runs them under QEMU. Linux must print what expected.txt has, and the
# library must answer each call as ffaplay does. --help says more.
set -euo pipefail
me=board/linux
. "$(dirname "${BASH_SOURCE[0]}")/../common.sh"
here=$board/linux
. "$here/common.sh"
packages=(qemu-system-arm gcc-aarch64-linux-gnu binutils-aarch64-linux-gnu device-tree-compiler)
flags+=("-I$here")

# Where QEMU puts images, each in pages of its endpoint: RAM of the machine is 40000000 to 43FFFFFF, and Linux has 40200000 to 43DFFFFF. It has the
# part of the interrupt controller that is one processor's.
image_at=40200000 memory_bytes=3C00000 redistributors=20000 initramfs_at=43C00000 tree_at=43D80000 first_at=43E00000 second_at=43F00000 third_at=43F80000

usage() {
    cat <<'HELP'
usage: board/linux/run.sh [--install] [--build-only] [--kernel KIND | --limits NAME] [--several] [--rounds N]
           [--work FOLDER] [--keep FOLDER] [--jobs N]

Boots Linux as the normal world on QEMU's machine `virt`, ten times, and compares what it prints and each answer of the
library. This takes some minutes if the library and the program are proved and the kernel is built.

  --install      first install Debian's packages for this
  --build-only   build the firmwares and the partitions' program, and run nothing
  --kernel KIND  boot another Linux: 16k, 64k, 6.1, newest, debian or debian-cloud [default: 4k]
                 (board/linux/kernel --help describes them; newest must ask for FF-A 1.2)
  --limits NAME  use a copy of the repository with limits/NAME.edit; Linux then shares a page 100,000 times
                 (the copy's library is proved first, and its program is compiled without proofs)
  --several      only boot Linux on two and on four processors, where each may run a partition
  --rounds N     number of random rounds of Linux's threads [default: 10000]
  --work FOLDER  keep the kernel's source and all builds in FOLDER, so that each is built once
                 [default: /tmp/gorseplumb-boards, which board/secure/run.sh uses too]
  --keep FOLDER  keep each run's output: FOLDER/NAME.uart, .linux, .trace, .found, .expected and .explained
  --jobs N       number of processors for the kernel's build [default: all]

Two environment variables name ready builds. With both, nothing is proved:

  ARCHIVES=FOLDER  use the library FOLDER/aarch64-unknown-linux-gnu/libgorseplumb.a
  FFAPLAY=FILE     compare with this program

Status: 0, and the last line is `passed`; 1 if something differs or is missing; 64 if the arguments are wrong; 130 after
Ctrl-C.
HELP
}

install='' only='' kernel=4k limits='' several='' rounds=10000 work=$default_work keep='' jobs=$(nproc)
while (($#)); do
    taken=1
    case $1 in
        --several) several=yes ;;
        --kernel | --limits | --rounds) take_value "$@" ;;
        *) take_option "$@" ;;
    esac
    shift "$taken"
done
[[ $kernel =~ ^(4k|16k|64k|6\.1|newest|debian|debian-cloud)$ ]] || refuse "--kernel $kernel: must be 4k, 16k, 64k, 6.1, newest, debian or debian-cloud"
[[ $kernel == 4k || -z $limits ]] || refuse "--limits can be used only with the kernel 4k"
[[ -z $limits || -e $top/limits/$limits.edit ]] || refuse "--limits $limits: there is no limits/$limits.edit"
is_count "$rounds" || refuse "--rounds $rounds: must be a number from 0 to 999999999"
check_jobs "$jobs"
check_folder "$work"
if [[ $install ]]; then install_packages "${packages[@]}"; fi
needs "${packages[*]}" $compiler $copier $([[ $only ]] || echo $emulator dtc)
check_given
mkdir -p "$work" ${keep:+"$keep"}
work=$(cd "$work" && pwd)
check_folder "$work"
make_room 128

# The sections of expected.txt that a kernel has to print whatever the run is.
case $kernel in
    6.1) always=(linux driver held 6.1) ;;
    newest) always=(linux driver held later newest) ;;
    *) always=(linux driver held later 6.12) ;;
esac

# The repository of which core and program are taken: this one, or a copy with other limits. A copy's program is the one that knows these.
repository=$top
if [[ $limits ]]; then
    repository=$work/limits/$limits
    player=${FFAPLAY:-$repository/ffaplay}
    "$top/limits/copy" "$limits" "$repository"
fi
flags=("-I$repository/c" "${flags[@]}")

# A firmware: what is here, and of the board's what is the same for both: build NAME DEFINITION..
build() {
    local name=$1
    shift
    $compiler "${flags[@]}" -O2 "$@" -Wl,--no-warn-rwx-segments -T "$board/board.ld" "$here"/*.c "${shared[@]}" "$board/own_table.S" "$archive" -o "$to/$name.elf"
}

# Where each endpoint begins, and what x0 tells it there: Linux is told of the device tree.
list_endpoints() { printf '%s %s %s\n' 0 $image_at $tree_at 8001 $first_at 0 8002 $second_at 0 8003 $third_at 0; }

# What Linux and the firmware said. A line of Linux's, which ends with a carriage return, goes on behind a line of the firmware's.
lines_of_linux() {
    awk '/^[><] / { next } /^[#=!] / { print; next } { open = open $0 } sub(/\r$/, "", open) { print open; open = "" } END { if (open) print open }' \
        "$to/uart" | tr -d '\r'
}

# Runs Linux, and parts what was printed: run NAME FIRMWARE WORD.., of which the words are the emulator's
run() {
    local devices name=$1 firmware=$2
    shift 2
    list_endpoints >"$to/list"
    SECONDS=0
    mapfile -t devices < <(
        loader "$to/manifest" 48000000
        loader "$to/list" 49000000
        loader "$linux/Image" $image_at
        loader "$linux/initramfs" $initramfs_at
        loader "$to/tree" $tree_at
        for at in $first_at $second_at $third_at; do loader "$to/partition" $at; done
    )
    emulate -kernel "$to/$firmware.elf" -machine virt,virtualization=on,gic-version=3 -m 256M "$@" "${devices[@]}"
    emulated=$SECONDS
    lines_of_linux >"$to/linux"
    [[ -z $late ]] || fail "$name: $late"
    "${judge[@]}" "$to/manifest" "$to/trace" >"$to/expected" || fail "$name: the program does not play what Linux did"
    if [[ $keep ]]; then keep_run "$name"; fi
}

# What was printed, and why the core refused what it refused.
keep_run() {
    local kind
    "${judge[@]}" --explain --names "$to/manifest" "$to/trace" >"$to/explained"
    for kind in uart linux trace found expected explained; do cp "$to/$kind" "$keep/$1.$kind"; done
}

# Judges what was run: judge NAME SECTION.., of expected.txt beside those that are always there
judge() {
    local lacks name=$1
    shift
    if ! cmp -s "$to/expected" "$to/found"; then
        { diff "$to/expected" "$to/found" || true; } | sed -n 1,10p >&2
        fail "$name: the library's answers to Linux differ from the program's (< the program, > the library)"
    fi
    [[ $kernel != newest ]] || grep -qE '^call 84000063 10002( 0)*$' "$to/trace" || fail "$name: Linux does not ask FFA_VERSION for 1.2"
    lacks=$(missing "${always[@]}" "$@")
    [[ -z $lacks ]] || { last_words >&2; fail "$name: Linux does not print: $lacks"; }
    if grep 'FAILED' "$to/linux" >&2; then fail "$name: Linux reports FAILED, as printed above"; fi
    has_end || fail "$name: the board did not reach its end"
    echo "$name: $(grep -c '^call' "$to/trace") calls, answered as the program prints them; $(grep -c 'ffa_try: ok' "$to/linux") checks of the driver passed;" \
        "$(sed -n 's/^# \(settled .*\)/\1/p' "$to/linux"), $emulated s"
}

# A firmware that forgets no translation after a call: Linux has to see that it reaches a page that it has lent.
find_stale() {
    build_tree smc 1
    run stale stale -cpu cortex-a57
    grep -qF 'FAILED: a page that is lent' "$to/linux" || fail "stale: Linux does not find that translations are kept"
    echo "stale: Linux finds kept translations: it loads from a page that it lent"
}

# What takes how many instructions, with nothing printed: the emulator counts one as a nanosecond.
measure() {
    build_tree smc 1 ffa_try.rounds=1000
    run silent silent -cpu cortex-a57 -icount shift=0,sleep=off
    sed -n 's/^# boot/boot/p' "$to/linux"
    grep -o 'note: 1000 rounds.*' "$to/linux" || fail "silent: nothing was measured"
}

# Runs Linux once, and judges: try NAME FIRMWARE PROCESSOR SECTION..
try() {
    run "$1" "$2" -cpu "$3"
    judge "$1" "${@:4}"
}

# Threads of Linux that all work at once, at random: try_random FIRMWARE PROCESSOR SECTION..
try_random() {
    build_tree smc 1 "ffa_try.random=$rounds"
    try random "$@" random
    grep -o 'random: [0-9].*' "$to/linux"
}

# Linux on so many processors, on each of which a partition may run and is stopped by what is due there: a partition that works long for one, and
# threads that all work at once: try_several NUMBER PROCESSOR
try_several() {
    local judge=("$player" run --ffa 1.2 --processors "$1") redistributors found
    redistributors=$(printf %X $((0x20000 * $1)))
    build_tree smc "$1" ffa_try.schedules=1 ffa_try.works=20 "ffa_try.random=$rounds"
    limit=1800 run "$1-processors" several -cpu "$2" -smp "$1" -accel tcg,thread=multi
    judge "$1-processors" "$1-processors" notifications scheduled works random
    grep -o 'works: [0-9].*' "$to/linux"
    grep -o 'random: [0-9].*' "$to/linux"
    if grep -E 'Notification (bitmap|setup)|Failed to retrieve' "$to/linux" >&2; then fail "$1-processors: Linux's driver cannot use notifications"; fi
    found=$(busy) || fail "$1-processors: a call was refused with BUSY though it names no partition"
    echo "$1-processors: $(grep -c '^interrupt' "$to/trace") interrupts of partitions, $(grep -c '^resumed' "$to/found") resumptions;" \
        "$found calls were refused with BUSY; $(named); $(sed -n 's/^# interrupts.*; \(faults .*\)/\1/p' "$to/linux")"
}

all_several() {
    try_several 2 "$1"
    try_several 4 "$1"
}

# All that is run of the kernel of the kind 4k.
run_all() {
    local conduit
    for conduit in smc hvc; do
        build_tree $conduit 1
        try $conduit plain cortex-a57 no-interrupt
    done
    build_tree smc 1
    try max plain max no-interrupt
    try notify notify cortex-a57 notifications
    build_tree smc 2
    try two-processors plain cortex-a57 two-processors
    try_random notify cortex-a57 notifications
    all_several cortex-a57
    find_stale
    measure
}

# More shares than the repository's own limits allow.
run_long() {
    local limit=3000
    build_tree smc 1 ffa_try.rounds=50000 ffa_try.pieces=1
    try long plain cortex-a57 no-interrupt
    grep -o 'note: 50000 rounds.*' "$to/linux"
    try_random plain cortex-a57
}

# What is run of the newest.
run_newest() {
    build_tree smc 1
    try smc plain cortex-a57 no-interrupt
    try notify notify cortex-a57 notifications
    try_random notify cortex-a57 notifications
    all_several cortex-a57
}

# What is run of another: run_other PROCESSOR
run_other() {
    build_tree smc 1
    try "$kernel" plain "$1"
    try_random plain "$1"
}

# (the kernel's folder stands before the colon)
if [[ ! $only ]]; then
    linux=$("$here/kernel" ${install:+--install} --jobs "$jobs" "$kernel" "$work/linux")
    echo "$linux"
    linux=${linux%%: *}
fi
cp "$here/linux.toml" "$to/manifest"
make_archive "$repository"
build_partition
build plain
build notify -DNOTIFY=1
build several -DSEVERAL=1
build stale -DSETTLE=0
build silent -DRECORD=0
if [[ $only ]]; then
    echo "$me: each firmware is linked"
    exit
fi
# (a copy's program is taken unproved: it writes no descriptor of more ranges than one page holds for four receivers)
[[ -n ${FFAPLAY:-}$limits ]] || "$repository/ffaplay" prove
judge=("$player" run --ffa 1.2 --processors 1)
if [[ $several ]]; then
    all_several cortex-a57
    echo passed
    exit
fi
case $kernel in
    4k) if [[ $limits ]]; then run_long; else run_all; fi ;;
    newest) run_newest ;;
    16k) run_other max ;;
    *) run_other cortex-a57 ;;
esac
echo passed
