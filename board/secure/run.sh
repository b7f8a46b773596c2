#!/usr/bin/env bash
# SPDX-License-Identifier: MIT OR Apache-2.0
# Builds TF-A from Debian's source, the firmware as its manager of the secure world, and a program or Linux as the normal world. It boots them under
# QEMU, and compares each answer of the library with what ffaplay prints. --help says more.
set -euo pipefail
me=board/secure
. "$(dirname "${BASH_SOURCE[0]}")/../common.sh"
. "$board/linux/common.sh"
here=$board/secure
packages=(qemu-system-arm gcc-aarch64-linux-gnu binutils-aarch64-linux-gnu device-tree-compiler)
all=(plain version two tsp small linux)
optee_runs=(optee optee-two optee-calls)

# Of the machine's RAM, 48000000 to 4BFFFFFF, the first 8 MiB are the secure world's. Linux has the rest.
first_at=48100000 second_at=48200000 third_at=48300000
image_at=48800000 memory_bytes=3800000 initramfs_at=4BC00000 tree_at=4BD80000

usage() {
    cat <<'HELP'
usage: board/secure/run.sh [--install] [--build-only] [--work FOLDER] [--keep FOLDER] [--jobs N] [--tf-a N]
                           [--managed] [--xtest WORDS] [RUN..]

Boots TF-A with the library's firmware as its manager of the secure world, on QEMU's machine `virt`, and compares each
answer of the library with what the program prints.

  --install      first install Debian's packages for this
  --build-only   build the firmwares and the normal world's programs, and run nothing
  --work FOLDER  keep sources and all builds in FOLDER, so that each is built once
                 [default: /tmp/gorseplumb-boards, which board/linux/run.sh uses too]
  --keep FOLDER  keep each run's output: FOLDER/NAME.uart of TF-A, the normal world and TSP, NAME.core of the firmware,
                 and NAME.trace, .found and .expected
  --jobs N       number of processors for each build [default: all]
  --tf-a N       use only TF-A N, 2.8 or 2.12 [default: each run once with both]
  --managed      have OP-TEE leave by itself if an interrupt of the normal world is pending
  --xtest WORDS  the words for xtest [default: `-t regression` for `optee`, and some of its cases for `optee-two`]

Runs; without RUN all except `measure` and OP-TEE's:

  plain    TF-A without a change. A program calls three partitions through the dispatcher, which reports version 1.0.
           A timer stops a partition
  version  the same, but the dispatcher asks the library for the version, which is 1.2
  two      as version, with two processors that both call and have timers; the second is turned off and on
  tsp      TF-A's own test partition (TSP) as the only partition
  small    a machine in QEMU's secure memory, which the normal world cannot reach
  linux    Linux as the normal world, on one, two and four processors; on two and four a partition works for long, and
           threads work at random
  measure  instructions of calls to three partitions, and to TSP

OP-TEE as the only partition, which no other run can be named with, because the library has the limits of limits/optee.edit:

  optee        Linux on one processor runs OP-TEE's own tests (xtest): the regression suite, some minutes with each TF-A
  optee-two    Linux on two processors runs some of the suite's cases
  optee-calls  a program asks OP-TEE for its versions, and tries to run it while it waits

Two environment variables name ready builds. With both, nothing is proved:

  ARCHIVES=FOLDER  use the library FOLDER/aarch64-unknown-linux-gnu-general-registers/libgorseplumb.a
  FFAPLAY=FILE     compare with this program

Status: 0, and the last line is `passed`; 1 if something differs or is missing; 64 if the arguments are wrong; 130 after
Ctrl-C.
HELP
}

install='' only='' work=$default_work keep='' jobs=$(nproc) tf_a='' managed='' xtest='' runs=()
while (($#)); do
    taken=1
    case $1 in
        --xtest)
            [[ ${2:-} =~ ^[-a-z0-9_\ ]+$ ]] || refuse "--xtest needs words of small letters, digits, - and _"
            take_value "$@"
            ;;
        --tf-a)
            [[ ${2:-} == 2.8 || ${2:-} == 2.12 ]] || refuse "--tf-a ${2:-}: must be 2.8 or 2.12"
            tf_a=$2 taken=2
            ;;
        --managed) managed=-DMANAGED=1 ;;
        plain | version | two | tsp | small | linux | measure | optee | optee-two | optee-calls) runs+=("$1") ;;
        *) take_option "$@" ;;
    esac
    shift "$taken"
done
((${#runs[@]})) || runs=("${all[@]}")
of_optee=''
for run in "${runs[@]}"; do [[ " ${optee_runs[*]} " != *" $run "* ]] || of_optee+=x; done
((${#of_optee} == 0 || ${#of_optee} == ${#runs[@]})) || refuse "the runs ${optee_runs[*]} cannot be named with others"
[[ $of_optee || ! $managed$xtest ]] || refuse "--managed and --xtest are for the runs ${optee_runs[*]}"
check_jobs "$jobs"
check_folder "$work"
if [[ $install ]]; then install_packages "${packages[@]}"; fi
needs "${packages[*]}" $compiler $copier $([[ $only ]] || echo $emulator dtc)
check_given --general-registers
mkdir -p "$work" ${keep:+"$keep"}
work=$(cd "$work" && pwd)
check_folder "$work"
make_room 128
linux=$(linux_in "$work/linux/4k")

# The repository that has the library and the program: this one, or for OP-TEE a copy with other limits.
repository=$top
if [[ $of_optee ]]; then
    repository=$work/limits/optee
    player=${FFAPLAY:-$repository/ffaplay}
    "$top/limits/copy" optee "$repository"
fi

# (the firmware prints to the line that the secure world has for itself, and has less memory than another board's)
flags=("-I$repository/c" "${flags[@]}" "-I$board/linux" "-I$board/linux/partition" "-I$here" "-I$here/stand_in")
secure_flags=(-DSECURE=1 -DSEVERAL=1 -DRAM_BASE=0x48000000 -DSECURE_BYTES=0x800000 -DFIRMWARE_BASE=0x0E100000 -DUART_BASE=0x09040000
    -UGORSEPLUMB_ARRAY_BYTES -DGORSEPLUMB_ARRAY_BYTES=0x400000 "-Wl,--defsym=FIRMWARE_BASE=0x0E100000" "-Wl,--defsym=FIRMWARE_END=0x0F000000")

# The firmware, which TF-A calls BL32, with the manifest, the list of endpoints and a file of stand_in/ in it: build_firmware STAND_IN DEFINITION..
build_firmware() {
    local of_linux=(access again el2 notify place record tell)
    of_linux=("${of_linux[@]/#/$board/linux/}")
    $compiler "${flags[@]}" "${secure_flags[@]}" -O2 -mgeneral-regs-only "${@:2}" -Wl,--no-warn-rwx-segments -Xassembler -I"$to" -T "$board/board.ld" "$here"/*.c "$here"/*.S \
        "$here/stand_in/$1.c" "${of_linux[@]/%/.c}" "${shared[@]}" "$top/c/floats.c" "$archive" -o "$to/bl32.elf"
    $copier -O binary "$to/bl32.elf" "$to/bl32.bin"
}

# The normal world's first program, BL33: build_normal DEFINITION.., and build_linux for one that begins Linux
build_normal() {
    $compiler "${flags[@]}" "${program_flags[@]}" -fno-pie "$@" -Wl,--no-warn-rwx-segments -T "$here/normal/normal.ld" "$here"/normal/*.c "$here/normal/start.S" \
        "$board/text.c" "$top/c/bytes.c" -o "$to/bl33.elf"
    $copier -O binary "$to/bl33.elf" "$to/bl33.bin"
}

build_linux() {
    $compiler "${flags[@]}" -DLINUX_IMAGE=0x$image_at -DLINUX_TREE=0x$tree_at -T "$here/normal/normal.ld" "$here/normal/linux.S" -o "$to/bl33.elf"
    $copier -O binary "$to/bl33.elf" "$to/bl33.bin"
}

# Where each endpoint begins: the normal world where TF-A loads BL33.
list_endpoints() { printf '%s %s 0\n' 0 60000000 "$@" >"$to/list"; }

with_three_partitions() {
    cp "$here/secure.toml" "$to/manifest"
    list_endpoints 8001 $first_at 8002 $second_at 8003 $third_at
    images=()
    for at in $first_at $second_at $third_at; do add_image "$to/partition" $at; done
}

place_tsp() {
    cp "$here/tsp.toml" "$to/manifest"
    list_endpoints 8001 $first_at
}

with_tsp() {
    "$here/tf-a" ${install:+--install} --jobs "$jobs" tsp "$work/tf-a"
    place_tsp
    images=()
    add_image "$(tf_a_in "$work/tf-a/tsp-2.8")/bl32.bin" $first_at
}

# In secure memory, whose last pages are the tables, and where QEMU puts nothing: the firmware has the partitions' program in its image. The program
# plays the same machine elsewhere, with tables at RAM's start.
small_tables=-DTABLES_AT=0x0EFE8000
small_flags=(-DIN_IMAGE=1 -URAM_BASE -DRAM_BASE=0x0E400000 "$small_tables" -UGORSEPLUMB_ARRAY_BYTES -DGORSEPLUMB_ARRAY_BYTES=0x100000 "-Wl,--defsym=FIRMWARE_END=0x0E400000")

with_two_small_partitions() {
    cp "$here/small.toml" "$to/manifest"
    cp "$to/partition" "$to/partition.image"
    list_endpoints 8001 E500000 8002 E600000
    images=()
}

# OP-TEE has 16 MiB of the machine's 128 MiB from 48200000 on, after the tables, and Linux has the rest. The tests' processes need more of Linux's memory
# than the other runs have.
optee_at=48200000 optee_entry=4000
optee_flags=(${managed:+"$managed"} -USECURE_BYTES -DSECURE_BYTES=0x1200000 -UGORSEPLUMB_ARRAY_BYTES -DGORSEPLUMB_ARRAY_BYTES=0x600000)

place_optee() {
    cp "$here/optee.toml" "$to/manifest"
    printf '%s %s %s\n' 0 60000000 0 8001 $(printf %X $((0x$optee_at + 0x$optee_entry))) $optee_at >"$to/list"
}

# OP-TEE's package, and Linux with the files of its tests after the initramfs of the kernel: with_optee
with_optee() {
    local made
    made=$("$here/optee/build" ${install:+--install} --jobs "$jobs" "$work/optee")
    echo "$made"
    made=${made%%: *}
    "$board/linux/kernel" ${install:+--install} --jobs "$jobs" optee "$work/linux"
    place_optee
    dtc -q -O dtb -o "$to/manifest.dtb" <"$here/optee/manifest.dts"
    cp "$made/tee-raw.bin" "$to"
    $compiler -DBEGIN=0x$optee_at -DENTRY=0x$optee_entry -Xassembler -I"$to" -c "$here/optee/package.S" -o "$to/package.o"
    $copier -O binary -j .text "$to/package.o" "$to/package"
    linux=$(linux_in "$work/linux/optee")
    mkdir -p "$to/with_tests"
    cp "$linux/Image" "$to/with_tests"
    cat "$linux/initramfs" "$made/root.cpio" >"$to/with_tests/initramfs"
    linux=$to/with_tests
    image_at=49200000 memory_bytes=6E00000 initramfs_at=4D000000 tree_at=4FE00000
    images=()
    add_image "$to/package" $optee_at
}

# QEMU puts a file into RAM: add_image FILE ADDRESS
add_image() {
    local words
    mapfile -t words < <(loader "$1" "$2")
    images+=("${words[@]}")
}

# Boots TF-A of a kind on so many $processors, and all of $to that it loads, which is by its name in QEMU's folder: boot KIND NAME WORD.., of which
# the words are QEMU's
boot() {
    local kind=$1 name=$2
    shift 2
    "$here/tf-a" ${install:+--install} --jobs "$jobs" --release "$release" "$kind" "$work/tf-a"
    rm -f "$to"/bl{1,2,31}.bin "$to"/*_fw_config.dtb
    cp "$(tf_a_in "$work/tf-a/$kind-$release")"/* "$to"
    : >"$to/core"
    SECONDS=0
    ((processors == 1)) || set -- -accel tcg,thread=multi "$@"
    emulate -machine virt,secure=on,virtualization=on,gic-version=3 -cpu "$processor" -smp "$processors" -m 1024 \
        -semihosting-config enable=on,target=native -bios bl1.bin "$@" "${images[@]}" -serial file:core
    emulated=$SECONDS
    tr -d '\r' <"$to/uart" >"$to/linux"
    [[ -z $late ]] || fail "$name: $late"
    part "$to/core"
    "$player" run --ffa 1.2 --processors "$processors" "$to/manifest" "$to/trace" >"$to/expected" || fail "$name: the program does not play what the normal world did"
    if [[ $keep ]]; then for kind in uart core trace found expected; do cp "$to/$kind" "$keep/$name.$kind"; done; fi
}

# Judges a run: judge NAME
judge() {
    if ! cmp -s "$to/expected" "$to/found"; then
        { diff "$to/expected" "$to/found" || true; } | sed -n 1,10p >&2
        fail "$1: the library's answers differ from the program's (< the program, > the library)"
    fi
    if grep '^!' "$to/core" "$to/uart" >&2; then fail "$1: the board stopped"; fi
    echo "$1: $(grep -c '^call' "$to/trace") calls, answered as the program prints them; $(grep -c '^interrupt' "$to/trace") interrupts of partitions," \
        "$(grep -c '^resumed' "$to/found") resumptions; $(grep -cE '^(ok:|.*ffa_try: ok)' "$to/linux") checks of the normal world passed; $emulated s"
}

# The program as the normal world: try_program NAME KIND
try_program() {
    boot "$2" "$1"
    judge "$1"
    grep -qx '= end' "$to/linux" || { tail -n 20 "$to/linux" >&2; fail "$1: the normal world did not reach its end"; }
    if grep '^FAILED' "$to/linux" >&2; then fail "$1: the normal world reports FAILED, as printed above"; fi
    sed -n 's/^normal: FFA_VERSION/the dispatcher answers FFA_VERSION/p; s/^note: //p' "$to/linux"
}

# Linux as the normal world. What it says FAILED is in expected.txt, as nothing holds it to its table: try_linux NAME PROCESSORS "SECTION.." WORD.., of
# which the words are for its driver
try_linux() {
    local lacks redistributors found processors=$2 limit=1800
    redistributors=$(printf %X $((0x20000 * $2)))
    build_tree smc "$2" ffa_try.table_at=0x48000000 ffa_try.partition_at=0x$first_at ffa_try.firmware_at=0x0E100000 ffa_try.device_at=0x09040000 "${@:4}"
    with_three_partitions
    add_image "$linux/Image" $image_at
    add_image "$linux/initramfs" $initramfs_at
    add_image "$to/tree" $tree_at
    boot version "$1"
    judge "$1"
    grep -q '^resumed' "$to/found" || fail "$1: no partition was stopped and resumed"
    found=$(busy) || fail "$1: a call was refused with BUSY though it names no partition"
    lacks=$(missing linux driver later 6.12 beside "$3")
    [[ -z $lacks ]] || { last_words >&2; fail "$1: Linux does not print: $lacks"; }
    (($(grep -c FAILED "$to/linux") == $(grep -c FAILED "$board/linux/expected.txt"))) || fail "$1: $(grep FAILED "$to/linux")"
    grep -oE '(works|random): [0-9].*' "$to/linux" || true
    echo "$1: $found calls were refused with BUSY; $(named)"
}

# Linux runs OP-TEE's tests, and no case may fail: try_optee NAME PROCESSORS WORDS
try_optee() {
    local redistributors processors=$2 limit=10800 found
    redistributors=$(printf %X $((0x20000 * $2)))
    build_tree smc "$2" "xtest=${3// /,}"
    add_image "$linux/Image" $image_at
    add_image "$linux/initramfs" $initramfs_at
    add_image "$to/tree" $tree_at
    boot version "$1"
    judge "$1"
    found=$(busy) || fail "$1: a call was refused with BUSY though it names no partition"
    ((found == 0)) || fail "$1: $found requests were refused with BUSY"
    grep -qx 'init: xtest ended with 0' "$to/linux" || { grep -aE '( FAIL|^init:)' "$to/linux" >&2; last_words >&2; fail "$1: xtest did not end with 0"; }
    grep -aqE '^[1-9][0-9]* test cases? of which 0 failed' "$to/linux" || fail "$1: xtest does not print that all its cases passed"
    grep -aE '^[0-9]+ (subtests?|test cases?)( of which| were)' "$to/linux" | sed "s/^/$1: xtest: /"
    echo "$1: $(sends)"
}

# What became of OP-TEE's shares.
sends() {
    with_outcomes | awk -F '|' '
        $1 !~ /^call [C8]4000073( |$)/ { next }
        $2 ~ /^regs 0000 0000000084000060/ { refused++; next }
        { shares++ }
        END { printf "%d shares were served, and %d refused", shares, refused }'
}

# What takes how many instructions, with nothing printed of calls: measure NAME
measure() {
    boot version "$1" -icount shift=0,sleep=off
    paste -d ' ' <(sed -n 's/^measured: /  /p' "$to/linux") <(sed -n 's/^measured: /(/p' "$to/core" | sed 's/$/)/') | grep . || fail "$1: nothing was measured"
}

# Each firmware, and each program of the normal world.
build_all() {
    local measured=(-DRECORD=0 -DMEASURE=1)
    with_three_partitions
    build_firmware none
    build_firmware none "${measured[@]}"
    build_normal
    build_normal -DTWO=1
    build_normal -DMEASURE=1
    build_linux
    place_tsp
    build_firmware tsp
    build_firmware tsp "${measured[@]}"
    build_normal -DOF_TSP=1
    build_normal -DMEASURE=1 -DOF_TSP=1
    with_two_small_partitions
    build_firmware none "${small_flags[@]}"
    build_normal -DSMALL=1
    place_optee
    build_firmware optee "${optee_flags[@]}"
    build_normal -DOF_OPTEE=1
}

# Some of OP-TEE's cases that several clients make at once, or that share much memory.
some_cases="-t regression 1011 6001 6003 6004 6005 6006 6016"

do_run() {
    local run=$1 number
    case $run in
        plain | version)
            with_three_partitions
            build_firmware none
            build_normal
            try_program "$name" "$run"
            ;;
        two)
            with_three_partitions
            build_firmware none
            build_normal -DTWO=1
            processors=2 try_program "$name" version
            ;;
        tsp)
            with_tsp
            build_firmware tsp
            build_normal -DOF_TSP=1
            try_program "$name" version
            ;;
        small)
            with_two_small_partitions
            build_firmware none "${small_flags[@]}"
            build_normal -DSMALL=1 "$small_tables"
            try_program "$name" version
            ;;
        linux)
            "$board/linux/kernel" ${install:+--install} --jobs "$jobs" 4k "$work/linux"
            processor=max,sve=off,sme=off
            with_three_partitions
            build_firmware none
            build_linux
            try_linux "$name" 1 notifications
            for number in 2 4; do
                try_linux "$name-$number" $number "$number-processors notifications scheduled works random" \
                    ffa_try.schedules=1 ffa_try.works=20 ffa_try.random=500
            done
            processor=max
            ;;
        measure)
            with_three_partitions
            build_firmware none -DRECORD=0 -DMEASURE=1
            build_normal -DMEASURE=1
            measure "three partitions"
            with_tsp
            build_firmware tsp -DRECORD=0 -DMEASURE=1
            build_normal -DMEASURE=1 -DOF_TSP=1
            measure TSP
            ;;
        optee-calls)
            with_optee
            build_firmware optee "${optee_flags[@]}"
            build_normal -DOF_OPTEE=1
            try_program "$name" version
            ;;
        optee | optee-two)
            processor=max,sve=off,sme=off
            with_optee
            build_firmware optee "${optee_flags[@]}"
            build_linux
            if [[ $run == optee ]]; then try_optee "$name" 1 "${xtest:--t regression}"; else try_optee "$name" 2 "${xtest:-$some_cases}"; fi
            ;;
    esac
}

make_archive "$repository" --general-registers
build_partition
if [[ $only ]]; then
    build_all
    echo "$me: each firmware is linked"
    exit
fi
# (a copy's program is used unproved)
[[ -n ${FFAPLAY:-}$of_optee ]] || "$top/ffaplay" prove
processor=max processors=1
for run in "${runs[@]}"; do
    for release in ${tf_a:-2.8 2.12}; do
        name=$run
        [[ $tf_a ]] || name+=-$release
        do_run "$run"
    done
done
echo passed
