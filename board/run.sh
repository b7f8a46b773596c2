#!/usr/bin/env bash
# SPDX-License-Identifier: MIT OR Apache-2.0
# Builds the board's firmware over the library for AArch64, and runs each scene on it under QEMU. Then it compares what the processor did with what
# ffaplay prints for the same operations. --help says more.
set -euo pipefail
me=board
. "$(dirname "${BASH_SOURCE[0]}")/common.sh"
scenes=$board/scenes
several=$board/several
packages=(qemu-system-arm gcc-aarch64-linux-gnu)

usage() {
    cat <<'HELP'
usage: board/run.sh [--install] [--build-only | --keep FOLDER] [--seed N] [--operations N] [--rounds N]
           [--break-NAME | SCENE..]

Runs scenes on QEMU's machine `virt`, and compares what the processor did with what the program prints. With neither a
scene nor a --break it runs all scenes, and then tries every --break. If you name a scene that does not exist, it lists
all scenes, each with its machine. A scene may take 300 seconds.

All scenes take some minutes, one scene some seconds. Without ARCHIVES and FFAPLAY it first proves the library and the
program, if they are not proved yet. From nothing this takes about 50 minutes on four processors.

  --install            first install Debian's qemu-system-arm and gcc-aarch64-linux-gnu
  --build-only         build the firmwares, except the two over unproved libraries, and run nothing
  --keep FOLDER        keep each scene's output: FOLDER/FIRMWARE-PROCESSOR-SCENE.uart, .trace, .found and .expected
  --seed N             seed of the operations that are generated [default: 1]
  --operations N       number of operations that are generated [default: 10000]
  --rounds N           number of rounds in watch-owner, watch-borrower and several-two [default: 60]

Each --break builds a wrong firmware or library, which a scene must find:

  --break-root         the firmware runs one endpoint with another's tables
  --break-vectors      the firmware does not save vector registers
  --break-settling     the firmware's gorseplumb_settle forgets no translation
  --break-resumed      the firmware writes registers of a partition that resumes after an interrupt
  --break-untold       the firmware does not report interrupts to the library
  --break-zeros-first  the library, compiled without proofs, zeroes pages before it takes away a right
  --break-zeros-last   the library, compiled without proofs, zeroes pages after it grants a right

Two environment variables name ready builds. With both, nothing is proved:

  ARCHIVES=FOLDER      use the library FOLDER/aarch64-unknown-linux-gnu/libgorseplumb.a
  FFAPLAY=FILE         compare with this program

Status: 0, and the last line is `passed`; 1 if something differs or is missing; 64 if the arguments are wrong; 130 after
Ctrl-C.
HELP
}

keep='' seed=1 operations=10000 rounds=60 install='' only='' breaks=() names=() manifests=() traces=()
while (($#)); do
    taken=1
    case $1 in
        --install) install=yes ;;
        --build-only) only=yes ;;
        --keep | --seed | --operations | --rounds) take_value "$@" ;;
        --break-root | --break-vectors | --break-settling | --break-zeros-first | --break-zeros-last | --break-resumed | --break-untold) breaks+=("${1#--break-}") ;;
        --help) usage && exit 0 ;;
        -*) refuse "there is no flag $1" ;;
        *) names+=("$1") ;;
    esac
    shift "$taken"
done
is_count "$seed" || refuse "--seed $seed: must be a number from 0 to 999999999"
is_count "$operations" || refuse "--operations $operations: must be a number from 0 to 999999999"
is_count "$rounds" || refuse "--rounds $rounds: must be a number from 0 to 999999999"
((${#breaks[@]} < 2)) || refuse "give only one --break"
((${#breaks[@]} == 0 || ${#names[@]} == 0)) || refuse "a --break chooses its scenes; do not name any"
if [[ $install ]]; then install_packages "${packages[@]}"; fi
needs "${packages[*]}" $compiler $copier $([[ $only ]] || echo $emulator)
check_given
if [[ $keep ]]; then mkdir -p "$keep"; fi
make_room 64

# The code of the endpoints' generators.
build_generator() {
    $compiler "${flags[@]}" "${program_flags[@]}" -T "$board/generator/generator.ld" "$board"/generator/*.c "$top/c/bytes.c" -o "$to/generator.elf"
    $copier -O binary "$to/generator.elf" "$to/generator.bin"
}

# A firmware over the core that is proved, or over one that isn't: build NAME DEFINITION.., build_over CORE NAME DEFINITION..
build() { build_over "$archive" "$@"; }

build_over() {
    local core=$1 name=$2
    shift 2
    $compiler "${flags[@]}" -O2 "$@" -Wl,--no-warn-rwx-segments -Xassembler -I"$to" -T "$board/board.ld" "$board"/*.c "$board"/*.S "$top"/c/{array,bytes}.c "$core" -o "$to/$name.elf"
}

# A firmware in which several processors run endpoints, and interrupts are told: of the board's files it has those for scenes.
build_several() {
    local name=$1 of_scenes=(run doing fetch generators place rounds show)
    shift
    of_scenes=("${of_scenes[@]/#/$board/}")
    $compiler "${flags[@]}" -O2 -DSEVERAL=1 "$@" -Wl,--no-warn-rwx-segments -Xassembler -I"$to" "-I$several" -T "$board/board.ld" "$several"/*.c \
        "${of_scenes[@]/%/.c}" "${shared[@]}" "$board"/{program,generator,own_table}.S "$archive" -o "$to/$name.elf"
}

# Runs a scene, and has the program play what was done: play FIRMWARE PROCESSOR MANIFEST SCENE, true where
# both print the same. What the program printed is in $to/expected. So nobody writes outcomes down. Of tables, their effect is compared,
# and not their words.
play() {
    local devices memory=256M processors=1 machine=virt,virtualization=on judges=1 ffa=1.1
    if [[ $1 == high ]]; then memory=3G; fi
    if is_watched "$4"; then processors=2; fi
    if is_several "$4"; then
        processors=$(sed -n 's/^processors //p' "$4") machine+=,gic-version=3
        judges=$processors ffa=1.2
    fi
    mapfile -t devices < <(loader "$3" 48000000 && loader "$4" 49000000)
    emulate -kernel "$to/$1.elf" -machine $machine -accel tcg,thread=multi -smp "$processors" -cpu "$2" -m $memory "${devices[@]}"
    "$player" run --ffa $ffa --processors "$judges" "$3" "$to/trace" >"$to/expected" || fail "the program does not play what $(basename "$4") did"
    if [[ $keep ]]; then keep_scene "$1-$2-$(basename "$4")"; fi
    has_end && ! grep -q '^!' "$to/uart" && cmp -s "$to/expected" "$to/found"
}

# Whether a second processor runs beside a scene, and whether processors do it that have interrupts.
is_watched() { grep -q '^watch ' "$1"; }
is_several() { grep -q '^processors ' "$1"; }

keep_scene() {
    for kind in uart trace found expected; do cp "$to/$kind" "$keep/$1.$kind"; done
}

# The operations of a text, each written in one way: in upper case, and with no zeros that say nothing. A program that goes round does what it does last.
operations_of() {
    sed '$a\' "$1" | sed -E -e '/^(#|$|random|everywhere|watch|processors|at-once|on )/d' | tr '[:lower:]' '[:upper:]' |
        sed -E -e 's/^AWAIT ([0-9A-F]+) .*/LOAD \1 8/' -e 's/^SPIN ([0-9A-F]+) /STORE \1 000000000000000/' -e '/^STORE/s/ 0*([0-9A-F]{16})$/ \1/' |
        sed -E -e '/^CALL/s/( 0+)+$//' -e '/^(CALL|LOAD|FETCH)/s/ 0+([0-9A-F])/ \1/g' -e 's/^STORE 0+([0-9A-F])/STORE \1/'
}

# Whether the trace ends with the operations of a scene, behind as many as were to be made up; of several processors in any order.
whole() {
    operations_of "$1" >"$to/lines"
    operations_of "$to/trace" >"$to/done"
    if is_several "$1" && ! grep -q '^random' "$1"; then
        cmp -s <(sort "$to/lines") <(tail -n "$(wc -l <"$to/lines")" "$to/done" | sort)
        return
    fi
    if grep -q '^random' "$1" && (($(wc -l <"$to/done") < operations)); then return 1; fi
    tail -n "$(wc -l <"$to/lines")" "$to/done" | cmp -s "$to/lines" -
}

# How many lines of a file begin with a word.
count() { grep -c "^$1" "$2" || true; }

# The first lines that differ, of the program and of the processor, and why the board stopped where it did.
difference() {
    { diff "$to/expected" "$to/found" || true; } | awk '/^</ && !expected++ || /^>/ && !found++'
    grep '^!' "$to/uart" || has_end || echo "! the board did not reach the end of the scene"
}

# The line of the scene at which the board stopped since it is none of a trace, as NUMBER: WHY.
wrong_line() { sed -n 's/^! line \([0-9]*: .*\)/\1/p' "$to/uart"; }

# One scene on one firmware and one processor, which has to agree: agree FIRMWARE PROCESSOR MANIFEST SCENE
agree() {
    local name line
    name=$(basename "$4")
    if ! play "$@"; then
        line=$(wrong_line)
        [[ -z $line ]] || fail "$4:$line: $(sed -n "${line%%:*}p" "$4")"
        [[ -z $late ]] || fail "$name: $1 on $2: $late; use fewer --operations or --rounds"
        echo "$name: $1 on $2 differs from the program (< the program, > the processor):" >&2
        difference >&2
        fail "$name differs"
    fi
    whole "$4" || fail "$name: $1 on $2 left out lines of the scene"
    echo "$name: $1 on $2, $(basename "$3"): $(wc -l <"$to/trace") operations, $(count fault "$to/found") faults," \
        "$(count fetch "$to/trace") fetches: as the program prints them"
    sed -n 's/^= the/the/p' "$to/uart"
}

# A partition tries to load from each page of RAM, near its first and its last byte; to store into each table page, and to fetch from it; and
# all three where the board has other things, as the serial line and the firmware. At the end the processor is asked for every page there is.
every_page() {
    local address
    echo everywhere
    echo "call 8400006D 80010000"
    for ((address = 0x40000000; address < 0x40800000; address += 4096)); do
        printf 'load %X 8\nload %X 1\n' $((address + 8)) $((address + 4095))
    done
    for ((address = 0x40000000; address < 0x40018000; address += 4096)); do printf 'store %X 0000000000000000\nfetch %X\n' $address $address; done
    for address in 0 8000000 9000000 9000018 3FFFFFF8 40800000 44000000 44000FF8 48000000 49000000 4FFFFFF8 80000000 FFFFFFF8; do
        printf 'load %s 4\nstore %s 00000000\nfetch %s\n' $address $address $address
    done
    echo show
}

# A trace that the program generates for a manifest. The program is given a machine with no pages for programs, so that it leaves these
# alone. Left out is what no processor does here: a question to the core's own books is asked as `show`; and QEMU looks for a page before it
# sees that an instruction isn't aligned, against the architecture, so a fetch that isn't aligned is left out where an aligned one would fault.
generated() {
    grep -v '# its program' "$1" >"$to/plain.toml"
    "$player" generate --seed "$seed" --lines "$operations" "$to/plain.toml" | sed 's/^audit$/show/' >"$to/lines"
    sed -E -e '/^fetch/{s/[1-3]$/0/;s/[5-7]$/4/;s/[9AB]$/8/;s/[D-F]$/C/}' "$to/lines" >"$to/aligned"
    "$player" run --processors 1 --number "$1" "$to/aligned" >"$to/outcomes"
    awk 'NR == FNR { if (/^[0-9]+: fault/) faults[$1 + 0]; next } !(FNR in faults && /^fetch .*[^048C]$/)' "$to/outcomes" "$to/lines"
}

# Adds scenes of one manifest: add MANIFEST SCENE..
add() {
    local scene
    for scene in "${@:2}"; do manifests+=("$1") traces+=("$scene"); done
}

# The machine of a trace of board/scenes: what its first line says, as `# machine: partitions.toml`, or else four.toml.
machine_of() {
    local named
    named=$(sed -n '1s/^# machine: *//p' "$1")
    [[ -e $scenes/${named:=four.toml} ]] || fail "$1:1: there is no machine $named in $scenes"
    echo "$scenes/$named"
}

# The scenes, each a manifest and a file: those of examples/, those of board/scenes/, one in which a partition tries every page,
# and operations that are made up by the endpoints and by the program. Those in $to are made by make_scene.
list_scenes() {
    local scene machine
    add "$scenes/machine.toml" "$top"/examples/{first,calls}.trace
    add "$scenes/partitions.toml" "$top"/examples/{accesses,messages,sharing}.trace
    for scene in "$scenes"/*.trace; do
        machine=$(machine_of "$scene")
        add "$machine" "$scene"
    done
    add "$scenes/four.toml" "$to/every-page"
    add "$scenes/generators.toml" "$to/random"
    add "$scenes/machine.toml" "$to/generated-machine"
    add "$scenes/four.toml" "$to/generated-four"
    add "$scenes/four.toml" "$to"/watch-{owner,borrower}
    add "$several/several.toml" "$to"/several-{preempted,moved,two,random}
}

name_of_scene() { basename "$1" .trace; }

# Each scene that there is, with its machine.
tell_scenes() {
    local i
    for i in "${!traces[@]}"; do printf ' %s (%s)' "$(name_of_scene "${traces[i]}")" "$(basename "${manifests[i]}")"; done
}

# Leaves those scenes that are named.
choose_scenes() {
    local all_manifests=("${manifests[@]}") all_traces=("${traces[@]}") all name i
    all=$(tell_scenes)
    manifests=() traces=()
    for name in "${names[@]}"; do
        for i in "${!all_traces[@]}"; do
            if [[ $(name_of_scene "${all_traces[i]}") == "$name" ]]; then add "${all_manifests[i]}" "${all_traces[i]}" && continue 2; fi
        done
        fail "there is no scene $name; the scenes are$all"
    done
}

# The text of a scene that no file of the repository has: make_scene NAME
make_scene() {
    case $1 in
        every-page) every_page ;;
        random) printf 'random %X %X\nshow\n' "$seed" "$operations" ;;
        generated-high) generated "$to/high.toml" ;;
        generated-*) generated "$scenes/${1#*-}.toml" ;;
        watch-owner) "$board/watches" 3 "$rounds" ;;
        watch-borrower) "$board/watches" 2 "$rounds" ;;
        several-random) "$several/scenes" random "$seed" "$operations" ;;
        several-*) "$several/scenes" "${1#*-}" "$rounds" ;;
    esac >"$to/$1"
}

make_scenes() {
    local scene
    sed 's/0x40/0xC0/' "$scenes/four.toml" >"$to/high.toml"
    for scene in "${traces[@]}" ${1:+"$to/$1"}; do
        if [[ $scene == "$to"/* ]]; then make_scene "$(basename "$scene")"; fi
    done
}

# All scenes on one firmware and one processor, and those of several processors on that for them.
all_agree() {
    local i firmware
    for i in "${!traces[@]}"; do
        firmware=$1
        if is_several "${traces[i]}"; then firmware=several; fi
        agree $firmware "$2" "${manifests[i]}" "${traces[i]}"
    done
}

# A firmware that is broken, and the first scene of those whose names begin with a word that shows it: found FIRMWARE WHAT [WORD]
found() {
    local i
    for i in "${!traces[@]}"; do
        [[ $(basename "${traces[i]}") == "${3:-}"* ]] || continue
        if ! play "$1" cortex-a57 "${manifests[i]}" "${traces[i]}"; then
            [[ -s $to/found ]] || fail "$2: $emulator ran nothing"
            echo "$2: found by $(basename "${traces[i]}")"
            difference
            return
        fi
    done
    fail "$2: no scene found it"
}

# A firmware over a core that its proofs refuse, by an edit of board/broken, and the scene of two processors that shows it.
find_unproved() {
    "$board/unproved" --edit "$board/broken/$1.edit" "$to/$1.o"
    build_over "$to/$1.o" "$1"
    found "$1" "$2" watch
}

# A firmware that is broken, of a --break.
build_break() {
    case $1 in
        root) build wrong-root -DWRONG_ROOT=1 ;;
        vectors) build no-vectors -DSAVE_VECTORS=0 ;;
        settling) build no-settling -DSETTLE=0 ;;
        resumed) build_several written -DWRITE_RESUMED=1 ;;
        untold) build_several untold -DTELL_INTERRUPTS=0 ;;
    esac
}

find_break() {
    build_break "$1"
    case $1 in
        root) found wrong-root "an endpoint with another's tables" ;;
        vectors) found no-vectors "vector registers that are not saved" ;;
        settling) found no-settling "translations that are kept" watch ;;
        resumed) found written "written registers of a partition that resumes" several ;;
        untold) found untold "an interrupt that is not reported" several ;;
        zeros-first) find_unproved zeros-first "zeros before a right is taken away" ;;
        zeros-last) find_unproved zeros-last "zeros after a right is granted" ;;
    esac
}

list_scenes
if ((${#names[@]})); then choose_scenes; fi
make_archive "$top"
build_generator
build documented
build_several several
if ((${#names[@]} == 0)); then build high -DRAM_BASE=0xC0000000; fi
if [[ $only ]]; then
    for name in root vectors settling resumed untold; do build_break $name; done
    echo "$me: each firmware is linked"
    exit
fi
[[ -n ${FFAPLAY:-} ]] || "$top/ffaplay" prove
if ((${#breaks[@]})); then
    make_scenes
    agree documented cortex-a57 "${manifests[0]}" "${traces[0]}"
elif ((${#names[@]})); then
    make_scenes
    all_agree documented cortex-a57
    all_agree documented max
else
    make_scenes generated-high
    all_agree documented cortex-a57
    all_agree documented max
    agree high cortex-a57 "$to/high.toml" "$to/generated-high"
    breaks=(root vectors settling resumed untold zeros-first zeros-last)
fi
for name in "${breaks[@]}"; do find_break "$name"; done
echo passed
