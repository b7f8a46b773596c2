#!/usr/bin/env bash
# SPDX-License-Identifier: MIT OR Apache-2.0
# Builds the library for C, builds the programs of this folder over it with every warning an error, and runs them:
#
# - the tests, with sanitizers, under valgrind, and over a shared library; the tests of bytes.c and floats.c; the example
# - the traces of examples/ and a generated one, through the C interface: outcomes and reasons must be the program's
# - texts on a stack of 256 KiB; programs without a C library, one of them on a stack of 64 KiB
# - the library for general registers
#
# usage: c/test.sh [--install | --install-only] [x86-64 | AArch64]
#
#   --install        first install Debian's packages of compilers, valgrind and QEMU
#   --install-only   install these packages and do nothing else
#   x86-64, AArch64  test only this processor; AArch64 needs a compiler and an emulator
#
# ARCHIVES=FOLDER has ready libraries, TARGET/libgorseplumb.a; UNPROVED=1 says that they are not proved. FFAPLAY=FILE is the program to
# compare with. Without these variables the script proves and builds both.
#
# Status: 0 if all tests that ran passed; the last line says whether all ran. 2 if the arguments are wrong; otherwise another number.
set -euo pipefail
here=$(cd "$(dirname "${BASH_SOURCE[0]}")" && pwd)
top=$(dirname "$here")
player=${FFAPLAY:-$top/ffaplay} # the program to compare with
packages="gcc g++ clang valgrind libc6-dev gcc-aarch64-linux-gnu libc6-dev-arm64-cross qemu-user-static"
if [[ ${1:-} == --install* ]]; then
    { apt-get update && apt-get install -y $packages; } >/dev/null || echo "could not install all of: $packages"
fi
if [[ ${1:-} == --install-only ]]; then exit 0; fi
only= # the processor that is given, or both
for word in "$@"; do
    case $word in
    x86-64 | AArch64) only=$word ;;
    --install) ;;
    *) echo "usage: c/test.sh [--install | --install-only] [x86-64 | AArch64]" >&2; exit 2 ;;
    esac
done
to=$(mktemp -d)
trap 'rm -rf "$to"' EXIT
strict="-std=c11 -Wall -Wextra -Wpedantic -Wshadow -Werror -I$here"
tests="test test_copies test_ffa test_questions test_reasons test_refusals test_runs test_races test_walks test_processors test_worlds test_forms test_tables"
sanitized="-O1 -g -fsanitize=address,undefined -fno-sanitize-recover=all"
deep=${UNPROVED:+-DGORSEPLUMB_STACK_BYTES=0x80000} # what tests/all compiled without proofs tests more, and takes more stack
renamed="-Dmemcpy=copy_bytes -Dmemmove=move_bytes -Dmemset=set_bytes" # bytes.c beside a C library, which has these
missing=0

# Sets `made` to the library for a target: the one in the folder ARCHIVES, which is like out/. Without that variable c/archive makes the one
# in out/, and proves what is not proved: make_archive TARGET [--general-registers]
make_archive() {
    made=${ARCHIVES:-$top/out}/$1${2:+-general-registers}/libgorseplumb.a
    if [[ -z ${ARCHIVES:-} ]]; then
        "$here/archive" --target "$@" >&2
    elif [[ ! -e $made ]]; then
        echo "not run: there is no $made"
        missing=1
        return 1
    fi
}

has() {
    command -v "$1" >/dev/null || { echo "not run: there is no $1 (Debian has it in one of: $packages)"; missing=1; return 1; }
}

# Runs a program, and prints a name before its output. If the program fails, the script ends: says NAME COMMAND..
says() {
    local said status=0
    said=$("${@:2}") || status=$?
    echo "$1: $said"
    if ((status)); then
        echo "$1: status $status" >&2
        exit 1
    fi
}

# Whether each word of a table is written by one store of 64 bits: looks at every store, but those to the stack, of the functions
# that write tables, as they are compiled: stores NAME OBJDUMP PROGRAM. (A register of AArch64 into which sp was added since the last branch
# leads to the stack too.)
stores() {
    "$2" -d --no-show-raw-insn "$3" | awk '
        function change(register) { sub(/^w/, "x", register); delete own["[" register] }
        /^[0-9a-f]+ <.*>:$/ { writes_tables = /<ffa_stage2::(tables|blocks)::|<ffa_lent::.*::(write_word|store)/ }
        !/\tst/ { change($3); change($4) }
        /\t(b|b\.[a-z]+|bl|blr|br|cbn?z|tbn?z|ret)(\t|$)/ { delete own }
        $2 == "add" && $4 == "sp," { own["[" $3] }
        match($0, /\[x[0-9]+,/) && substr($0, RSTART, RLENGTH) in own { next }
        !writes_tables || /\(%rsp/ || /\[(sp|x29)/ { next }
        /\tmov[a-z]* +[%$][a-z0-9]+,-?(0x[0-9a-f]+)?\(%/ { if (($2 == "mov" && $3 ~ /^%r([abcd]x|[sd]i|bp|8|9|1[0-5]),/) || ($2 == "movq" && $3 ~ /^\$/)) whole++; else { print; others++ } }
        /\tst[a-z]*\t/ { if ($2 == "str" && $3 ~ /^x/) whole++; else { print; others++ } }
        END { exit !(whole && !others) }' >&2 || { echo "$1: the functions that write tables must have stores, and only stores of 64 bits" >&2; exit 1; }
    echo "$1: each store of the functions that write tables has 64 bits"
}

# Whether no function of the whole archive leads to one that asks for memory, as they are compiled, but those by which
# machines and lists begin, grow and end: asks NAME OBJDUMP PROGRAM
asks() {
    local found others
    found=$("$here/reaches" "$2" "$3" | sed 's/^gorseplumb_//' | tr '\n' ' ')
    others=$(tr ' ' '\n' <<<"$found" | grep -Evx '(boot.*|copy|copy_lent|read_manifest|why_text|audit|audit_tables|end|begin_lending|lend|lend_span|)' || true)
    if [[ $others ]]; then echo "$1: these functions allocate memory, and must not:" $others >&2; exit 1; fi
    echo "$1: only these functions allocate memory: $found"
}

# Prints how many instructions of an archive name a vector register, or one of floating point, and how many there are: vectors OBJDUMP
# ARCHIVE
vectors() {
    "$1" -d --no-show-raw-insn "$2" | awk -F '\t' '
        NF < 2 { next }
        { all++; it = $2 "\t" $3; sub(/^[a-z0-9.]+[ \t]*/, "", it); sub(/\/\/.*/, "", it); sub(/(0x)?[0-9a-f]+ <.*/, "", it) }
        it ~ /(^|[^a-z0-9_#$])[qvdshbzp]([12]?[0-9]|3[01])([^a-z0-9_]|$)/ || it ~ /%([xyz]?mm|k)[0-7]|%st/ { named++ }
        END { print named + 0, all + 0 }'
}

# The archive for general registers alone: what it is made of; that it does what the other does, in a program whose floating point is
# that of floats.c; and what a program without a C library takes with it: general NAME OBJDUMP ARCHIVE OTHER "RUN.." COMMAND..
general() {
    local name=$1 named all others
    read -r named all < <(vectors "$2" "$3")
    read -r others _ < <(vectors "$2" "$4")
    if ((named || !all || !others)); then
        echo "$name: $named of $all instructions name a vector register, and must not; of the other library's instructions $others do" >&2
        exit 1
    fi
    echo "$name, general registers only: $all instructions name no vector register; of the other library's instructions $others do"
    local archive=$3 run=$5
    shift 5
    "$@" -pthread "$here"/{test,floats}.c "$archive" -o "$to/test"
    says "$name, general registers only, test" $run "$to/test"
    "$@" "$here"/{play,heap,unsettled,floats}.c "$archive" -o "$to/play"
    plays "$name, general registers only" $run "$to/play"
    set -- "$@" -mgeneral-regs-only -ffreestanding -fno-stack-protector -nostdlib -static -Wl,--gc-sections
    "$@" "$here"/{freestanding,array,bytes}.c "$archive" -o "$to/free"
    $run "$to/free"
    "$@" -DGORSEPLUMB_ARRAY_BYTES=0x800000 "$here"/{small_stack,array,bytes,floats}.c "$archive" -o "$to/small"
    says "$name, general registers only, without a C library, $(bytes "$to/free") bytes" $run "$to/small"
    named=$(nm -u "$archive" | sed -n '/ __wrap_write$/d; s/^ *U \(__.*\)/\1/p' | sort -u | tr '\n' ' ')
    echo "$name, general registers only: the library calls these functions of floats.c: $named"
}

# The test over a shared library of the whole archive, none of whose code has to be changed for its address, as
# $to/shared: shares ARCHIVE COMMAND..
shares() {
    local archive=$1
    shift
    "$@" -shared -Wl,-z,text -Wl,--whole-archive "$archive" -Wl,--no-whole-archive -o "$to/libgorseplumb.so"
    "$@" "$here/test.c" "-L$to" -lgorseplumb "-Wl,-rpath,$to" -o "$to/shared"
}

# A program with no C library that boots from numbers and stands at any address, as $to/moved, has nothing to relocate:
# moves NAME ARCHIVE COMMAND..
moves() {
    local name=$1 archive=$2
    shift 2
    "$@" -static-pie -fpie -Wl,--gc-sections "$here"/{freestanding,array,bytes}.c "$archive" -o "$to/moved"
    if readelf -rW "$to/moved" | grep ' R_'; then echo "$name: a position-independent program without texts has relocations, and must not" >&2; exit 1; fi
}

# A program without a gorseplumb_settle isn't linked, and is told that name; also one that has a `write` of its own, which the
# archive never asks for: unsettled NAME ARCHIVE COMMAND..
unsettled() {
    local name=$1 archive=$2 said
    shift 2
    echo 'long write(int, const void *, unsigned long); long write(int to, const void *at, unsigned long size) { return to + (at != 0) + (long)size; }' >"$to/write.c"
    if said=$("$@" -Dgorseplumb_settle=forgotten -Wl,--gc-sections "$here"/{freestanding,array,bytes}.c "$to/write.c" "$archive" -o "$to/unsettled" 2>&1); then
        echo "$name: a program without gorseplumb_settle links, and must not" >&2
        exit 1
    fi
    grep -q 'undefined .*gorseplumb_settle' <<<"$said" || { echo "$name: the linker must report that gorseplumb_settle is undefined, but says: $said" >&2; exit 1; }
    said=$(nm "$archive" 2>/dev/null | awk '$1 == "U" { asked[$2] } NF == 3 { had[$3] } END { for (name in asked) if (!(name in had)) print name }' |
        LC_ALL=C sort | tr '\n' ' ')
    [[ $said == "gorseplumb_settle memcpy memmove memset rattle_alloc rattle_dealloc rattle_realloc " ]] || { echo "$name: the library needs these functions of the program: $said; c/test.sh has the list that is allowed" >&2; exit 1; }
    echo "$name: a program without gorseplumb_settle does not link; the library needs: $said"
}

# What the archive says of its proofs is what is known of it: version NAME ARCHIVE "RUN.." COMMAND..
version() {
    local name=$1 archive=$2 run=$3 wanted="0.1.0${UNPROVED:+ (not proved)}" said
    shift 3
    printf '#include <stdio.h>\n#include "gorseplumb.h"\nint main(void) { return puts(gorseplumb_version()) < 0; }\n' >"$to/version.c"
    "$@" "$to/version.c" "$archive" -Wl,--gc-sections -o "$to/version"
    said=$($run "$to/version")
    [[ $said == "$wanted" ]] || { echo "$name: the library's version is $said; it must be $wanted (set UNPROVED=1 if the library is not proved)" >&2; exit 1; }
    echo "$name: version $said"
}

# At each level bytes.c has no call of its own functions, which would never end, though it isn't told so by a flag: ends NAME COMMAND..
ends() {
    local name=$1 level
    shift
    for level in 0 1 2 3 s; do
        "$@" -O$level -c "$here/bytes.c" -o "$to/bytes.o"
        if readelf -rW "$to/bytes.o" | grep -E ' mem(cpy|move|set)( |$)' >&2; then
            echo "$name: with -O$level, bytes.c calls a function of its own, and must not" >&2
            exit 1
        fi
    done
    echo "$name: bytes.c calls no function of its own, at any level"
}

# The bytes of code and data of a program, as `size` adds them up.
bytes() { size "$1" | awk 'NR == 2 { print $4 }'; }

# Plays each trace that there is, with a comment that has a NUL, and `audit`, on RAM of the heap and on lent pages: plays NAME COMMAND..
plays() {
    local name=$1 machine kind
    shift
    for pair in machine:first machine:calls partitions:accesses partitions:messages partitions:sharing partitions:generated; do
        machine=$top/examples/${pair%:*}.toml
        case $pair in
        *:generated) cat "$to/generated" ;;
        *) printf '# a NUL: \0\n' && cat "$top/examples/${pair#*:}.trace" && echo audit ;;
        esac >"$to/trace"
        "$player" run "$machine" "$to/trace" >"$to/expected"
        for kind in heap lent; do
            "$@" $kind "$machine" "$to/trace" >"$to/played"
            cmp "$to/expected" "$to/played" || { echo "$name: $kind: the outcomes of $pair differ from the program's" >&2; exit 1; }
        done
    done
    echo "$name: five traces and $(wc -l <"$to/generated") generated lines, in RAM of the heap and in lent pages: as the program prints them"
}

# Plays the generated lines, of which some are each of another processor, with interrupts and reasons: turns NAME COMMAND..
turns() {
    local name=$1 machine=$top/examples/partitions.toml
    shift
    awk 'NR % 29 == 0 { printf "on %d\n", NR / 29 % 8 } NR % 13 == 0 { print "interrupt" } { print }' "$to/generated" >"$to/trace"
    "$player" run --processors 8 --explain "$machine" "$to/trace" >"$to/expected"
    "$@" explain "$machine" "$to/trace" >"$to/played"
    cmp "$to/expected" "$to/played" || { echo "$name: outcomes on eight processors differ from the program's" >&2; exit 1; }
    echo "$name: these lines on eight processors, with $(grep -c '^interrupt' "$to/trace") interrupts after which $(grep -c '^resumed' "$to/played")" \
        "partitions resumed, and $(grep -c '^# refused: ' "$to/played") reasons: as the program prints them"
}

# Plays what the normal world is told of a notification, and contexts that it names, in each version of FF-A by two processors and by one:
# told NAME COMMAND..
told() {
    local name=$1 machine=$top/tests/rows/machine.toml trace kind flags
    shift
    printf '%s\n' 'call 84000064 84000083' 'call 84000083' 'call 8400007D 0 2' 'call 8400006D 80010000' 'call 8400007F 8001 0 8' \
        'call 8400006B' 'call 84000081 8001 0 8' 'call C4000083' 'call 84000083' >"$to/alone"
    sed 's/^call 84000081/on 1\n&/' "$to/alone" >"$to/trace"
    while read -r trace kind flags; do
        "$player" run $flags --explain "$machine" "$to/$trace" >"$to/expected"
        "$@" $kind "$machine" "$to/$trace" >"$to/played"
        cmp "$to/expected" "$to/played" || { echo "$name: what is told of notifications differs from the program's run $flags" >&2; exit 1; }
    done <<'END'
trace explain-1.2 --ffa 1.2 --processors 2
alone explain-1.2 --ffa 1.2
trace explain --processors 2
alone explain
END
    echo "$name: the library reports a notification to the normal world as the program does"
}

# Whether play tells each reason of the generated lines, and those of each check that a table of tests has, as the program does, and whether
# these have each kind of hint: explains NAME PLAY
explains() {
    local name=$1 untold
    export PLAYER PLAY=$2 HINTS=$to/hints
    PLAYER=$(realpath "$player")
    rm -f "$HINTS"
    "$here/explained" run --explain "$top/examples/partitions.toml" "$to/generated" >"$to/explained"
    FFAPLAY=$here/explained "$top/tests/tables" "$top/tests/tables.d/explained.table" >"$to/tables" || { cat "$to/tables" >&2; exit 1; }
    untold=$(sed -n 's/^    GORSEPLUMB_HINT_[A-Z_]* = \([0-9]*\).*/\1/p' "$here/gorseplumb.h" | grep -vxFf "$HINTS" | tr '\n' ' ' || true)
    if [[ $untold || ! -s $HINTS ]]; then echo "$name: no reason has a hint of the kinds $untold, and the table must have one of each" >&2; exit 1; fi
    echo "$name: $(grep -c '^# refused: ' "$to/explained") reasons in generated lines are the program's;" \
        "reasons in a table: $(tail -n 1 "$to/tables")"
}

# What is built by a compiler for this machine: by_compiler COMPILER
by_compiler() {
    local compiler=$1
    has $compiler || return 0
    for test in $tests; do
        $compiler $strict -pthread $sanitized "$here/$test.c" "$here"/{settle,names}.c "$native" -o "$to/$test"
        says "$compiler, $test, sanitized" "$to/$test"
        $compiler $strict -pthread -O2 "$here/$test.c" "$native" -o "$to/$test"
        says "$compiler, $test" "$to/$test"
    done
    ends $compiler $compiler $strict
    version $compiler "$native" "" $compiler $strict
    $compiler $strict $sanitized $renamed "$here"/{test_bytes,bytes}.c -o "$to/bytes"
    says "$compiler, sanitized" "$to/bytes"
    $compiler $strict $sanitized "$here"/{test_floats,floats}.c -o "$to/floats"
    says "$compiler, sanitized" "$to/floats"
    shares "$native" $compiler $strict -O2
    says "$compiler, over a shared library" "$to/shared"
    $compiler $strict $sanitized "$here"/{example,heap,unsettled}.c "$native" -o "$to/example"
    "$to/example"
    $compiler $strict $sanitized "$here"/{play,heap,unsettled}.c "$native" -o "$to/play"
    plays "$compiler, sanitized" "$to/play"
    turns "$compiler, sanitized" "$to/play"
    told "$compiler, sanitized" "$to/play"
    explains "$compiler, sanitized" "$to/play"
    bare="$strict -O2 -ffreestanding -fno-stack-protector -nostdlib -static"
    $compiler $bare "$here"/{freestanding,array,bytes}.c "$native" -o "$to/whole"
    $compiler $bare -Wl,--gc-sections "$here"/{freestanding,array,bytes}.c "$native" -o "$to/free"
    "$to/free"
    moves $compiler "$native" $compiler $bare
    "$to/moved"
    unsettled $compiler "$native" $compiler $bare
    if nm "$to/whole" "$to/free" | grep _names; then echo "$compiler: a program that uses no names of checks links them, and must not" >&2; exit 1; fi
    $compiler $bare -Wl,--gc-sections,--undefined=gorseplumb_check_name "$here"/{freestanding,array,bytes}.c \
        "$native" -o "$to/named"
    echo "$compiler: links without a C library, and runs: $(bytes "$to/free") bytes;" \
        "$(bytes "$to/named") with the names of checks; $(bytes "$to/whole") with functions that nothing calls"
    $compiler $bare -Wl,--gc-sections -DGORSEPLUMB_ARRAY_BYTES=0x800000 "$here"/{small_stack,array,bytes}.c "$native" -o "$to/small"
    says "$compiler" "$to/small"
    $compiler $strict -O2 $deep "$here"/{deep_text,heap,unsettled}.c "$native" -o "$to/deep"
    says "$compiler, deep_text" "$to/deep"
    $compiler $bare "$here"/{freestanding,array,bytes}.c -Wl,--whole-archive "$native" -Wl,--no-whole-archive \
        -o "$to/every"
}

# What is built for this machine beside that.
beside_compilers() {
    local others compiler
    cat >"$to/headers.cpp" <<'CPP'
#include "gorseplumb.h"
#include "gorseplumb_explain.h"
#include "gorseplumb_ffa.h"
#include "lending.h"
bool is_denied(uint16_t partition);
bool is_denied(uint16_t partition) {
    gorseplumb_machine machine = {};
    gorseplumb_outcome told = GORSEPLUMB_CALL(&machine, GORSEPLUMB_FFA_RUN, gorseplumb_pair(partition, 0));
    return gorseplumb_error_of(told) == GORSEPLUMB_ERROR_DENIED;
}
CPP
    grep '^#include' "$to/headers.cpp" >"$to/headers.c"
    for compiler in g++ clang++; do
        has $compiler || continue
        for standard in c++11 c++17 c++20; do
            $compiler -std=$standard -Wall -Wextra -Wpedantic -Werror "-I$here" -c "$to/headers.cpp" -o "$to/headers.o"
        done
        echo "$compiler: the headers compile as C++11, C++17 and C++20"
    done
    for compiler in gcc clang; do
        has $compiler || continue
        for standard in c99 c11 c17; do
            $compiler -std=$standard -Wall -Wextra -Wpedantic -Werror "-I$here" -c "$to/headers.c" -o "$to/headers.o"
        done
        echo "$compiler: the headers compile as C99, C11 and C17"
    done
    # The archive isn't instrumented by the sanitizers: valgrind looks at what it reads and writes, too. (Its threads take turns, so walks beside
    # calls are left out.)
    if has gcc && has valgrind; then
        for test in ${tests/test_walks/}; do
            gcc $strict -pthread -O1 -g "$here/$test.c" "$native" -o "$to/$test"
            says "valgrind, $test" valgrind -q --error-exitcode=9 --leak-check=full "$to/$test"
        done
    fi
    if has gcc; then
        stores native objdump "$to/test"
        asks native objdump "$to/every"
    fi
    if has gcc && make_archive x86_64-unknown-linux-gnu --general-registers; then
        general native objdump "$made" "$native" "" gcc $strict -O2
    fi
    # (the linker's name for what takes the place of `write` is its own)
    others=$(nm -g --defined-only "$native" | awk 'NF == 3 && $3 !~ /^(gorseplumb_|__wrap_write$)/ { print $3 }')
    if [[ $others ]]; then echo "these names of the library must begin with gorseplumb_:" $others >&2; exit 1; fi
}

# What is built for AArch64, and run by an emulator.
on_aarch64() {
    local arm bare other
    arm="aarch64-linux-gnu-gcc $strict -O2 -static"
    for test in $tests; do
        $arm -pthread "$here/$test.c" "$made" -o "$to/$test"
        says "AArch64, $test" qemu-aarch64-static "$to/$test"
    done
    shares "$made" aarch64-linux-gnu-gcc $strict -O2
    says "AArch64, over a shared library" qemu-aarch64-static -L /usr/aarch64-linux-gnu "$to/shared"
    stores AArch64 aarch64-linux-gnu-objdump "$to/test"
    $arm "$here"/{play,heap,unsettled}.c "$made" -o "$to/play"
    plays AArch64 qemu-aarch64-static "$to/play"
    turns AArch64 qemu-aarch64-static "$to/play"
    told AArch64 qemu-aarch64-static "$to/play"
    bare="-ffreestanding -fno-stack-protector -nostdlib -Wl,--gc-sections"
    ends AArch64 aarch64-linux-gnu-gcc $strict
    version AArch64 "$made" qemu-aarch64-static $arm
    unsettled AArch64 "$made" $arm $bare
    # (without -ffreestanding too, of which a compiler thinks that it may call what bytes.c has)
    $arm ${bare/-ffreestanding /} "$here"/{freestanding,array,bytes}.c "$made" -o "$to/free"
    qemu-aarch64-static "$to/free"
    $arm $bare "$here"/{freestanding,array,bytes}.c "$made" -o "$to/free"
    qemu-aarch64-static "$to/free"
    echo "AArch64: links without a C library, and runs"
    moves AArch64 "$made" $arm $bare
    qemu-aarch64-static "$to/moved"
    $arm $bare -DGORSEPLUMB_ARRAY_BYTES=0x800000 "$here"/{small_stack,array,bytes}.c "$made" -o "$to/small"
    says AArch64 qemu-aarch64-static "$to/small"
    $arm $deep "$here"/{deep_text,heap,unsettled}.c "$made" -o "$to/deep"
    says "AArch64, deep_text" qemu-aarch64-static "$to/deep"
    $arm $bare "$here"/{freestanding,array,bytes}.c -Wl,--no-gc-sections,--whole-archive "$made" \
        -Wl,--no-whole-archive -o "$to/every"
    asks AArch64 aarch64-linux-gnu-objdump "$to/every"
    other=$made
    if make_archive aarch64-unknown-linux-gnu --general-registers; then
        general AArch64 aarch64-linux-gnu-objdump "$made" "$other" qemu-aarch64-static $arm
    fi
}

for words in "--jobs 0:from 1 on" "--jobs -1:from 1 on" "--unproved --jobs 2:proves nothing" "--unproved --as-built:proves nothing"; do
    said=$(timeout 60 "$here/archive" ${words%:*} 2>&1) && status=0 || status=$?
    if ((status != 2)) || ! grep -q "${words#*:}" <<<"$said"; then echo "c/archive ${words%:*}: status $status; it must be 2, with a message that has '${words#*:}': $said" >&2; exit 1; fi
done
echo "c/archive rejects fewer than one process, and flags that exclude --unproved"
[ -n "${FFAPLAY:-}" ] || "$top/ffaplay" prove
"$player" check "$top/examples/machine.toml" >/dev/null
# (rust/test.sh and python/test.sh play the same)
"$player" generate --seed 7 --lines 101000 "$top/examples/partitions.toml" >"$to/generated"
if [[ $only != AArch64 ]]; then
    make_archive x86_64-unknown-linux-gnu || exit 1
    native=$made
    by_compiler gcc
    by_compiler clang
    beside_compilers
fi
if [[ $only != x86-64 ]] && has aarch64-linux-gnu-gcc && has qemu-aarch64-static && make_archive aarch64-unknown-linux-gnu; then on_aarch64; fi
if ((missing)); then echo "passed, except what did not run"; else echo "passed"; fi
