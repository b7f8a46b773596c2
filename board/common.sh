# SPDX-License-Identifier: MIT OR Apache-2.0
# Functions that the board's scripts share. A script that sources this file sets `me`, the name in its messages, and has its own `usage`.
board=$(cd "$(dirname "${BASH_SOURCE[0]}")" && pwd)
top=$(dirname "$board")
player=${FFAPLAY:-$top/ffaplay} # the program, which judges
compiler=aarch64-linux-gnu-gcc
copier=aarch64-linux-gnu-objcopy
emulator=qemu-system-aarch64
flags=(-std=c11 -Wall -Wextra -Wpedantic -Wshadow -Werror -ffreestanding -fno-stack-protector -fno-tree-loop-distribute-patterns
    -mno-outline-atomics "-I$top/c" "-I$board" -DGORSEPLUMB_ARRAY_TELLS -DGORSEPLUMB_ARRAY_BYTES=0x1000000
    -nostdlib -static "-Wl,--gc-sections" "-Wl,--build-id=none")

# What of the board's files each firmware has.
shared=(boot call endpoint exception memory operation psci tables text)
shared=("${shared[@]/#/$board/}")
shared=("${shared[@]/%/.c}" "$board/start.S" "$top"/c/{array,bytes}.c)

# A program for EL1 that stands in pages of its own: no translation, no vector registers, no variables, and no access that isn't aligned.
program_flags=(-Os -fpie -mgeneral-regs-only -mstrict-align -ffunction-sections)

fail() {
    echo "$me: $*" >&2
    exit 1
}

refuse() {
    echo "$me: $*" >&2
    usage >&2
    exit 64
}

# Ctrl-C ends a run at once. (bash awaits what runs, which Ctrl-C reaches too, and then does this.)
trap 'exit 130' INT

is_count() { [[ $1 =~ ^(0|[1-9][0-9]{0,8})$ ]]; }

# Takes the option that the next argument is, if it is one that all scripts of board/*/ have, else refuses the argument: take_option ARGUMENT..
# It sets `taken` to how many arguments the option is.
take_option() {
    taken=1
    case $1 in
        --install) install=yes ;;
        --build-only) only=yes ;;
        --work | --keep | --jobs) take_value "$@" ;;
        --help) usage && exit 0 ;;
        *) refuse "there is no argument $1" ;;
    esac
}

# Sets the variable that an option names to the argument after it: take_value OPTION VALUE
take_value() {
    [[ ${2:-} ]] || refuse "$1 needs a value"
    declare -g "${1#--}=$2"
    taken=2
}

# A number of processors, of --jobs: check_jobs NUMBER
check_jobs() { [[ $1 =~ ^[1-9][0-9]{0,3}$ ]] || refuse "--jobs $1: must be a number of processors from 1 to 9999"; }

# Makes the folder $to, which is gone when the script ends.
make_room() {
    to=$(mktemp -d) || fail "cannot make a folder in ${TMPDIR:-/tmp}; set TMPDIR to another place"
    trap end EXIT
    needs_room "$to" "$1"
}

# A step that said itself why it failed, as a tool on a full disk, ends the script with 1.
end() {
    local status=$?
    rm -rf "$to"
    case $status in
        0 | 1 | 64 | 130 | 143) exit "$status" ;;
        *) fail "a step ended with $status" ;;
    esac
}

# Whether a folder has so many megabytes free: needs_room FOLDER MEGABYTES
needs_room() {
    local free
    free=$(df --output=avail -B 1M "$1" | tail -n 1)
    ((free >= $2)) || fail "$1 has $((free)) MB free; this needs $2 MB"
}

# Refuses a folder in which make can't work: check_folder FOLDER
check_folder() {
    local marks=${1//[\/._+@~=-]/}
    [[ ! $marks =~ [[:space:][:punct:]] ]] || fail "make cannot work in '$1': a folder's name may have only letters, digits and /._+@~=-"
}

# Waits until no other process has a lock, and says for whom it waits: take_lock FILE. By `held` it is given back.
take_lock() {
    exec {held}>>"$1"
    if ! flock -n "$held"; then
        echo "$me: waiting for $(cat "$1"), which has the lock $1" >&2
        flock "$held"
    fi
    echo "process $$ of $top" >"$1"
}

# Runs a command that says nothing where it ends well: quietly WHAT LOG COMMAND.. What it says last is kept outside the log too, which may be on a
# disk that is full.
quietly() {
    local what=$1 log=$2 said
    said=$("${@:3}" 2>&1 </dev/null | { tee "$log" 2>/dev/null || true; } | tail -n 20) || fail "$what ended with $?: $said"
}

# Names what is made of files, by their names and texts and not by their times: name_of PATH.., of which each is below the top of this checkout. Two
# checkouts whose files differ have two names.
name_of() { (cd "$top" && find "$@" -type f -print0 | LC_ALL=C sort -z | xargs -0 sha256sum) | sha256sum | cut -c -16; }

# Where board/linux/kernel, board/secure/tf-a and board/secure/optee/build leave what they make.
linux_in() { echo "$1/$(name_of board/linux/{driver,kernel,kernel.config,optee.config,partition/work.h})"; }
tf_a_in() { echo "$1/$(name_of board/secure/{tf-a,tsp,manager.dts,packages.dts})"; }
optee_in() { echo "$1/$(name_of board/secure/optee)"; }

# The folder for their sources and builds, which board/linux/run.sh and board/secure/run.sh share.
default_work=${TMPDIR:-/tmp}/gorseplumb-boards

# Installs Debian's packages: install_packages PACKAGE..
install_packages() {
    local log
    command -v apt-get >/dev/null || fail "there is no apt-get; --install needs it to install Debian's $*"
    log=$(apt-get update 2>&1 && apt-get install -y --no-install-recommends "$@" 2>&1) || fail "cannot install the packages: $log"
}

# An apt command that has the list FOLDER/sources.list, and keeps all in FOLDER: apt_in FOLDER COMMAND WORD.. The machine's lists stay as they are.
apt_in() {
    "$2" -o "Dir::Etc::SourceList=$1/sources.list" -o Dir::Etc::SourceParts=/dev/null -o "Dir::State::Lists=$1/lists" -o "Dir::Cache=$1/cache" \
        -o APT::Sandbox::User=root "${@:3}"
}

# Debian's keys, by which apt checks what scripts fetch.
keyring=/usr/share/keyrings/debian-archive-keyring.gpg

# Sets `mirror` to Debian's mirror that this machine's apt has.
find_mirror() {
    mirror=$(apt-get indextargets --format '$(REPO_URI)' 'Identifier: Packages' 'Origin: Debian' 'Label: Debian' | sed -n 1p)
    [[ $mirror ]] || fail "apt knows no mirror of Debian's: \`apt-get update\` has it known"
}

# Makes the list FOLDER/sources.list of Debian's sources in suites, for apt_in: list_sources FOLDER SUITE..
list_sources() {
    mkdir -p "$1"/{lists,cache}
    find_mirror
    printf "deb-src [signed-by=$keyring] $mirror %s main\n" "${@:2}" >"$1/sources.list"
}

# Prints the version of a package to take: the wanted one, or the newest if apt does not have the wanted one, and then it says so. The last words are
# apt_in or a function that calls it: choose_version PACKAGE WANTED APT..
choose_version() {
    local versions
    versions=$("${@:3}" apt-cache madison "$1" | awk '{ print $3 }' | sort -Vu)
    [[ $versions ]] || fail "apt has no $1"
    if grep -qxF "$2" <<<"$versions"; then
        echo "$2"
        return
    fi
    versions=$(tail -n 1 <<<"$versions")
    echo "$me: apt has no $1 $2, so this takes $versions" >&2
    echo "$versions"
}

# Whether commands are there, of packages that --install installs: needs "PACKAGE.." COMMAND..
needs() {
    local command
    for command in "${@:2}"; do
        command -v "$command" >/dev/null || fail "there is no $command; --install installs it with Debian's $1"
    done
    command -v rt >/dev/null || fail "there is no rt, the toolchain's command, on your path; README.md says what you need"
}

target=aarch64-unknown-linux-gnu

# Where the core's archive is in a folder like out/: archive_in FOLDER [--general-registers]
archive_in() { echo "$1/$target${2:+-${2#--}}/libgorseplumb.a"; }

# Looks, before anything is built, at what is given beside the words: the archive in the folder ARCHIVES, and the program FFAPLAY where it is to
# judge: check_given [--general-registers]
check_given() {
    local file
    file=$(archive_in "${ARCHIVES:-}" "$@")
    [[ -z ${ARCHIVES:-} || -f $file ]] || fail "ARCHIVES is $ARCHIVES, but there is no $file"
    [[ -z ${FFAPLAY:-} || $only ]] || { command -v "$FFAPLAY" && "$FFAPLAY" --version; } >/dev/null || fail "FFAPLAY is $FFAPLAY, but that program does not run"
}

# Sets `archive` to the core's archive for AArch64: the one that stands ready in the folder ARCHIVES, or the repository's own, which is
# made: make_archive REPOSITORY [--general-registers]
make_archive() {
    archive=$(archive_in "${ARCHIVES:-$1/out}" "${@:2}")
    [[ ${ARCHIVES:-} ]] || "$1/c/archive" --target $target "${@:2}" >&2 || fail "c/archive did not make the library, and ended with $?"
}

# A file that QEMU puts somewhere, as two of its words: loader FILE ADDRESS
loader() { printf -- '-device\nloader,file=%s,addr=0x%s,force-raw=on\n' "${1//,/,,}" "$2"; }

# Runs the emulator in the folder $to, and parts what is printed: emulate WORD.., of which the words are its own. All is in $to/uart, the
# trace in $to/trace, and what came of it in $to/found. It has $limit seconds, or 300: `late` says that they were too few. A firmware that
# hangs, or an emulator that doesn't run it, prints no end. (In the foreground, `timeout` leaves the emulator among what Ctrl-C reaches.)
emulate() {
    local status=0
    late=''
    : >"$to/uart"
    (cd "$to" && timeout --foreground "${limit:-300}" "$emulator" -nodefaults -display none -serial file:uart "$@" </dev/null >&2) || status=$?
    if ((status == 124)); then
        late="it did not end within ${limit:-300} seconds"
        cut_last_line "$to/uart"
        echo "! $late" >>"$to/uart"
    elif ((status)); then
        echo "! $emulator ended with $status" >>"$to/uart"
    fi
    part "$to/uart"
}

# Leaves out a last line that isn't whole.
cut_last_line() { [[ -z $(tail -c 1 "$1") ]] || sed -i '$d' "$1"; }

part() {
    sed -n 's/^> //p' "$1" >"$to/trace"
    sed -n 's/^< //p' "$1" >"$to/found"
}

# Whether the board came to its end.
has_end() { [[ $(tail -n 1 "$to/uart") == "= end" ]]; }
