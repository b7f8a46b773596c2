# SPDX-License-Identifier: MIT OR Apache-2.0
# Functions that run.sh and secure/run.sh share for Linux as the normal world. A script that sources this file has sourced ../common.sh. It sets `linux`, the
# folder of a kernel, and what linux.dts needs: `image_at`, where Linux's memory begins, `memory_bytes`, `initramfs_at`, `redistributors`.

# What the core has room for, by its name in limits.rt.
limit_of() { sed -n "s/^pub const $1: .* = \([0-9]*\);.*/\1/p" "${repository:-$top}/crates/ffa_model/src/limits.rt"; }

build_partition() {
    local of=$board/linux/partition
    $compiler "${flags[@]}" "${program_flags[@]}" -T "$of/partition.ld" "$of"/*.c "$of/start.S" "$top/c/bytes.c" -o "$to/partition.elf"
    $copier -O binary "$to/partition.elf" "$to/partition"
}

# The device tree: build_tree CONDUIT PROCESSORS WORD.., of which the first is the instruction by which Linux calls, and the last are for the driver
build_tree() {
    local end i others='' words
    words="ffa_try.ranges=$(limit_of MOST_RANGES) ffa_try.open=$(limit_of MOST_OPEN)"
    end=$((16#$initramfs_at + $(stat -L -c %s "$linux/initramfs")))
    for ((i = 1; i < $2; i++)); do
        others+="cpu@$i { device_type = \"cpu\"; compatible = \"arm,cortex-a57\"; enable-method = \"psci\"; reg = <$i>; }; "
    done
    sed -e "s/= CONDUIT/= \"$1\"/" -e "s/ARGUMENTS;/\"earlycon console=ttyAMA0 panic=-1 $words ${*:3}\";/" -e "s/^ *OTHERS$/$others/" \
        -e "s/<0 INITRD_BEGIN>/<0 0x$initramfs_at>/" -e "s/<0 INITRD_END>/<0 $end>/" -e "s/MEMORY_BEGIN/$image_at/" -e "s/MEMORY_BYTES/$memory_bytes/" \
        -e "s/REDISTRIBUTORS/$redistributors/" "$board/linux/linux.dts" | dtc -q -O dtb -o "$to/tree"
}

# The lines of expected.txt that Linux has to say and doesn't: missing SECTION.. RANGES there are as many as a transaction may have, and MORE one more.
missing() {
    local line ranges
    ranges=$(limit_of MOST_RANGES)
    awk -v sections=" $* " '/^\[/ { on = index(sections, " " substr($0, 2, length($0) - 2) " "); next } on && !/^(#|$)/' "$board/linux/expected.txt" |
        sed -e "s/RANGES/$ranges/" -e "s/MORE/$((ranges + 1))/" |
        while IFS= read -r line; do grep -qF -- "$line" "$to/linux" || echo "$line"; done
}

# What Linux said last, and what of all that it said came out otherwise.
last_words() {
    tail -n 30 "$to/linux"
    grep FAILED "$to/linux" || true
}

# What was done, each with what came of it.
with_outcomes() { paste -d '|' <(grep -v '^on ' "$to/trace") "$to/found"; }

# Whom FFA_NOTIFICATION_INFO_GET named; the driver of Linux 6.12 says of NO_DATA that it failed, which it compares in 64 bits.
named() {
    with_outcomes | awk -F '|' '
        $1 !~ /^call C4000083/ { next }
        $2 ~ /^regs 0000 0000000084000060/ { nobody++; next }
        { named++; split($2, words, " "); partition += words[6] ~ /8001/ }
        END { printf "FFA_NOTIFICATION_INFO_GET named a partition %d times, 8001 %d of these times, and no one %d times", named, partition, nobody }'
}

# How many calls of Linux's were answered that somebody is busy. They are those that may be: requests, cycles and messages.
busy() {
    with_outcomes | awk -F '|' '
        $2 !~ /^regs 0000 0000000084000060 0000000000000000 00000000FFFFFFFC / { next }
        $1 ~ /^call (C400006F|8400006F|8400006D|84000086)( |$)/ { busy++; next }
        { print "busy: " $1 >"/dev/stderr"; others++ }
        END { if (others) exit 1; print busy + 0 }'
}
