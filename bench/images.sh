# The images that the measurements run; read by the scripts beside it.

# The bytes of a number, lowest first: little NUMBER COUNT.
little() {
    rest=$1
    count=$2
    while [ "$count" -gt 0 ]; do
        # shellcheck disable=SC2059
        printf "\\$(printf %03o $((rest % 256)))"
        rest=$((rest / 256))
        count=$((count - 1))
    done
}

# An image of one segment, which is its text of these words: image WORD..
image() {
    size=$(($# * 4))
    printf '\177ELF\002\001\001\000\000\000\000\000\000\000\000\000' # ident
    little 2 2 && little 243 2 && little 1 4                         # type, machine, version
    little 65656 8 && little 64 8 && little 0 8                      # entry, phoff, shoff
    little 0 4 && little 64 2 && little 56 2 && little 1 2           # flags, ehsize, phentsize, phnum
    little 0 6                                                       # no sections
    little 1 4 && little 5 4 && little 120 8                         # type, flags, offset
    little 65656 8 && little 65656 8                                 # addresses
    little "$size" 8 && little "$size" 8 && little 4096 8            # sizes, alignment
    for word in "$@"; do
        little "$((word))" 4
    done
}
