# Steps of the tests of the writer, for a run to source that counts in shell: for the compiler `cc`, the archive
# `archive`, and an emulator where the programs need one. The run is in the repository's root.
emulator=() # before each program

# The header by itself: a program that has nothing else, and one that knows how lengths are passed.
header_alone() { # COMPILER STANDARD FLAG..
    local name language=c
    [[ $2 != c++* ]] || language=c++
    echo '#include "trogonreed.h"' >"$folder/header.c"
    cat "$folder/header.c" - >"$folder/lengths.c" <<'END'
typedef uint32_t writer(uint8_t, uint8_t, uint16_t, const uint8_t *, uint64_t, uint8_t *, uint64_t);
extern writer *const lengths_have_64_bits;
writer *const lengths_have_64_bits = trogonreed_write_frame;
END
    for name in header lengths; do
        # shellcheck disable=SC2086
        try "$room: the header is not $2 for $1 ${*:3} ($name)" \
            "$1" -x "$language" "-std=$2" $strict "${@:3}" -c "$folder/$name.c" -o "$folder/$name.o"
    done
}

# The example in the header's text: what is indented in the comment that says Example. It is compiled and run.
headers_example() { # COMPILER STANDARD FLAG..
    local language=c
    [[ $2 != c++* ]] || language=c++
    sed -n '/^ \* Example/,/^ \*\//s/^ \*     //p' include/trogonreed.h >"$folder/example.h"
    # shellcheck disable=SC2086
    try "$room: the header's example is not $2 for $1" "$1" -x "$language" "-std=$2" $strict "${@:3}" -I"$folder" \
        tests/firmware/example/main.c -x none "$archive" -o "$folder/example" &&
        try "$room: the header's example, for $1 as $2, writes another frame" "${emulator[@]}" "$folder/example"
}

names() { # OPTION..: the archive's symbols of one kind
    nm -P "$@" "$archive" | awk 'NF > 1 { print $1 }' | sort
}

# One name is exported. Nothing is needed today; a compiler may also call these four, which a freestanding C has too.
symbols() {
    local needed
    needed=$(names -u | paste -s -d ' ')
    echo "$room: the archive needs: ${needed:-nothing}"
    try "$room: the archive exports other names" test "$(names -g --defined-only)" = trogonreed_write_frame
    try "$room: the archive needs more than C has" test -z "$(names -u | grep -vxE 'memcpy|memmove|memset|memcmp')"
}

# The sanitizers see what the code of the test and of the example does. The archive is compiled without them: what it
# touches is checked by the pages and the guard bytes around its buffers (fenced.h).
programs() { # NAME FLAG..
    local name=$1 wants='FF FF 00 0E 05 02 00 00 04 05 00 03 00 00 00 FF 55 00 20'
    compile "$room: the $name test is not built" "${@:2}" tests/firmware/*.c tests/lib/fenced.c "$archive" \
        -o "$folder/$name" && add_count "$room" "${emulator[@]}" "$folder/$name" "$seed"
    compile "$room: the $name example is not built" "${@:2}" examples/box.c "$archive" -o "$folder/box" &&
        try "$room: the $name example prints other bytes than example 4" \
            test "$("${emulator[@]}" "$folder/box" 2>&1)" = "$wants"
}

# Every random call's result and whole output, computed again by the second implementation.
random() { # NAME
    local printed status second=target/differential/release/differential
    echo "$room: seed $seed, $count frames"
    try "$room: the second implementation is not built" differential build || return
    printed=$(set -o pipefail && "${emulator[@]}" "$folder/$1" random "$seed" "$count" 2>&1 | "$second" written 2>&1)
    status=$?
    try "$room: the second implementation differs: $printed" test "$status $printed" = "0 $count lines agree"
}
