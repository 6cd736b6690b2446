# To be sourced after kit.sh and debian.sh: C for x86-64, by the machine's own cc where that is for x86-64, else by the kit's
# clang with headers of Debian's packages. find_kit comes first.
# shellcheck shell=sh disable=SC2034,SC2154

headers=$fetched/headers

# The machine's cc makes programs for x86-64, and finds the C library's headers.
has_cc() {
    [ "$(uname -m)" = x86_64 ] && command -v cc >/dev/null &&
        echo '#include <stdio.h>' | cc -fsyntax-only -x c - 2>/dev/null
}

# The folders of the C library's headers for x86-64, and of the compiler's own, such as stddef.h: those of the newest clang
# that Debian has, since the kit's comes without. Sets library_headers and compiler_headers; empty where they are missing.
look_for_headers() {
    library_headers=$headers/usr/x86_64-linux-gnu/include
    [ -e "$library_headers/stdio.h" ] || library_headers=
    compiler_headers=
    for stddef in "$headers"/usr/lib/llvm-*/lib/clang/*/include/stddef.h; do
        [ ! -e "$stddef" ] || compiler_headers=${stddef%/stddef.h}
    done
}

header_packages() {
    echo libc6-dev-amd64-cross
    tool=apt-cache apt pkgnames libclang-common- | grep '^libclang-common-[0-9]*-dev$' | sort -t - -k 3n | tail -n 1
}

find_headers() {
    look_for_headers
    [ -z "$library_headers" ] || [ -z "$compiler_headers" ] || return 0
    others=$packages
    packages=$headers
    know_packages libc6-dev-amd64-cross
    # shellcheck disable=SC2046
    fetch $(header_packages)
    packages=$others
    look_for_headers
    [ -n "$library_headers" ] || die "Debian's libc6-dev-amd64-cross has no usr/x86_64-linux-gnu/include/stdio.h"
    [ -n "$compiler_headers" ] || die "Debian's libclang-common-..-dev has no usr/lib/llvm-../lib/clang/../include/stddef.h"
}

# Sets c, the compiler's name, for messages.
find_c() {
    if has_cc; then
        c=cc
    else
        find_headers
        c="the kit's clang"
    fi
}

compile_c() { # compile_c SOURCE OBJECT WORDS..: plain C99, every warning an error
    source=$1
    object=$2
    shift 2
    set -- "$@" -std=c99 -Wall -Wextra -Werror -pedantic -O2 -c -o "$object" "$source"
    if [ "$c" = cc ]; then
        cc "$@"
    else
        "$tools/clang" --target=x86_64-linux-gnu -nostdinc -isystem "$compiler_headers" -isystem "$library_headers" "$@"
    fi || die "$source does not compile with $c"
}

# What the machine's cc has compiled is linked with the machine's C library, and what the kit's clang has with the kit's.
link_c() { # link_c PROGRAM OBJECTS..
    if [ "$c" = cc ]; then
        cc -o "$@"
    else
        link_program "$@"
    fi || die "$1 cannot be linked"
}

run_c() { # run_c PROGRAM WORDS..
    if [ "$c" = cc ]; then
        "$@"
    else
        run_program "$@"
    fi
}
