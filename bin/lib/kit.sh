# To be sourced: the kit, the archive of the C functions, and programs for x86-64.
# Wants root, the project's folder, and me, the name that messages begin with.
# shellcheck shell=sh disable=SC2034,SC2154

say() { printf '%s: %s\n' "$me" "$*" >&2; }
die() { say "$*"; exit 2; }

is_stale() { # is_stale MADE FROM..: MADE is not there, or older than something it is made from
    made=$1
    shift
    [ ! -e "$made" ] || [ -n "$(find "$@" -newer "$made" -print | head -n 1)" ]
}

# What a crate is made from: crates.txt, what is in its own folder and in those of the crates on its line there, without the
# kit's. What rt makes of it, in out/, is no part of that.
sources() {
    printf '%s\n' "$root/crates.txt"
    for name in "$1" $(sed -n "s/#.*//; s/^$1\( [^:]*\)*://p" "$root/crates.txt"); do
        for part in "$root/crates/$name"/*; do
            case $part in */out) continue ;; esac
            [ ! -e "$part" ] || printf '%s\n' "$part"
        done
    done
}

is_stale_crate() { # is_stale_crate MADE CRATE: the same of what a crate is made from
    [ -e "$1" ] || return 0
    sources "$2" | while IFS= read -r part; do find "$part" -newer "$1" -print; done | grep -q .
}

# Has rt make FILE in a crate's out/, and copies it to MADE, since rt ci sets aside what is in out/. Afterwards MADE is as old
# as the beginning, so that what was edited meanwhile makes it stale, and what was only touched before does not.
make_by_rt() { # make_by_rt MADE CRATE VERB FILE
    made=$1
    folder=$root/crates/$2
    verb=$3
    file=$4
    log=$root/target/${made##*/}.log
    mkdir -p "$root/target" "${made%/*}"
    : >"$log.begun"
    # rt run ends as the program that it starts does: whether it made one is told by the file alone
    rm -f "$folder/out/$file"
    (cd -- "$folder" && rt "$verb") >"$log" 2>&1 </dev/null || [ "$verb" = run ] || rm -f "$folder/out/$file"
    [ -e "$folder/out/$file" ] || die "rt $verb in crates/$2 failed: $(tail -n 1 "$log") (all of it: $log)"
    cp "$folder/out/$file" "$made"
    touch -r "$log.begun" "$made"
    rm -f "$log.begun"
}

# What is proved is for x86-64: elsewhere it would run under an emulator of the machine's own.
find_kit() {
    command -v rt >/dev/null || die 'rt, the Rattle kit, is not on the path'
    kit=$(dirname "$(rt doc)")
    tools=$kit/toolchain/bin
    lib=$kit/toolchain/lib
    [ -x "$tools/clang" ] || die "the kit has no toolchain at $kit/toolchain"
    emulator=
    [ "$(uname -m)" = x86_64 ] || emulator=$(command -v qemu-x86_64) ||
        die "the kit is for x86-64, and there is no qemu-x86_64 here to run what it builds"
}

# The static library of the C functions, proved and compiled where it is missing or older than its sources. The crate of the
# exports is host_c; hosts link the archive as libhost.a.
archive=$root/target/staticlib/libhost.a

build_archive() {
    ! is_stale_crate "$archive" host_c || make_by_rt "$archive" host_c lib libhost_c.a
}

# A crate's program, proved, compiled and held to what it is to write, where it is missing or older than its sources.
build_program() { # build_program CRATE
    built_program=$root/target/bin/$1
    is_stale_crate "$built_program" "$1" || return 0
    make_by_rt "$built_program" "$1" run "$1"
    writes_its_stdout "$1" || {
        rm -f "$built_program"
        die "crates/$1 does not write what its stdout has, or does not end with 0 (what it writes: $wrote)"
    }
    rm -f "$wrote"
}

# Run on the crate's stdin, with its args, where its data lies, as rt ci runs it, the program writes the crate's stdout.
writes_its_stdout() { # writes_its_stdout CRATE
    folder=$root/crates/$1
    given=$folder/stdin
    [ -e "$given" ] || given=/dev/null
    where=$folder/data
    [ -d "$where" ] || where=$root/target
    wrote=$root/target/$1.wrote
    set -- "$built_program"
    if [ -e "$folder/args" ]; then
        while IFS= read -r word || [ -n "$word" ]; do set -- "$@" "$word"; done <"$folder/args"
    fi
    (cd -- "$where" && run_program "$@" <"$given") >"$wrote" && cmp -s "$wrote" "$folder/stdout"
}

# A program over the kit's C library, out of objects and archives.
link_program() { # link_program PROGRAM OBJECTS..
    program=$1
    shift
    "$tools/ld.lld" -o "$program" -pie -dynamic-linker /lib64/ld-linux-x86-64.so.2 "$lib/Scrt1.o" "$lib/crti.o" \
        "$lib/crtbeginS.o" "$@" "$lib/libc.so.6" "$lib/libc_nonshared.a" "$lib/crtendS.o" "$lib/crtn.o"
}

# The emulator is slow at the C library's own way with large copies and fills, so these are put off; elsewhere they stay.
tunables=glibc.cpu.x86_rep_movsb_threshold=100000000:glibc.cpu.x86_rep_stosb_threshold=100000000

run_program() { # run_program PROGRAM WORDS..
    ${emulator:+env "GLIBC_TUNABLES=$tunables" "$emulator"} "$lib/ld-linux-x86-64.so.2" --library-path "$lib" "$@"
}
