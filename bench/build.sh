# To be sourced after kit.sh, debian.sh and rust.sh: the bench, below bench/fetched, which git ignores. Wants bench, its folder.
# shellcheck shell=sh disable=SC2034,SC2154

built=$bench/fetched

# The archive of the entries by value, which only the bench links.
build_values() {
    values=$root/target/staticlib/libbench_values.a
    ! is_stale_crate "$values" bench_values_c || make_by_rt "$values" bench_values_c lib libbench_values_c.a
}

# The program and all that it takes from Rust, as an archive, since the kit's linker and C library make the program of it.
build_rust() {
    release=$root/oracle/fetched/release
    is_stale "$built/libbench.a" "$bench"/*.rs "$bench/build.sh" "$root/oracle/beside" "$root/include" \
        "$release/libsummerset.rlib" || return 0
    say "compiling the bench with $version"
    # shellcheck disable=SC2086
    $rust --crate-name bench --crate-type staticlib --edition 2024 -C opt-level=3 -C panic=abort -D warnings -L "$release" \
        --extern "summerset=$release/libsummerset.rlib" --remap-path-prefix "$root/=" -o "$built/libbench.a" \
        "$bench/main.rs" || die "the bench does not compile with $version"
}

build_bench() {
    mkdir -p "$built"
    "$root/oracle/build" release
    find_kit
    build_archive
    build_values
    find_rustc_x86
    build_rust
    link_program "$built/bench" "$built/libbench.a" "$archive" "$values" "$lib/libgcc_s.so.1" "$lib/libm.so.6"
}
