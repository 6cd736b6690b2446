# To be sourced after kit.sh and debian.sh: rustc, for this machine or for x86-64.
# shellcheck shell=sh disable=SC2034,SC2154

is_new() { # the version is 1.85 or later, which has edition 2024
    minor=$("$@" --version 2>/dev/null | sed -n 's/^rustc 1\.\([0-9]*\)\..*/\1/p')
    [ -n "$minor" ] && [ "$minor" -ge 85 ]
}

# The compiler, its libraries, and what these ask for in turn, without what is installed.
compiler_packages() {
    echo rustc-web
    tool=apt-cache apt depends --recurse --important libstd-rust-web-dev | grep '^lib[^:]*$' | while read -r name; do
        dpkg -s "$name" >/dev/null 2>&1 || echo "$name"
    done
}

# Debian's rustc, fetched where it is missing, with the libraries named besides. All come from one state of Debian's lists,
# so that they are of one version. Sets rust.
take_debians() { # take_debians LIBRARIES..
    own=$packages/usr/bin/rustc
    if [ ! -x "$own" ]; then
        know_packages "$@" rustc-web
        # shellcheck disable=SC2046
        fetch $(compiler_packages) "$@"
    fi
    folder=$(ls -d "$packages"/usr/lib/*-linux-gnu | head -n 1)
    rust="env LD_LIBRARY_PATH=$folder:$packages/usr/lib $own --sysroot $packages/usr"
    # shellcheck disable=SC2086
    is_new $rust || die "Debian's rustc-web is $($rust --version 2>&1 | head -n 1); 1.85 or later is asked for"
}

# For this machine: its own compiler where it is new enough, else Debian's. Sets rust and version.
find_rustc() {
    if is_new rustc; then
        rust=rustc
    else
        say "rustc here is $(rustc --version 2>/dev/null || echo missing), 1.85 is asked for: taking Debian's rustc-web"
        take_debians
    fi
    command -v cc >/dev/null || die 'rustc links with cc, and there is none here: install gcc'
    version=$($rust --version)
}

# For x86-64: the machine's own where it is one, else Debian's with its library for x86-64, in a folder of their own.
find_rustc_x86() {
    if [ "$(uname -m)" = x86_64 ]; then
        find_rustc
        return
    fi
    others=$packages
    packages=$fetched/for-x86-64
    take_debians libstd-rust-web-dev:amd64
    packages=$others
    rust="$rust --target x86_64-unknown-linux-gnu"
    version=$($rust --version)
}
