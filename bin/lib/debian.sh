# To be sourced after kit.sh: Debian's packages, unpacked below fetched/, which git ignores. Nothing is installed, and nobody
# has to be root.
# shellcheck shell=sh disable=SC2034,SC2154

fetched=$root/fetched
packages=$fetched/packages

# With the machine's own lists of packages, or, where they lack something, with lists fetched for this alone.
apt() {
    [ -d "$fetched/apt/lists" ] && set -- -o "Dir::State::lists=$fetched/apt/lists" -o "Dir::Cache=$fetched/apt" "$@"
    # those for x86-64 are wanted on every machine
    "${tool:-apt-get}" -q -o APT::Architectures::="$(dpkg --print-architecture)" -o APT::Architectures::=amd64 "$@"
}

apt_said() { grep -E '^(E|Err|W):' "$fetched/apt.log" | head -n 1; }

know_packages() {
    command -v apt-get >/dev/null && command -v dpkg >/dev/null ||
        die "there is no apt-get or dpkg here to fetch Debian's packages with: $*"
    mkdir -p "$fetched"
    apt download --print-uris "$@" >"$fetched/apt.log" 2>&1 && return
    mkdir -p "$fetched/apt/lists/partial" "$fetched/apt/archives/partial"
    apt update >"$fetched/apt.log" 2>&1 && apt download --print-uris "$@" >>"$fetched/apt.log" 2>&1 ||
        die "Debian's packages cannot be found: $*; $(apt_said)"
}

fetch() { # fetch PACKAGES..: each is unpacked into $packages
    know_packages "$@"
    say "fetching $*"
    mkdir -p "$packages"
    (cd "$packages" && apt download "$@") >"$fetched/apt.log" 2>&1 ||
        die "Debian's packages cannot be fetched: $*; $(apt_said)"
    for package in "$packages"/*.deb; do
        dpkg -x "$package" "$packages"
        rm "$package"
    done
}
