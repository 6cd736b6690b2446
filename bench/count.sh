# To be sourced after kit.sh and debian.sh: an emulator that counts x86-64 instructions, on every machine.
# shellcheck shell=sh disable=SC2034,SC2154

# The one that programs run under, else the machine's own, else Debian's. Sets counter. find_kit comes first.
find_counter() {
    counter=${emulator:-$(command -v qemu-x86_64 || true)}
    [ -z "$counter" ] || return 0
    counter=$packages/usr/bin/qemu-x86_64-static
    [ -x "$counter" ] || fetch qemu-user-static
    [ -x "$counter" ] || die "Debian's qemu-user-static has no usr/bin/qemu-x86_64-static"
}

# One instruction at a time is asked for by both names that qemu has had for it. A copy that is one instruction to the
# processor but many steps to the emulator is kept out of the count by the tunables.
trace_instructions() { # trace_instructions WORDS..: runs them, and writes a line that begins with Trace for each instruction
    QEMU_SINGLESTEP=1 QEMU_ONE_INSN_PER_TB=1 "$counter" -E "GLIBC_TUNABLES=$tunables" -d exec,nochain -D /dev/stdout "$@"
}
