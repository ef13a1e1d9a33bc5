# shellcheck shell=bash
# Read by scripts in bash: for which machine they build. ARCH is Debian's name of it, and without ARCH it is the one on
# which they run. It needs words.sh, and for `build_for_machine` cargo.sh and packages.sh.

# Sets `arch` and `target`, Debian's name and the compiler's, `built`, the folder of what is built for it, and `whose`:
# `own` for the machine on which this runs, else `other`. Ends the script where there is no such machine.
look_at_machine() {
    local told
    told=$(python3 "$(dirname "${BASH_SOURCE[0]}")/../../.ci/machines.py" 2>&1) || refuse_words "${told#*: }"
    # shellcheck disable=SC2034
    read -r arch target built whose <<<"$told"
}

# Has cargo build for that machine from here on, and run what it tests by qemu where that is another one.
build_for_machine() {
    [ "$whose" = other ] || return 0
    export CARGO_BUILD_TARGET=$target CARGO_TARGET_AARCH64_UNKNOWN_LINUX_GNU_LINKER=aarch64-linux-gnu-gcc
    export CARGO_TARGET_AARCH64_UNKNOWN_LINUX_GNU_RUNNER=qemu-aarch64
}

# The packages that this takes, and with the word `test` those that run it; none for the machine itself.
packages_for_machine() {
    [ "$whose" = other ] || return 0
    missing_packages "${cross_packages[@]}"
    [ "${1:-}" != test ] || missing_packages "${emulating_packages[@]}"
}

# Makes a program for that machine one that runs here, by a script of its name in a folder beside it, and names that.
emulated() {
    local script
    script=$(dirname "$1")/by-qemu/$(basename "$1")
    mkdir -p "$(dirname "$script")"
    printf '#!/bin/sh\nexec qemu-aarch64 %q "$@"\n' "$1" >"$script"
    chmod 755 "$script"
    echo "$script"
}
