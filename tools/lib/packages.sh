# shellcheck shell=bash
# Read by scripts in bash: how they install what they need of Debian's packages.

# What building the bridge takes.
# shellcheck disable=SC2034
bridge_packages=(cargo rustc librust-ahash-dev librust-hex-dev librust-humantime-dev librust-libc-dev
    librust-serde-dev librust-serde-json-dev)

# What building for arm64 takes on another machine, and what runs it there.
# shellcheck disable=SC2034
cross_packages=(gcc-aarch64-linux-gnu libc6-dev-arm64-cross libstd-rust-dev:arm64)
# shellcheck disable=SC2034
emulating_packages=(qemu-user libc6:arm64 libgcc-s1:arm64)

# Those of these packages that aren't installed, a line each.
missing_packages() {
    local package
    for package in "$@"; do
        [ "$(dpkg-query -W -f '${db:Status-Status}' "$package" 2>/dev/null)" = installed ] || echo "$package"
    done
}

# Installs these packages, where there are any, and says so; ends the script where it can't. It takes apt-get, and the
# rights of root or sudo.
install_packages() {
    local as_root=()
    [ $# != 0 ] || return 0
    if ! command -v apt-get >/dev/null; then
        echo "$0: missing: $*, and there is no apt-get to install them by" >&2
        exit 1
    fi
    if [ "$(id -u)" != 0 ]; then
        if ! command -v sudo >/dev/null; then
            echo "$0: missing: $*: install them as root" >&2
            exit 1
        fi
        as_root=(sudo)
    fi
    echo "$0: these packages of Debian are missing, and are installed now: $*" >&2
    if [[ "$*" == *:arm64* && $(dpkg --print-architecture) != arm64 ]]; then
        "${as_root[@]}" dpkg --add-architecture arm64 || exit 1
    fi
    "${as_root[@]}" apt-get update >&2 || exit 1
    "${as_root[@]}" env DEBIAN_FRONTEND=noninteractive apt-get install -y --no-install-recommends "$@" >&2 || exit 1
}
