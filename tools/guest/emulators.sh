# shellcheck shell=bash
# Read by scripts in bash: what emulates the machine of the guest. It takes `arch`, Debian's name of it.
# shellcheck disable=SC2034
case $arch in
amd64)
    emulator=qemu-system-x86_64 emulator_package=qemu-system-x86 console=ttyS0 board=()
    emulated=(-cpu Nehalem)
    ;;
arm64)
    emulator=qemu-system-aarch64 emulator_package=qemu-system-arm console=ttyAMA0 board=(-M virt)
    emulated=("${board[@]}" -cpu cortex-a72)
    ;;
esac
