# Sourced by the scripts beside it. Afterwards cargo builds and runs x86-64 programs: on such a machine by itself, on another by
# Debian's cross compiler and emulator. Where there is no way, the script that sources it ends with status 77 after one line,
# which begins with $1.
PATH=$PATH:$HOME/.cargo/bin

not_tested() {
    echo "$1: not tested, $2"
    exit 77
}
command -v cargo >/dev/null || not_tested "$1" "there is no cargo"

if [ "$(uname -m)" != x86_64 ]; then
    command -v dpkg >/dev/null || not_tested "$1" "the library links into x86-64 programs alone, and there is no dpkg"
    { dpkg --print-foreign-architectures | grep -qx amd64 || dpkg --add-architecture amd64; } 2>/dev/null &&
        tools/install.sh rustc-web libstd-rust-web-dev:amd64 libc6:amd64 gcc-x86-64-linux-gnu libc6-dev-amd64-cross qemu-user 2>/dev/null ||
        not_tested "$1" "the library links into x86-64 programs alone, and Debian's cross compiler and emulator are not to be had"
    # a compiler and a standard library of one version: Debian's
    export RUSTC=/usr/bin/rustc RUSTDOC=/usr/bin/rustdoc
    export CARGO_BUILD_TARGET=x86_64-unknown-linux-gnu
    export CARGO_TARGET_X86_64_UNKNOWN_LINUX_GNU_LINKER=x86_64-linux-gnu-gcc
    # the emulated program's libraries are where Debian installs those of another architecture
    export CARGO_TARGET_X86_64_UNKNOWN_LINUX_GNU_RUNNER="qemu-x86_64 -L /"
fi
