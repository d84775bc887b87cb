# To be sourced: the tools for x86-64, the only processor that the proved library is built for, and the library itself.
# An x86-64 machine uses its own gcc, cargo and rustc. Any other one uses Debian's cross compilers and emulator.
x86_root=$(cd "$(dirname "${BASH_SOURCE[0]}")/.." && pwd)

# What a machine of another processor needs. Its own cargo may come with no x86-64 library, so Debian's is taken.
x86_packages=(gcc-x86-64-linux-gnu libc6-dev-amd64-cross rustc cargo libstd-rust-dev:amd64 qemu-user)

x86_native() {
    [ "$(uname -m)" = x86_64 ]
}

x86_target() {
    echo x86_64-unknown-linux-gnu
}

# Makes the tools ready, or says what is missing and fails. The other functions take it that this was called.
x86_ready() {
    if x86_native; then
        x86_has gcc cargo rustc
    else
        x86_install
    fi
}

# Whether every named command is there; says which one is not.
x86_has() {
    local name
    for name in "$@"; do
        if ! command -v "$name" >/dev/null; then
            echo "x86-64: no $name on this machine" >&2
            return 1
        fi
    done
}

# Prints the packages that are not installed.
x86_missing() {
    local package
    for package in "${x86_packages[@]}"; do
        [ "$(dpkg-query -W -f '${db:Status-Status}' "$package" 2>/dev/null)" = installed ] || echo "$package"
    done
}

# Installs the missing packages.
x86_install() {
    local missing log
    x86_has dpkg-query apt-get || return 1
    mapfile -t missing < <(x86_missing)
    [ ${#missing[@]} -gt 0 ] || return 0
    echo "x86-64: installing ${missing[*]}" >&2
    log=$(mktemp)
    if ! x86_fetch "${missing[@]}" >"$log" 2>&1; then
        tail -n 20 "$log" >&2
        rm -f "$log"
        echo "x86-64: cannot install ${missing[*]} (it takes root, and Debian's archive)" >&2
        return 1
    fi
    rm -f "$log"
}

# Debian packages, some of them of the amd64 architecture, which has to be known before the lists are read.
x86_fetch() {
    local apt=(apt-get -o DPkg::Lock::Timeout=300 -qq)
    dpkg --add-architecture amd64 &&
        "${apt[@]}" update &&
        DEBIAN_FRONTEND=noninteractive "${apt[@]}" install -y --no-install-recommends "$@"
}

# The system's C compiler.
x86_cc() {
    if x86_native; then gcc "$@"; else x86_64-linux-gnu-gcc "$@"; fi
}

# Cargo, offline. The target is named on every machine, so that what it builds is in the same place.
x86_cargo() {
    local -x CARGO_NET_OFFLINE=true CARGO_BUILD_TARGET
    CARGO_BUILD_TARGET=$(x86_target)
    if x86_native; then
        cargo "$@"
    else
        RUSTC=/usr/bin/rustc \
            CARGO_TARGET_X86_64_UNKNOWN_LINUX_GNU_LINKER=x86_64-linux-gnu-gcc \
            CARGO_TARGET_X86_64_UNKNOWN_LINUX_GNU_RUNNER='qemu-x86_64 -L /' \
            /usr/bin/cargo "$@"
    fi
}

# Runs an x86-64 program.
x86_run() {
    if x86_native; then "$@"; else qemu-x86_64 -L / "$@"; fi
}

# Prints the path of the proved library: the one that GJALVORN_ARCHIVE names, or else one that is proved and built now.
archive() {
    if [ -n "${GJALVORN_ARCHIVE-}" ]; then
        realpath -e -- "$GJALVORN_ARCHIVE"
    else
        (cd "$x86_root/crates/ffi" && rt lib) >&2 && echo "$x86_root/crates/ffi/out/libffi.a"
    fi
}
