# Sourced by the scripts beside it: sets what builds and runs x86-64 programs on this machine.
#
# The proved archive is x86-64, so everything that links it is. On an x86-64 machine the native compilers are taken.
# On an Arm machine Debian's cross compiler, its user-mode emulator and its Rust compiler with the standard library for
# amd64 are fetched once; the Rust packages are only unpacked into a cache below target/, nothing of theirs is installed.
#
# Sets and exports: HOST_CC, HOST_LINK (how it links a program), HOST_RUN (empty, or the emulator), HOST_PROGRAMS (where
# cargo puts programs), HOST_CACHE, HOST_ARCHIVES, and what cargo reads.
# Asks for nothing and may be sourced any number of times. Answers 1 where the machine cannot be set up.

HOST_DIR=$(cd "$(dirname "${BASH_SOURCE[0]}")" && pwd)
HOST_REPOSITORY=$(dirname "$HOST_DIR")
HOST_CACHE=${MAKOWIST_HOST_CACHE:-$HOST_REPOSITORY/target/host}
HOST_TRIPLE=x86_64-unknown-linux-gnu
HOST_ARCHIVES=$HOST_REPOSITORY/target/staticlib
HOST_QEMU=/usr/bin/qemu-x86_64

# Debian's packages, each asked for by the command or file that it brings.
host_install() {
    local missing=()
    while [ $# -ge 2 ]; do
        command -v "$1" >/dev/null 2>&1 || [ -e "$1" ] || missing+=("$2")
        shift 2
    done
    [ ${#missing[@]} -eq 0 ] && return 0
    echo "host: installing ${missing[*]}" >&2
    apt-get update -qq >&2 &&
        DEBIAN_FRONTEND=noninteractive apt-get install -y -qq --no-install-recommends "${missing[@]}" >/dev/null
}

# A Rust compiler that runs here and also has the standard library for amd64, unpacked into $HOST_CACHE/rust.
# The package lists of both architectures are kept in the cache, so that the machine's own stay as they are.
host_unpack_rust() {
    local into=$HOST_CACHE/rust root=$HOST_CACHE/rust/root
    [ -e "$into/ready" ] && return 0
    echo "host: fetching Debian's Rust for amd64" >&2
    rm -rf "$into"
    mkdir -p "$root" "$into/packages" "$into/lists/partial" "$into/archives/partial" "$into/bin" "$into/lib" || return 1
    local here
    here=$(dpkg --print-architecture) || return 1
    cat >"$into/apt.conf" <<CONF
APT::Architecture "$here";
APT::Architectures { "$here"; "amd64"; };
APT::Sandbox::User "root";
Dir::State::lists "$into/lists";
Dir::Cache "$into";
Dir::Cache::archives "$into/archives";
CONF
    local -x APT_CONFIG=$into/apt.conf
    apt-get update -qq >&2 || return 1
    local version series llvm
    version=$(apt-cache policy rustc-web | sed -n 's/^ *Candidate: //p')
    series=$(printf '%s' "$version" | sed 's/^\([0-9]*\.[0-9]*\).*/\1/')
    llvm=$(apt-cache show "libstd-rust-web-$series=$version" | sed -n 's/^Depends:.*\(libllvm[0-9]*\).*/\1/p' | sed -n 1p)
    [ -n "$version" ] && [ -n "$llvm" ] || return 1
    (cd "$into/packages" && apt-get download -qq "rustc-web=$version" "libstd-rust-web-$series=$version" \
        "libstd-rust-web-dev:$here=$version" "libstd-rust-web-dev:amd64=$version" "$llvm") >&2 || return 1
    local package
    for package in "$into"/packages/*.deb; do
        dpkg -x "$package" "$root" || return 1
    done
    rm -rf "$into/packages" "$into/archives" "$into/lists"
    local driver backend program
    driver=$(find "$root" -name 'librustc_driver*.so' -printf '%h\n' | sed -n 1p)
    backend=$(find "$root" -name 'libLLVM*.so*' -printf '%h\n' | sed -n 1p)
    for program in rustc rustdoc; do
        printf '#!/bin/sh\nLD_LIBRARY_PATH="%s:%s" exec "%s/usr/bin/%s" --sysroot "%s/usr" "$@"\n' \
            "$driver" "$backend" "$root" "$program" "$root" >"$into/bin/$program" || return 1
        chmod +x "$into/bin/$program"
    done
    # The cross package's libm.a is a linker script with the folder of a native machine in it.
    local script
    script=$("$HOST_CC" -print-file-name=libm.a)
    sed "s,/usr/lib/x86_64-linux-gnu/,$(cd "$(dirname "$script")" && pwd)/,g" "$script" >"$into/lib/libm.a" || return 1
    "$into/bin/rustc" --version >&2 && touch "$into/ready"
}

host_set_up() {
    mkdir -p "$HOST_CACHE" || return 1
    local flags="-C target-feature=+crt-static -C relocation-model=static"
    case $(uname -m) in
    x86_64)
        host_install gcc gcc gcc libc6-dev cargo cargo-web rustc rustc-web || return 1
        HOST_CC=gcc HOST_LINK=-static HOST_RUN=
        ;;
    aarch64)
        host_install cargo cargo-web \
            x86_64-linux-gnu-gcc gcc-x86-64-linux-gnu \
            /usr/x86_64-linux-gnu/lib/libc.a libc6-dev-amd64-cross \
            "$HOST_QEMU" qemu-user || return 1
        HOST_CC=x86_64-linux-gnu-gcc
        HOST_LINK="-static -L$HOST_CACHE/rust/lib"
        HOST_RUN="$HOST_QEMU -cpu qemu64"
        host_unpack_rust || return 1
        export RUSTC=$HOST_CACHE/rust/bin/rustc RUSTDOC=$HOST_CACHE/rust/bin/rustdoc
        export CARGO_TARGET_X86_64_UNKNOWN_LINUX_GNU_RUNNER=$HOST_RUN
        flags="$flags -L native=$HOST_CACHE/rust/lib"
        ;;
    *)
        echo "host: no way to run x86-64 programs on $(uname -m) is known" >&2
        return 1
        ;;
    esac
    export HOST_CC HOST_LINK HOST_RUN HOST_QEMU HOST_TRIPLE HOST_CACHE HOST_ARCHIVES HOST_DIR HOST_REPOSITORY
    export CARGO_TARGET_X86_64_UNKNOWN_LINUX_GNU_LINKER=$HOST_CC
    export CARGO_TARGET_X86_64_UNKNOWN_LINUX_GNU_RUSTFLAGS=$flags
    export CARGO_BUILD_TARGET=$HOST_TRIPLE CARGO_TARGET_DIR=$HOST_CACHE/cargo CARGO_NET_OFFLINE=true
    HOST_PROGRAMS=$CARGO_TARGET_DIR/$HOST_TRIPLE/release
    export HOST_PROGRAMS
}

host_set_up
