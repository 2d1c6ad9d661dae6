# Sourced after target.sh where the processor is not x86-64: cargo then builds for x86-64. The library is x86-64 code, and a ratio
# says something only where both sides are code of one processor, run in one way. The compiler is Debian's, since the standard
# library for another processor is a package of it; the two must be of one version.
# shellcheck source=host/packages.sh
. host/packages.sh

# rust_library VERSION FOLDER : Rust's standard library for amd64 in the folder, which appears only when it is complete.
rust_library() {
    local own
    own=$(mktemp -d "$PWD/target/rust.XXXXXX")
    lists_amd64 "$own"
    fetch_amd64 "$own" "libstd-rust-web-dev=$1"
    mkdir -p "$(dirname "$2")"
    mv -T "$own/root" "$2"
    rm -r "$own"
}

need /usr/bin/rustc rustc-web
version=$(dpkg-query -W -f '${Version}' rustc-web) || stop "/usr/bin/rustc is not of the package rustc-web"
library=$PWD/target/amd64/rust-$version
[ -d "$library" ] || rust_library "$version" "$library" >&2
export RUSTC=/usr/bin/rustc
export CARGO_BUILD_TARGET=x86_64-unknown-linux-gnu
export CARGO_TARGET_X86_64_UNKNOWN_LINUX_GNU_LINKER=$cc
export CARGO_TARGET_X86_64_UNKNOWN_LINUX_GNU_RUSTFLAGS=--sysroot=$library/usr
