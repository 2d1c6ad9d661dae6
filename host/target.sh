# Sourced: how programs for the library's processor are built and started here. Sets `cc` and `nm`, which `need_cc` installs, and, where
# this machine is another, `emulated`, the words that start a program. Installs what is missing by the name of its Debian package.

stop() {
    echo "$0: $*" >&2
    exit 2
}

# need TOOL PACKAGE OPTION.. : the Debian package that has the tool, and how it is installed. Another install is waited for.
need() {
    command -v "$1" >/dev/null && return
    [ "$(id -u)" = 0 ] || stop "$1 is missing: install the package $2"
    { apt-get update -q && apt-get install -y -q -o DPkg::Lock::Timeout=300 "${@:2}"; } >&2 ||
        stop "could not install the package $2"
}

# Whoever only starts programs needs no compiler.
need_cc() {
    need "$cc" "$cc_package"
}

if [ "$(uname -m)" = x86_64 ]; then
    cc=gcc
    cc_package=gcc
    emulated=()
else
    need qemu-x86_64 qemu-user
    cc=x86_64-linux-gnu-gcc
    cc_package=gcc-x86-64-linux-gnu
    emulated=(qemu-x86_64 -L /usr/x86_64-linux-gnu)
fi
nm=${cc%gcc}nm
strict=(-std=c11 -Wall -Wextra -Wpedantic -Werror)
