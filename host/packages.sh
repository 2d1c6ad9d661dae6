# Sourced after target.sh: Debian packages for amd64 on a machine of another processor, unpacked and not installed.

# lists_amd64 FOLDER : sets `amd64`, the options of an apt for amd64 that keeps all of its own in the folder, and fetches its
# lists. This machine's lists and packages stay as they are; the sources and the signatures that are checked are this machine's. It
# does not change to apt's user, who may not be let into the folder.
lists_amd64() {
    amd64=(-q -o APT::Architecture=amd64 -o APT::Architectures=amd64 -o APT::Sandbox::User=root -o Acquire::Languages=none
        -o "Dir::State=$1/state" -o Dir::State::status=/dev/null -o "Dir::Cache=$1/cache")
    mkdir "$1/state" "$1/cache"
    apt-get "${amd64[@]}" update || stop "could not fetch the lists of packages for amd64"
}

# fetch_amd64 FOLDER PACKAGE.. : these packages alone, without those that they depend on, unpacked in FOLDER/root. A package may
# be NAME=VERSION. lists_amd64 comes first.
fetch_amd64() {
    local folder=$1 package
    shift
    (cd "$folder" && apt-get "${amd64[@]}" download "$@") || stop "could not fetch packages for amd64: $*"
    for package in "$folder"/*.deb; do
        dpkg-deb -x "$package" "$folder/root" || stop "could not unpack $package"
    done
}
