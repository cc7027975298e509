# For scripts of examples that build from Debian's sources, which read this by `.`: what they need is installed where it is missing, and
# a source package is fetched and checked in the present folder. Debian's own lists of sources are left alone.

# Installs the guests' kit and what unpacks sources, as root, unless they are there.
install_kit() {
    [ -e "${WASI_LIBC:-/usr}/include/wasm32-wasi/stdio.h" ] && command -v clang wasm-ld patch xz bzip2 > /dev/null && return
    "$1/guests/install.sh" && apt-get install -y --no-install-recommends patch xz-utils bzip2
}

# Fetches the archives of a source package: NAME VERSION. The checksums that they have to have come from the standard input.
fetch_source() {
    mkdir lists cache || return 1
    sed 's/^Types: .*/Types: deb-src/' /etc/apt/sources.list.d/debian.sources > source.sources || return 1
    apt_of_sources update && apt_of_sources source --download-only "$1=$2" && sha256sum -c --quiet -
}

apt_of_sources() {
    apt-get -q -o Dir::Etc::sourceparts=/dev/null -o Dir::Etc::sourcelist="$PWD/source.sources" \
        -o Dir::State::lists="$PWD/lists" -o Dir::Cache="$PWD/cache" -o APT::Sandbox::User=root "$@"
}
