#!/bin/sh
# Fetches Debian's source of c-ares with apt-get, checks it, and builds from it dns.wasm, and faulty.wasm with the patch of
# CVE-2023-32067 taken back, each with its places. Where the guests' kit is missing it is installed first, as root. The modules are in
# the repository, so this is for a change of the guest.
# Usage: build.sh
here=$(CDPATH='' cd -- "$(dirname -- "$0")" && pwd) || exit 1
. "$here/../../tools/usage.sh"
. "$here/../fetch_source.sh"
folder=$(mktemp -d) || exit 1
trap 'rm -rf "$folder"' EXIT

# Compiles the guest with the c-ares of a folder: FOLDER NAME.
build() {
    cp "$here/dns.c" "$2.c" || return 1
    # shellcheck disable=SC2046 # Names of the sources have no blanks.
    "$here/../../guests/build" --libc --printf whole -D HAVE_CONFIG_H -I "$here" -I "$1/include" -I "$1/src/lib" "$2.c" \
        --with $(find "$1/src/lib" -maxdepth 1 -name '*.c' ! -name 'windows*' | sort) || return 1
    cp "$2.wasm" "$2.places" "$here"
}

install_kit "$here/../.." && cd "$folder" && fetch_source c-ares 1.18.1-3 << 'SUMS' || exit 1
1a7d52a8a84a9fbffb1be9133c0f6e17217d91ea5a6fa61f6b4729cda78ebbcf  c-ares_1.18.1.orig.tar.gz
15d38a23182dc143c655b0225d21baa291a2be17435c8a7f427189e3e314fac9  c-ares_1.18.1-3.debian.tar.xz
SUMS
tar -xzf c-ares_1.18.1.orig.tar.gz && cd c-ares-1.18.1 && tar -xJf ../c-ares_1.18.1-3.debian.tar.xz || exit 1
for name in $(cat debian/patches/series); do patch -s -p1 < "debian/patches/$name" || exit 1; done
cp LICENSE.md "$here/LICENSE.cares" && cd .. && cp -r c-ares-1.18.1 faulty || exit 1
patch -s -R -d faulty -p1 < faulty/debian/patches/CVE-2023-32067.diff || exit 1
build c-ares-1.18.1 dns && build faulty faulty || exit 1
"$here/../../guests/places" "$here/faulty.places" < "$here/debug.in" > "$here/debug"
