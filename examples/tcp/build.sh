#!/bin/sh
# Fetches Debian's source of lwIP with apt-get, checks it, and builds from it sums.wasm, and repaired.wasm with repair.patch in the
# server, each with its places. If the guests' kit is missing it is installed first, as root. The modules are in the repository, so
# this is for a change of the guest.
# Usage: build.sh
here=$(CDPATH='' cd -- "$(dirname -- "$0")" && pwd) || exit 1
. "$here/../../tools/usage.sh"
. "$here/../fetch_source.sh"
folder=$(mktemp -d) || exit 1
trap 'rm -rf "$folder"' EXIT

# Compiles a guest with the core of lwIP, of which the linker takes what is called: NAME.
build() {
    "$here/../../guests/cc" --printf whole -Wall -Wextra -I "$here" -I lwip-2.1.3/src/include "$1.c" lwip-2.1.3/src/core/*.c lwip-2.1.3/src/core/ipv4/*.c \
        -o "$1.wasm" && cp "$1.wasm" "$1.places" "$here"
}

install_kit "$here/../.." && cd "$folder" && fetch_source lwip 2.1.3+dfsg1-2 << 'SUMS' || exit 1
0a8276d09fc4e97bbba2f953d74af2388fc2195ea156be9d7589e297a68fde24  lwip_2.1.3+dfsg1.orig.tar.xz
c5a48413d362cc757032cdd58f528f75eb64ee781ca46ca24f010b49b0e62a90  lwip_2.1.3+dfsg1-2.debian.tar.xz
SUMS
tar -xJf lwip_2.1.3+dfsg1.orig.tar.xz && cd lwip-2.1.3 && tar -xJf ../lwip_2.1.3+dfsg1-2.debian.tar.xz || exit 1
for name in $(cat debian/patches/series); do patch -s -p1 < "debian/patches/$name" || exit 1; done
cp COPYING "$here/LICENSE.lwip" && cd .. || exit 1
cp "$here/sums.c" . && cp sums.c repaired.c && patch -s repaired.c "$here/repair.patch" || exit 1
build sums && build repaired || exit 1
"$here/../../guests/places" "$here/sums.places" < "$here/debug.in" > "$here/debug"
